//! How much stack a call uses: it runs on a stack of its own that is painted before and looked at after (x86-64).

use std::arch::asm;
use std::ffi::c_void;

/// Words of 16 bytes, so that the stack is aligned as C wants it: 512 KiB.
const WORDS: usize = 32_768;
const PAINT: u128 = 0xA5A5_5A5A_C3C3_3C3C_0F0F_F0F0_9696_6969;

/// The bytes of stack that a run overwrites, its return address included.
pub fn used<F: FnMut()>(mut run: F) -> usize {
    let mut stack = vec![PAINT; WORDS];
    let top = stack.as_mut_ptr_range().end;
    // Nothing unwinds out of the call, and it stays on the 512 KiB: else its lowest word is overwritten.
    unsafe { call_on(top.cast(), enter::<F>, (&raw mut run).cast()) };
    assert_eq!(stack[0], PAINT, "the painted stack is too small");
    let untouched = stack.iter().take_while(|&&word| word == PAINT).count();
    16 * (WORDS - untouched)
}

extern "C" fn enter<F: FnMut()>(run: *mut c_void) {
    let run: *mut F = run.cast();
    unsafe { (*run)() }
}

/// Calls a function while the stack pointer is at `top`.
unsafe fn call_on(top: *mut c_void, function: extern "C" fn(*mut c_void), argument: *mut c_void) {
    asm!(
        "mov r12, rsp",
        "mov rsp, {top}",
        "call {function}",
        "mov rsp, r12",
        top = in(reg) top,
        function = in(reg) function,
        in("rdi") argument,
        out("r12") _,
        clobber_abi("C"),
    );
}

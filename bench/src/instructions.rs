//! The instructions of single calls, counted by valgrind's callgrind, under which `bench/instructions` runs this: each call is dumped apart,
//! by a name of four parts, table, shape, number of pipes and side.

use crate::calls::{plain, proved, Call, SHEET_MOST};
use std::arch::asm;
use std::ffi::CString;
use std::hint::black_box;

/// Callgrind's requests: count from 0, and write what was counted under a name.
const ZERO_STATS: usize = 0x4354_0001;
const DUMP_STATS_AT: usize = 0x4354_0003;

/// Tells valgrind something; outside valgrind these instructions do nothing.
fn request(code: usize, argument: usize) {
    let words = [code, argument, 0, 0, 0, 0];
    unsafe {
        asm!(
            "rol rdi, 3",
            "rol rdi, 13",
            "rol rdi, 61",
            "rol rdi, 51",
            "xchg rbx, rbx",
            in("rax") &raw const words,
            inout("rdx") 0usize => _,
        );
    }
}

fn counted(name: &str, mut run: impl FnMut() -> i32) {
    let name = CString::new(name).expect("a name without a zero byte");
    // once before, so that no page is touched for the first time
    black_box(run());
    request(ZERO_STATS, 0);
    black_box(run());
    request(DUMP_STATS_AT, name.as_ptr() as usize);
}

/// One call on one list, on both sides.
pub fn put(table: &str, shape: &str, pipes: usize, call: Call, list: &[u8]) {
    let mut answer = vec![0; SHEET_MOST];
    counted(&format!("{table}|{shape}|{pipes}|proved"), || {
        proved(call, black_box(list), &mut answer)
    });
    counted(&format!("{table}|{shape}|{pipes}|plain"), || {
        plain(call, black_box(list), &mut answer)
    });
}

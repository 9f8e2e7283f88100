//! The calls of the archive, as C makes them.

use std::ptr;

/// The bytes of stack that a call has to stay below, as include/pnl.h promises.
pub const STACK_BOUND: usize = 192 * 1024;

extern "C" {
    fn pnl_sheet(list: *const u8, list_len: usize, answer: *mut u8, answer_len: usize) -> i32;
    fn pnl_find(
        list: *const u8,
        list_len: usize,
        tag: u32,
        answer: *mut u8,
        answer_len: usize,
    ) -> i32;
    fn pnl_find_at(
        list: *const u8,
        list_len: usize,
        fitting: u32,
        answer: *mut u8,
        answer_len: usize,
    ) -> i32;
    fn pnl_distance(
        list: *const u8,
        list_len: usize,
        from: u32,
        to: u32,
        answer: *mut u8,
        answer_len: usize,
    ) -> i32;
    fn pnl_quote(
        list: *const u8,
        list_len: usize,
        first: u32,
        second: u32,
        length: u32,
        volume: u32,
        answer: *mut u8,
        answer_len: usize,
    ) -> i32;
}

/// One call, by its arguments.
#[derive(Clone, Copy, Debug, PartialEq, Eq)]
pub enum Call {
    Sheet,
    Find(u32),
    FindAt(u32),
    Distance(u32, u32),
    /// Of a pipe: its fittings, its length, its volume.
    Quote([u32; 4]),
}

impl Call {
    /// What the archive returns; its answer is in the slice.
    pub fn make(self, list: &[u8], answer: &mut [u8]) -> i32 {
        self.make_at(list.as_ptr(), list.len(), answer.as_mut_ptr(), answer.len())
    }

    /// The same without an answer slice, and perhaps without a list: null pointers of length 0.
    pub fn make_at_null(self, list: Option<&[u8]>) -> i32 {
        let bytes = list.map_or(ptr::null(), <[u8]>::as_ptr);
        self.make_at(bytes, list.map_or(0, <[u8]>::len), ptr::null_mut(), 0)
    }

    fn make_at(self, list: *const u8, list_len: usize, to: *mut u8, room: usize) -> i32 {
        // The archive reads `list_len` bytes and writes at most `room`.
        unsafe {
            match self {
                Call::Sheet => pnl_sheet(list, list_len, to, room),
                Call::Find(tag) => pnl_find(list, list_len, tag, to, room),
                Call::FindAt(fitting) => pnl_find_at(list, list_len, fitting, to, room),
                Call::Distance(from, end) => pnl_distance(list, list_len, from, end, to, room),
                Call::Quote([first, second, length, volume]) => {
                    pnl_quote(list, list_len, first, second, length, volume, to, room)
                }
            }
        }
    }

    /// The bytes of an answer; of a sheet's, two rows.
    pub fn usual_size(self) -> usize {
        match self {
            Call::Sheet => 48,
            Call::Find(_) | Call::FindAt(_) => 16,
            Call::Distance(..) => 4,
            Call::Quote(_) => 8,
        }
    }
}

//! All five calls on a house from Rust, through the archive; prints what examples/sheet.c prints.
//!
//!     ./build
//!     rustc --edition 2021 -L target/staticlib examples/sheet.rs -o target/sheet-rust
//!     target/sheet-rust examples/volumes.pnl
//!
//! In a crate, the three lines of tests/calls/build.rs say to Cargo where the archive is.

#[link(name = "pnl", kind = "static")]
extern "C" {
    fn pnl_sheet(list: *const u8, list_len: usize, answer: *mut u8, answer_len: usize) -> i32;
    fn pnl_find(list: *const u8, list_len: usize, tag: u32, answer: *mut u8, answer_len: usize) -> i32;
    fn pnl_find_at(list: *const u8, list_len: usize, fitting: u32, answer: *mut u8, answer_len: usize) -> i32;
    fn pnl_distance(list: *const u8, list_len: usize, from: u32, to: u32, answer: *mut u8, answer_len: usize) -> i32;
    fn pnl_quote(list: *const u8, list_len: usize, first: u32, second: u32, length: u32, volume: u32, answer: *mut u8, answer_len: usize) -> i32;
}

const SHEET_ROW: usize = 6;
const SHEET_MOST: usize = 98_304;
const NOT_JOINED: u32 = 4_294_967_295;
const NO_COUPLING: i32 = 8;

/// The numbers of an answer, or the number of the refusal (include/pnl.h).
type Answer = Result<Vec<u32>, i32>;

/// Makes a call with room for every answer: where the room begins, and how many bytes it has.
fn answer(call: impl FnOnce(*mut u8, usize) -> i32) -> Answer {
    let mut room = vec![0; SHEET_MOST];
    let returned = call(room.as_mut_ptr(), room.len());
    let size = usize::try_from(returned).map_err(|_| -returned)?;
    let numbers = room[..size].chunks_exact(4);
    Ok(numbers.map(|bytes| u32::from_le_bytes([bytes[0], bytes[1], bytes[2], bytes[3]])).collect())
}

// Safe: each call reads the list and writes the room within the lengths that it is handed, and keeps neither.

fn sheet(list: &[u8]) -> Answer {
    answer(|room, size| unsafe { pnl_sheet(list.as_ptr(), list.len(), room, size) })
}

fn find(list: &[u8], tag: u32) -> Answer {
    answer(|room, size| unsafe { pnl_find(list.as_ptr(), list.len(), tag, room, size) })
}

fn find_at(list: &[u8], fitting: u32) -> Answer {
    answer(|room, size| unsafe { pnl_find_at(list.as_ptr(), list.len(), fitting, room, size) })
}

fn distance(list: &[u8], from: u32, to: u32) -> Answer {
    answer(|room, size| unsafe { pnl_distance(list.as_ptr(), list.len(), from, to, room, size) })
}

/// Of a pipe: its fittings, its length, its volume.
fn quote(list: &[u8], [first, second, length, volume]: [u32; 4]) -> Answer {
    answer(|room, size| unsafe { pnl_quote(list.as_ptr(), list.len(), first, second, length, volume, room, size) })
}

fn print_found(asked: &str, found: &[u32]) {
    println!("{asked}: fitting {} on run {}, {} mm to the low end, {} mm to the high end", found[1], found[0], found[2], found[3]);
}

fn print_distance(list: &[u8], from: u32, to: u32) {
    let words = match distance(list, from, to) {
        Ok(length) if length[0] == NOT_JOINED => "not joined".to_string(),
        Ok(length) => format!("{} mm", length[0]),
        Err(refusal) => format!("refusal {refusal}"),
    };
    println!("fittings {from} and {to}: {words}");
}

fn main() -> Result<(), String> {
    let file = std::env::args().nth(1).ok_or("usage: sheet-rust LIST")?;
    let house = std::fs::read(&file).map_err(|error| format!("cannot read {file}: {error}"))?;
    let refused = |refusal| format!("refusal {refusal}");

    for run in sheet(&house).map_err(refused)?.chunks_exact(SHEET_ROW) {
        let volume = match run[5] {
            0 => "volume not known".to_string(),
            volume => format!("{volume} ml"),
        };
        println!("run {} from {} to {}: {} couplings, {} mm, {volume}", run[0], run[1], run[2], run[3], run[4]);
    }
    print_found("tag 8195", &find(&house, 8195).map_err(refused)?);
    print_found("number 1", &find_at(&house, 1).map_err(refused)?);
    if find(&house, 8194) == Err(NO_COUPLING) {
        println!("tag 8194 is on no coupling");
    }
    print_distance(&house, 0, 6);
    print_distance(&house, 0, 7);
    print_distance(b"PNL\x01\0FF", 0, 1);
    let cost = quote(&house, [0, 5, 1200, 0]).map_err(refused)?;
    println!("pipe 0-5: case {}, tags re-hung: {}", cost[0], cost[1]);
    Ok(())
}

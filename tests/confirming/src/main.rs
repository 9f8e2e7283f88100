//! The proved search, then one round over all edges: on every house of tests/shared the round must change nothing, for many pairs of
//! fittings. So a distance costs one search and one round. That the round shows a search that went wrong is seen with a heap that is
//! not all zero at the start.

#[path = "../../shared/edges.rs"]
mod edges;
#[path = "../../shared/houses.rs"]
mod houses;

use edges::Random;
use houses::{houses, House};

extern "C" {
    fn confirming_changes(
        ends: *const u16,
        ends_len: usize,
        lengths: *const u32,
        lengths_len: usize,
        edges: u16,
        from: u16,
        to: u16,
        heads: *mut u16,
        heads_len: usize,
        heap: *mut u16,
        heap_len: usize,
        next: *mut u16,
        next_len: usize,
        distances: *mut u32,
        distances_len: usize,
        keys: *mut u32,
        keys_len: usize,
    ) -> u16;
}

/// What the round changes after a search whose heap is lent with a number in every place: 0 as the register lends it.
fn changes(house: &House, from: u16, to: u16, lent: u16) -> u16 {
    let (mut heads, mut heap, mut next) = ([0; 4096], [lent; 8192], [0; 8192]);
    let (mut distances, mut keys) = ([0; 4096], [0; 4096]);
    unsafe {
        confirming_changes(
            house.ends.as_ptr(),
            house.ends.len(),
            house.lengths.as_ptr(),
            house.lengths.len(),
            house.lengths.len() as u16,
            from,
            to,
            heads.as_mut_ptr(),
            heads.len(),
            heap.as_mut_ptr(),
            heap.len(),
            next.as_mut_ptr(),
            next.len(),
            distances.as_mut_ptr(),
            distances.len(),
            keys.as_mut_ptr(),
            keys.len(),
        )
    }
}

fn main() {
    let sets: u64 = std::env::args().nth(1).map_or(1, |word| word.parse().expect("a number of sets of houses"));
    let (mut searches, mut spoilt) = (0, 0);
    for set in 1..=sets {
        let mut random = Random(set.wrapping_mul(0x9E37_79B9_7F4A_7C15));
        for house in houses(&mut random) {
            for _ in 0..100 {
                let (from, to) = (random.below(house.vertices) as u16, random.below(house.vertices) as u16);
                assert_eq!(changes(&house, from, to, 0), 0, "set {set}, {}, {from} to {to}", house.name);
                spoilt += u32::from(changes(&house, from, to, 9) > 0);
                searches += 1;
            }
        }
    }
    assert!(spoilt > 0, "a spoilt heap must show");
    println!("{searches} searches: one confirming round each");
}

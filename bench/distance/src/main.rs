//! A distance by the proved call, as from C, against Boost's Dijkstra on the same houses and the same pairs of fittings, in one run. A
//! figure is the mean over the pairs of the least of many rounds, in microseconds.

#[path = "../../../tests/shared/edges.rs"]
mod edges;
#[path = "../../../tests/shared/houses.rs"]
mod houses;

use edges::Random;
use houses::{houses, House};
use std::ffi::c_void;
use std::hint::black_box;
use std::time::Instant;

const PAIRS: usize = 100;
const NOT_LANDED: u32 = 65_535;

extern "C" {
    fn pnl_distance(list: *const u8, list_len: usize, from: u32, to: u32, answer: *mut u8, answer_len: usize) -> i32;
    fn boost_lists(vertices: u32, edges: u32, ends: *const u16, lengths: *const u32) -> *mut c_void;
    fn boost_rows(vertices: u32, edges: u32, ends: *const u16, lengths: *const u32) -> *mut c_void;
    fn boost_lists_distance(search: *mut c_void, from: u32, to: u32, whole: bool) -> u32;
    fn boost_rows_distance(search: *mut c_void, from: u32, to: u32, whole: bool) -> u32;
    fn boost_lists_free(search: *mut c_void);
    fn boost_rows_free(search: *mut c_void);
}

/// A house as a list.
fn list_of(house: &House) -> Vec<u8> {
    let mut bytes = b"PNL\x01\x00".to_vec();
    bytes.resize(5 + house.vertices, 0x46);
    for (pair, length) in house.ends.chunks(2).zip(&house.lengths) {
        bytes.push(0x50);
        bytes.extend(pair.iter().flat_map(|end| end.to_le_bytes()));
        bytes.extend(length.to_le_bytes());
    }
    bytes
}

/// The distance; or the refusal, for which no distance is great enough.
fn proved(list: &[u8], from: u32, to: u32) -> u32 {
    let mut answer = [0; 4];
    let size = unsafe { pnl_distance(list.as_ptr(), list.len(), from, to, answer.as_mut_ptr(), answer.len()) };
    if size == 4 {
        u32::from_le_bytes(answer)
    } else {
        size as u32
    }
}

/// Boost's two kinds of graph.
#[derive(Clone, Copy)]
enum Kind {
    Lists,
    Rows,
}

struct Boost {
    kind: Kind,
    search: *mut c_void,
}

impl Boost {
    fn build(kind: Kind, house: &House) -> Self {
        let new = match kind {
            Kind::Lists => boost_lists,
            Kind::Rows => boost_rows,
        };
        let search = unsafe { new(house.vertices as u32, house.lengths.len() as u32, house.ends.as_ptr(), house.lengths.as_ptr()) };
        Boost { kind, search }
    }

    fn distance(&self, from: u32, to: u32, whole: bool) -> u32 {
        match self.kind {
            Kind::Lists => unsafe { boost_lists_distance(self.search, from, to, whole) },
            Kind::Rows => unsafe { boost_rows_distance(self.search, from, to, whole) },
        }
    }
}

impl Drop for Boost {
    fn drop(&mut self) {
        match self.kind {
            Kind::Lists => unsafe { boost_lists_free(self.search) },
            Kind::Rows => unsafe { boost_rows_free(self.search) },
        }
    }
}

const COLUMNS: usize = 8;

/// What a column measures.
fn run(column: usize, house: &House, list: &[u8], graphs: &[Boost; 2], from: u32, to: u32) -> u32 {
    match column {
        0 => proved(list, NOT_LANDED, to),
        1 => proved(list, from, to),
        2 | 3 => graphs[column - 2].distance(from, to, false),
        4 | 5 => graphs[column - 4].distance(from, to, true),
        _ => Boost::build(graphs[column - 6].kind, house).distance(from, to, false),
    }
}

/// Two fittings and their distance.
type Pair = (u32, u32, u32);

/// The microseconds of one run, whose answer is compared.
fn timed(column: usize, house: &House, list: &[u8], graphs: &[Boost; 2], &(from, to, distance): &Pair) -> f64 {
    let start = Instant::now();
    let answer = run(column, black_box(house), black_box(list), graphs, from, to);
    let time = start.elapsed().as_secs_f64() * 1e6;
    let expected = if column == 0 { -5i32 as u32 } else { distance };
    assert_eq!(answer, expected, "{}, {from} to {to}", house.name);
    time
}

/// The means over random pairs of the least of all rounds: landing, the call, and Boost's searches to the goal, over the whole graph, and
/// with the graph built in the call.
fn measure(house: &House, rounds: usize, random: &mut Random) -> [f64; COLUMNS] {
    let list = list_of(house);
    let graphs = [Boost::build(Kind::Lists, house), Boost::build(Kind::Rows, house)];
    let mut pair = || {
        let (from, to) = (random.below(house.vertices) as u32, random.below(house.vertices) as u32);
        (from, to, graphs[0].distance(from, to, true))
    };
    let pairs: Vec<Pair> = (0..PAIRS).map(|_| pair()).collect();
    let mut least = [[f64::MAX; PAIRS]; COLUMNS];
    for _ in 0..rounds {
        for (column, times) in least.iter_mut().enumerate() {
            for (time, pair) in times.iter_mut().zip(&pairs) {
                *time = time.min(timed(column, house, &list, &graphs, pair));
            }
        }
    }
    least.map(|times| times.iter().sum::<f64>() / PAIRS as f64)
}

fn main() {
    let rounds = std::env::args().nth(1).map_or(20, |word| word.parse().expect("a number of rounds"));
    let mut random = Random(0x9E37_79B9_7F4A_7C15);
    println!("{:24} {:>14} {:>26} {:>16} {:>14} {:>6}", "", "landed before", "graph built before", "", "both", "");
    println!(
        "{:24} {:>7} {:>6} {:>8} {:>8} {:>8} {:>8} {:>7} {:>6} {:>6}",
        "house", "search", "ratio", "lists", "rows", "lists *", "rows *", "call", "boost", "ratio"
    );
    for house in houses(&mut random) {
        let [land, call, lists, rows, lists_whole, rows_whole, lists_built, rows_built] = measure(&house, rounds, &mut random);
        let (search, boost, built) = (call - land, lists.min(rows), lists_built.min(rows_built));
        println!(
            "{:24} {search:>7.1} {:>6.2} {lists:>8.1} {rows:>8.1} {lists_whole:>8.1} {rows_whole:>8.1} {call:>7.1} {built:>6.1} {:>6.2}",
            house.name,
            search / boost,
            call / built
        );
    }
    println!("* the search over the whole graph; the others stop at the goal. A ratio is proved / the faster Boost.");
}

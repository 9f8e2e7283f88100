//! Growing and the sheet on lists of 512 to 4,096 fittings, and every call from C, with its stack, on full lists: the proved register
//! against the same algorithm in plain Rust, in one run. Each figure is the least of many rounds, in microseconds, taken in turns; for a
//! random shape it is the mean over several lists. The ratio is proved / plain. Lists are of version 2, with all volumes known; with the
//! argument 1 they are of version 1. With the argument `instructions` each call is made on one list alone, for `bench/instructions`.

mod calls;
#[path = "../../tests/shared/edges.rs"]
mod edges;
mod instructions;
mod plain;
#[path = "../../tests/shared/stack.rs"]
mod stack;

use calls::{all_alike, times, Call};
use edges::{comb, line, ring, tapped_rings, tree, Edges, Random};
use std::env;
use std::hint::black_box;
use std::time::Instant;

/// A list is grown for this call, and then nothing is left to do: no such fitting is ever landed.
const GROW: Call = Call::FindAt(u32::MAX);
const SIZES: [usize; 4] = [512, 1024, 2048, 4096];

/// The bytes of a pipe in a list.
fn record_size(version: u8) -> usize {
    if version == 1 {
        9
    } else {
        13
    }
}

fn list(version: u8, vertices: usize, edges: &[(usize, usize)]) -> Vec<u8> {
    let mut bytes = [&b"PNL"[..], &[version, 0]].concat();
    bytes.resize(5 + vertices, 0x46);
    for &(a, b) in edges {
        bytes.push(0x50);
        bytes.extend((a as u16).to_le_bytes());
        bytes.extend((b as u16).to_le_bytes());
        bytes.extend(1000u32.to_le_bytes());
        if version > 1 {
            bytes.extend(314u32.to_le_bytes());
        }
    }
    bytes
}

fn shuffled(mut edges: Edges, random: &mut Random) -> Edges {
    random.shuffle(&mut edges);
    edges
}

/// A line whose pieces are always joined to pieces of their own size.
fn balanced(n: usize) -> Edges {
    let mut edges = Vec::new();
    let mut piece = 1;
    while piece < n {
        edges.extend((piece..n).step_by(2 * piece).map(|v| (v - 1, v)));
        piece *= 2;
    }
    edges
}

/// A ring of two, closed first, and a comb whose teeth come in random order: a ring stands at each split of its line.
fn comb_beside_ring(n: usize, random: &mut Random) -> Edges {
    let mut comb: Edges = comb(n - 2)
        .into_iter()
        .map(|(a, b)| (a + 2, b + 2))
        .collect();
    random.shuffle(&mut comb[n / 2 - 2..]);
    [ring(2), comb].concat()
}

/// A line whose pipes are numbered from its middle outwards, left and right in turn.
fn inside_out(n: usize) -> Edges {
    let edges = line(n);
    let middle = edges.len() / 2;
    let mut order: Vec<usize> = (0..edges.len()).collect();
    order.sort_by_key(|&i| i.abs_diff(middle));
    order.into_iter().map(|i| edges[i]).collect()
}

/// How many lists there are of a random shape, and how many runs each figure takes in all.
const LISTS: usize = 32;
const RUNS: usize = 1280;

/// Lists of a random shape.
fn several<T>(mut make: impl FnMut() -> T) -> Vec<T> {
    (0..LISTS).map(|_| make()).collect()
}

fn microseconds(run: impl FnOnce() -> i32) -> f64 {
    let start = Instant::now();
    black_box(run());
    start.elapsed().as_secs_f64() * 1e6
}

/// The least times of two runs, averaged over the lists. The two take turns, so that other load on the machine falls on both; and where
/// there are several lists each run is followed by one on another, so that the processor cannot learn one list by heart.
fn compare<T>(
    lists: &[T],
    mut first: impl FnMut(&T) -> i32,
    mut second: impl FnMut(&T) -> i32,
) -> (f64, f64) {
    let mut least = vec![(f64::MAX, f64::MAX); lists.len()];
    for _ in 0..RUNS / lists.len() {
        for (list, best) in lists.iter().zip(&mut least) {
            best.0 = best.0.min(microseconds(|| first(black_box(list))));
        }
        for (list, best) in lists.iter().zip(&mut least) {
            best.1 = best.1.min(microseconds(|| second(black_box(list))));
        }
    }
    let sums = least
        .iter()
        .fold((0.0, 0.0), |sums, best| (sums.0 + best.0, sums.1 + best.1));
    (sums.0 / lists.len() as f64, sums.1 / lists.len() as f64)
}

fn put_heading(table: &str, shape: &str) {
    println!("{table}");
    println!(
        "{shape:<28} {:>6} {:>9} {:>9} {:>6}",
        "pipes", "proved", "plain", "ratio"
    );
}

/// A row for each shape: the call on its houses of n fittings. A call of each kind is compared before, in both versions: GROW has no answer.
fn put_rows(version: u8, call: Call, n: usize, shapes: &Shapes) {
    for (name, houses) in shapes {
        let lists: Vec<_> = houses.iter().map(|edges| list(version, n, edges)).collect();
        lists.iter().for_each(|list| all_alike(list, name));
        houses
            .iter()
            .for_each(|edges| all_alike(&list(3 - version, n, edges), name));
        let asked: Vec<_> = lists.iter().map(|list| (call, &list[..])).collect();
        let (proved, plain) = times(&asked, name);
        println!(
            "{name:<28} {:>6} {proved:>9.1} {plain:>9.1} {:>6.2}",
            houses[0].len(),
            proved / plain
        );
    }
}

/// Houses of n fittings by their shape.
type Shapes = Vec<(&'static str, Vec<Edges>)>;

fn grow_shapes(n: usize, random: &mut Random) -> Shapes {
    vec![
        ("line in order", vec![line(n)]),
        (
            "line in random order",
            several(|| shuffled(line(n), random)),
        ),
        ("balanced merges", vec![balanced(n)]),
        ("random tree", several(|| tree(n, random))),
        ("comb", vec![comb(n)]),
        (
            "comb beside a ring",
            several(|| comb_beside_ring(n, random)),
        ),
        ("ring", vec![ring(n)]),
        ("rings of two, tapped", vec![tapped_rings(n)]),
    ]
}

fn sheet_shapes(n: usize, random: &mut Random) -> Shapes {
    let rising = line(n);
    let falling: Edges = rising.iter().rev().copied().collect();
    vec![
        ("rising", vec![rising.clone()]),
        ("falling", vec![falling]),
        ("at random", several(|| shuffled(rising.clone(), random))),
        ("inside out", vec![inside_out(n)]),
        ("rising, and closed", vec![ring(n)]),
    ]
}

fn grow_table(version: u8, random: &mut Random) {
    put_heading("grow", "shape");
    for n in SIZES {
        put_rows(version, GROW, n, &grow_shapes(n, random));
    }
}

fn sheet_table(version: u8, random: &mut Random) {
    put_heading("grow and sheet", "line numbered");
    for n in SIZES {
        put_rows(version, Call::Sheet, n, &sheet_shapes(n, random));
    }
}

/// Growing, every call, the sheet, and finds by the age of a tag, on the first list of each shape, counted and not timed.
fn count_instructions(version: u8, random: &mut Random) {
    for n in SIZES {
        for (shape, houses) in grow_shapes(n, random) {
            let list = list(version, n, &houses[0]);
            instructions::put("growing", shape, houses[0].len(), GROW, &list);
            calls::count_calls(shape, houses[0].len(), &list);
        }
        for (shape, houses) in sheet_shapes(n, random) {
            instructions::put(
                "sheet of a line numbered",
                shape,
                houses[0].len(),
                Call::Sheet,
                &list(version, n, &houses[0]),
            );
        }
    }
    calls::count_finds(version, random);
}

fn main() {
    let mut random = Random(0x9E37_79B9_7F4A_7C15);
    let asked = env::args().nth(1);
    if asked.as_deref() == Some("instructions") {
        return count_instructions(2, &mut random);
    }
    let version = if asked.as_deref() == Some("1") { 1 } else { 2 };
    println!("lists of version {version}");
    grow_table(version, &mut random);
    sheet_table(version, &mut random);
    calls::table(version, &mut random);
    calls::newest_table(version, &mut random);
}

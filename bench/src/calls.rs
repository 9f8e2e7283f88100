//! Every call from C on full lists, against the plain register, and the stack that each uses.

use crate::edges::{comb, line, ring, tapped_rings, tree, Edges, Random};
use crate::plain::Register;
use crate::{compare, instructions, list, record_size, several, shuffled, stack, GROW};
use std::hint::black_box;

/// The bytes of the largest sheet.
pub const SHEET_MOST: usize = 98_304;

extern "C" {
    fn pnl_sheet(list: *const u8, list_len: usize, answer: *mut u8, answer_len: usize) -> i32;
    fn pnl_find(
        list: *const u8,
        list_len: usize,
        tag: u32,
        answer: *mut u8,
        answer_len: usize,
    ) -> i32;
    fn pnl_find_at(
        list: *const u8,
        list_len: usize,
        fitting: u32,
        answer: *mut u8,
        answer_len: usize,
    ) -> i32;
    fn pnl_distance(
        list: *const u8,
        list_len: usize,
        from: u32,
        to: u32,
        answer: *mut u8,
        answer_len: usize,
    ) -> i32;
}

/// A call by its arguments.
#[derive(Clone, Copy, Debug)]
pub enum Call {
    Sheet,
    Find(u32),
    /// The plain side takes the runs in their order too.
    FindInOrder(u32),
    FindAt(u32),
    Distance(u32, u32),
}

pub fn proved(call: Call, list: &[u8], answer: &mut [u8]) -> i32 {
    let (bytes, length, to, room) = (list.as_ptr(), list.len(), answer.as_mut_ptr(), answer.len());
    unsafe {
        match call {
            Call::Sheet => pnl_sheet(bytes, length, to, room),
            Call::Find(tag) | Call::FindInOrder(tag) => pnl_find(bytes, length, tag, to, room),
            Call::FindAt(fitting) => pnl_find_at(bytes, length, fitting, to, room),
            Call::Distance(from, end) => pnl_distance(bytes, length, from, end, to, room),
        }
    }
}

pub fn plain(call: Call, list: &[u8], answer: &mut [u8]) -> i32 {
    // A sheet and a distance need no tags, on either side.
    let (register, refusal) = match call {
        Call::Sheet | Call::Distance(..) => Register::record(list),
        _ => Register::grow(list),
    };
    // Else what the call does not read might not be written.
    black_box(&register);
    if refusal != 0 {
        return -(refusal as i32);
    }
    let numbers = match call {
        Call::Sheet => Ok(register.sheet().into_flattened()),
        Call::Find(tag) => register.find(tag).map(Vec::from),
        Call::FindInOrder(tag) => register.find_from_newest(tag).map(Vec::from),
        Call::FindAt(fitting) => register.find_at(fitting).map(Vec::from),
        Call::Distance(from, to) => register.distance(from, to).map(|length| vec![length]),
    };
    match numbers {
        Ok(numbers) => put(&numbers, answer),
        Err(refusal) => -(refusal as i32),
    }
}

fn put(numbers: &[u32], answer: &mut [u8]) -> i32 {
    for (bytes, number) in answer.chunks_exact_mut(4).zip(numbers) {
        bytes.copy_from_slice(&number.to_le_bytes());
    }
    4 * numbers.len() as i32
}

/// The two sides must answer alike: what they return, and every byte of the answer.
fn alike(call: Call, list: &[u8], shape: &str) {
    let (mut ours, mut theirs) = (vec![0; SHEET_MOST], vec![0; SHEET_MOST]);
    assert_eq!(
        proved(call, list, &mut ours),
        plain(call, list, &mut theirs),
        "{call:?} {shape}"
    );
    assert_eq!(ours, theirs, "{call:?} {shape}");
}

/// The same for one call of each kind.
pub fn all_alike(list: &[u8], shape: &str) {
    for (_, call) in calls_on(list) {
        alike(call, list, shape);
    }
}

/// The times of the two sides for these calls, which must answer alike.
pub fn times(asked: &[(Call, &[u8])], shape: &str) -> (f64, f64) {
    for &(call, list) in asked {
        alike(call, list, shape);
    }
    let (mut ours, mut theirs) = (vec![0; SHEET_MOST], vec![0; SHEET_MOST]);
    compare(
        asked,
        |&(call, list)| proved(call, list, &mut ours),
        |&(call, list)| plain(call, list, &mut theirs),
    )
}

/// The most stack that one of these calls uses.
fn most_stack(asked: &[(Call, &[u8])]) -> usize {
    let mut answer = vec![0; SHEET_MOST];
    let used = asked
        .iter()
        .map(|&(call, list)| stack::used(|| _ = black_box(proved(call, list, &mut answer))));
    used.max().expect("a call")
}

/// A square of so many fittings a side.
fn grid(side: usize) -> Edges {
    let across = (0..side * side)
        .filter(|v| (v + 1) % side != 0)
        .map(|v| (v, v + 1));
    let down = (0..side * (side - 1)).map(|v| (v, v + side));
    across.chain(down).collect()
}

/// The list with other lengths, 1 to 100,000, and in version 2 other volumes, 1 to 1,000,000.
fn with_lengths(mut list: Vec<u8>, fittings: usize, random: &mut Random) -> Vec<u8> {
    let size = record_size(list[3]);
    for record in list[5 + fittings..].chunks_exact_mut(size) {
        let length = 1 + random.below(100_000) as u32;
        record[5..9].copy_from_slice(&length.to_le_bytes());
        let volume = 1 + random.below(1_000_000) as u32;
        if size > 9 {
            record[9..].copy_from_slice(&volume.to_le_bytes());
        }
    }
    list
}

/// Lists of each shape: one where the shape is fixed, several where it is random.
fn full_lists(version: u8, random: &mut Random) -> Vec<(&'static str, Vec<Vec<u8>>)> {
    let houses = [
        ("line in order", 4096, vec![line(4096)]),
        (
            "line in random order",
            4096,
            several(|| shuffled(line(4096), random)),
        ),
        ("random tree", 4096, several(|| tree(4096, random))),
        ("comb", 4096, vec![comb(4096)]),
        ("grid", 45 * 45, vec![grid(45)]),
        ("ring", 4096, vec![ring(4096)]),
        ("rings of two, tapped", 4095, vec![tapped_rings(4095)]),
    ];
    let mut lists = |n, houses: Vec<Vec<_>>| {
        houses
            .iter()
            .map(|edges| with_lengths(list(version, n, edges), n, random))
            .collect()
    };
    houses
        .into_iter()
        .map(|(name, n, houses)| (name, lists(n, houses)))
        .collect()
}

/// The calls on a list: find of the last coupling by its tag and by its number, the distance between the first and the last fitting.
fn calls_on(list: &[u8]) -> [(&'static str, Call); 4] {
    let (register, _) = Register::grow(list);
    let (coupling, tag) = register.last_regular().expect("a coupling");
    let last = register.vertices() as u32 - 1;
    [
        ("pnl_sheet", Call::Sheet),
        ("pnl_find", Call::Find(tag)),
        ("pnl_find_at", Call::FindAt(coupling)),
        ("pnl_distance", Call::Distance(0, last)),
    ]
}

pub fn table(version: u8, random: &mut Random) {
    println!("calls on full lists");
    println!(
        "{:<14} {:<22} {:>9} {:>9} {:>6} {:>8}",
        "call", "shape", "proved", "plain", "ratio", "stack"
    );
    for (shape, lists) in full_lists(version, random) {
        for kind in 0..4 {
            let asked: Vec<_> = lists
                .iter()
                .map(|list| (calls_on(list)[kind].1, &list[..]))
                .collect();
            let (proved, plain) = times(&asked, shape);
            let name = calls_on(&lists[0])[kind].0;
            println!(
                "{name:<14} {shape:<22} {proved:>9.1} {plain:>9.1} {:>6.2} {:>8}",
                proved / plain,
                most_stack(&asked)
            );
        }
    }
}

/// As many runs as can be that have a coupling: legs of two pipes from one fitting.
fn legs(count: usize) -> Edges {
    (0..count)
        .flat_map(|leg| [(0, 2 * leg + 1), (2 * leg + 1, 2 * leg + 2)])
        .collect()
}

/// A line with a tee on every second coupling.
fn teed(fittings: usize) -> Edges {
    let length = fittings * 2 / 3;
    let tees = (1..length - 1).step_by(2).zip(length..fittings);
    line(length).into_iter().chain(tees).collect()
}

/// Legs of two pipes and, beside them, a line with a tee on every second coupling.
fn legs_and_line(count: usize, fittings: usize) -> Edges {
    let first = 2 * count + 1;
    let beside = teed(fittings - first)
        .into_iter()
        .map(|(a, b)| (first + a, first + b));
    legs(count).into_iter().chain(beside).collect()
}

/// Legs of four pipes from one fitting, each with a tee on its middle coupling: two runs with a coupling to a leg.
fn teed_legs(count: usize) -> Edges {
    (0..count)
        .map(|leg| 5 * leg)
        .flat_map(|v| {
            [
                (0, v + 1),
                (v + 1, v + 2),
                (v + 2, v + 3),
                (v + 3, v + 4),
                (v + 2, v + 5),
            ]
        })
        .collect()
}

/// Rings of two pipes.
fn pairs(count: usize) -> Edges {
    (0..count)
        .flat_map(|ring| [(2 * ring, 2 * ring + 1), (2 * ring, 2 * ring + 1)])
        .collect()
}

/// Full lists, and those with the most runs that have a coupling.
fn many_runs(version: u8, random: &mut Random) -> Vec<(&'static str, Vec<Vec<u8>>)> {
    let mut shapes = full_lists(version, random);
    shapes.push(("2,047 legs", vec![list(version, 4095, &legs(2047))]));
    shapes.push((
        "2,047 legs in random order",
        several(|| list(version, 4095, &shuffled(legs(2047), random))),
    ));
    shapes.push((
        "819 legs with a tee",
        vec![list(version, 4096, &teed_legs(819))],
    ));
    shapes.push((
        "line with 1,365 tees",
        vec![list(version, 4096, &teed(4096))],
    ));
    shapes.push((
        "1,900 legs, line with tees",
        vec![list(version, 4096, &legs_and_line(1900, 4096))],
    ));
    shapes.push((
        "2,048 rings of two",
        vec![list(version, 4096, &pairs(2048))],
    ));
    shapes
}

/// Find by the age of a tag: the highest tag is the newest run's, the lowest the oldest one's, and the last is nobody's. `none` is the
/// ratio to growing, the others are those to the plain find, and to the plain one that takes the runs in their order.
pub fn newest_table(version: u8, random: &mut Random) {
    println!("find from the newest run, on full lists");
    println!(
        "{:<26} {:>7} {:>7} {:>7} {:>7} {:>6}  {:<16} {:<16}",
        "shape", "grow", "newest", "oldest", "none", "ratio", "to plain", "to plain in order"
    );
    for (shape, lists) in many_runs(version, random) {
        let time = |call_on: &dyn Fn(&Register) -> Call| {
            let asked: Vec<_> = lists
                .iter()
                .map(|list| (call_on(&Register::grow(list).0), &list[..]))
                .collect();
            let (proved, plain) = times(&asked, shape);
            (proved, proved / plain)
        };
        let (grow, _) = time(&|_| GROW);
        let tags: [&dyn Fn(&Register) -> u32; 3] = [
            &|register| register.tags().1,
            &|register| register.tags().0,
            &|_| u32::MAX,
        ];
        let among = tags.map(|tag| time(&|register| Call::Find(tag(register))));
        let in_order = tags.map(|tag| time(&|register| Call::FindInOrder(tag(register))).1);
        let found = among.map(|(proved, _)| format!("{proved:>7.1}")).join(" ");
        let ratios = |ratios: [f64; 3]| ratios.map(|ratio| format!("{ratio:.2}")).join(" ");
        println!(
            "{shape:<26} {grow:>7.1} {found} {:>6.2}  {:<16} {:<16}",
            among[2].0 / grow,
            ratios(among.map(|(_, ratio)| ratio)),
            ratios(in_order)
        );
    }
}

/// How many pipes a list has.
fn pipes(list: &[u8]) -> usize {
    let fittings = list[5..].iter().take_while(|&&kind| kind == 0x46).count();
    (list.len() - 5 - fittings) / record_size(list[3])
}

/// Each call on one list, counted.
pub fn count_calls(shape: &str, pipes: usize, list: &[u8]) {
    for (name, call) in calls_on(list) {
        instructions::put(name, shape, pipes, call, list);
    }
}

/// Finds by the age of a tag on the first list of each shape, counted.
pub fn count_finds(version: u8, random: &mut Random) {
    for (shape, lists) in many_runs(version, random) {
        let list = &lists[0];
        let tags = Register::grow(list).0.tags();
        instructions::put("growing, for a find", shape, pipes(list), GROW, list);
        for (age, tag) in [("newest", tags.1), ("oldest", tags.0), ("none", u32::MAX)] {
            instructions::put(
                &format!("find, {age}"),
                shape,
                pipes(list),
                Call::Find(tag),
                list,
            );
            instructions::put(
                &format!("find in order, {age}"),
                shape,
                pipes(list),
                Call::FindInOrder(tag),
                list,
            );
        }
    }
}

//! Houses of many shapes. Each takes about as many fittings as it is told.

use super::layout::Layout;
use super::random::Random;

/// Draws a layout of about this size.
pub type Shape = fn(&mut Random, usize) -> Layout;

const SHAPES: &[Shape] = &[
    scattered,
    crowded,
    line_in_any_order,
    tree,
    comb,
    grid,
    balanced_merges,
    loops,
    curled_lines,
    parallel_pipes,
    tapped_line_joined_again,
    lone_couplings_extended,
    line_grown_downwards,
    ladder,
    all_cases,
    all_cases,
    side_by_side,
    rings,
    tapped_rings,
    tapped_rings,
    rings_joined,
    rings_of_two_tapped,
    ring_around,
    line_grown_and_closed,
];

pub fn any(random: &mut Random, size: usize) -> Layout {
    let shape = random.pick(SHAPES);
    shape(random, size.max(2))
}

/// Fewer pipes than fittings, anywhere.
pub fn scattered(random: &mut Random, size: usize) -> Layout {
    let mut layout = Layout::of_fittings(size);
    for _ in 0..size * 3 / 4 {
        layout.joins.push(random.pair_below(size));
    }
    layout
}

/// Many pipes between few fittings.
pub fn crowded(random: &mut Random, size: usize) -> Layout {
    let fittings = random.between(2, 3 + size / 4);
    let mut layout = Layout::of_fittings(fittings);
    for _ in 0..size * 2 {
        layout.joins.push(random.pair_below(fittings));
    }
    layout
}

pub fn line_in_any_order(random: &mut Random, size: usize) -> Layout {
    let mut layout = Layout::default();
    layout.line(size);
    layout.shuffled(random)
}

pub fn tree(random: &mut Random, size: usize) -> Layout {
    // Hanging on one of the last few makes long branches, on any one short branches.
    let near = random.between(1, size);
    let mut layout = Layout::of_fittings(1);
    while layout.fittings < size {
        let from = layout.fittings - random.between(1, near.min(layout.fittings));
        layout.onward(from);
    }
    layout.maybe_shuffled(random)
}

/// A line with a tooth at most of its fittings.
pub fn comb(random: &mut Random, size: usize) -> Layout {
    let mut layout = Layout::default();
    for fitting in layout.line(1 + size / 2) {
        if !random.one_in(4) {
            layout.onward(fitting);
        }
    }
    layout.maybe_shuffled(random)
}

pub fn grid(random: &mut Random, size: usize) -> Layout {
    let width = random.between(2, 2 + size.isqrt());
    let height = size.div_ceil(width);
    let mut layout = Layout::of_fittings(width * height);
    for fitting in 0..width * height {
        if (fitting + 1) % width != 0 {
            layout.join(fitting, fitting + 1);
        }
        if fitting + width < width * height {
            layout.join(fitting, fitting + width);
        }
    }
    layout.maybe_shuffled(random)
}

/// A line made of pairs, then fours, then eights: the most re-hanging.
pub fn balanced_merges(random: &mut Random, size: usize) -> Layout {
    let mut layout = Layout::default();
    layout.line(size);
    if random.one_in(2) {
        random.shuffle(&mut layout.joins);
    }
    layout
        .joins
        .sort_by_key(|&(_, right)| right.trailing_zeros());
    layout
}

/// A line through fitting 1 gives way to lines that are as long, and is then split beside it. Its part
/// of the line, small again, gives way to lines that are as long, at last to the other part of the line:
/// made to return to one fitting often.
pub fn returning(_: &mut Random, size: usize) -> Layout {
    let times = (size / 6).max(1).ilog2();
    let mut layout = Layout::default();
    let line = layout.line(3);
    let mut end = given_way(&mut layout, line[2], times);
    for _ in 0..2 {
        end = layout.onward(end);
    }
    layout.onward(line[2]);
    let other_end = given_way(&mut layout, line[0], times);
    layout.join(end, other_end);
    layout
}

/// A line through fitting 1 gives way to lines that are as long, is closed to a ring, and that is
/// tapped beside it.
pub fn merges_closed_and_tapped(_: &mut Random, size: usize) -> Layout {
    let times = (size / 3).max(1).ilog2();
    let mut layout = Layout::default();
    let line = layout.line(3);
    let end = given_way(&mut layout, line[2], times);
    layout.join(end, line[0]);
    layout.onward(line[0]);
    layout
}

/// A run with one coupling gives way, so many times, to a new one with as many couplings as it has
/// then: on a tie the run of the first named keeps its tags. Gives the free end that takes the place
/// of `end`.
fn given_way(layout: &mut Layout, mut end: usize, times: u32) -> usize {
    let mut couplings = 1;
    for _ in 0..times {
        let line = layout.line(couplings + 2);
        layout.join(line[0], end);
        end = line[couplings + 1];
        couplings = 2 * couplings + 2;
    }
    end
}

/// A hub with arms, and lines that leave it and come back.
pub fn loops(random: &mut Random, size: usize) -> Layout {
    let mut layout = Layout::default();
    let hub = layout.fitting();
    for _ in 0..random.between(2, 4) {
        layout.onward(hub);
    }
    while layout.fittings < size {
        let mut last = hub;
        for _ in 0..random.between(1, 5) {
            last = layout.onward(last);
        }
        layout.join(last, hub);
    }
    layout.maybe_shuffled(random)
}

/// Lines whose free ends are joined to couplings of their own.
pub fn curled_lines(random: &mut Random, size: usize) -> Layout {
    let mut layout = Layout::default();
    while layout.fittings < size {
        let fittings = random.between(3, 12);
        let line = layout.line(fittings);
        layout.join(line[fittings - 1], coupling_of(random, &line));
        if random.one_in(2) {
            layout.join(line[0], coupling_of(random, &line));
        }
    }
    layout
}

/// A line with several pipes at each of its places.
pub fn parallel_pipes(random: &mut Random, size: usize) -> Layout {
    let mut layout = Layout::of_fittings(size);
    for fitting in 1..size {
        for _ in 0..random.between(1, 3) {
            layout.join(fitting - 1, fitting);
        }
    }
    layout.maybe_shuffled(random)
}

/// Lines tapped at couplings, and then the ends of lines and stubs joined two by two.
pub fn tapped_line_joined_again(random: &mut Random, size: usize) -> Layout {
    let mut layout = Layout::default();
    while layout.fittings < size {
        let fittings = random.between(3, 14);
        let line = layout.line(fittings);
        let mut ends = vec![line[0], line[fittings - 1]];
        for _ in 0..random.between(1, 3) {
            let mut end = coupling_of(random, &line);
            for _ in 0..random.between(1, 4) {
                end = layout.onward(end);
            }
            ends.push(end);
        }
        join_by_twos(random, &mut layout, ends);
    }
    layout
}

/// Lines tapped so that lone couplings are left, which are extended and at last joined.
pub fn lone_couplings_extended(random: &mut Random, size: usize) -> Layout {
    let mut layout = Layout::default();
    let mut ends = Vec::new();
    while layout.fittings < size {
        let fittings = random.between(5, 8);
        let line = layout.line(fittings);
        layout.onward(line[2]);
        layout.onward(line[fittings - 3]);
        let (mut one, mut other) = (line[0], line[fittings - 1]);
        for _ in 0..random.between(1, 6) {
            if random.one_in(2) {
                one = layout.onward(one);
            } else {
                other = layout.onward(other);
            }
        }
        ends.extend([one, other]);
    }
    join_by_twos(random, &mut layout, ends);
    layout
}

/// Any fitting of a line but its ends.
fn coupling_of(random: &mut Random, line: &[usize]) -> usize {
    line[random.between(1, line.len() - 2)]
}

/// Joins these in pairs drawn at random.
fn join_by_twos(random: &mut Random, layout: &mut Layout, mut ends: Vec<usize>) {
    random.shuffle(&mut ends);
    for pair in ends.chunks_exact(2) {
        layout.join(pair[0], pair[1]);
    }
}

/// Lines that are extended at their low ends only, tapped here and there, some joined there.
pub fn line_grown_downwards(random: &mut Random, size: usize) -> Layout {
    let lines = random.between(1, 3);
    let mut layout = Layout::default();
    let mut lows = Vec::new();
    for _ in 0..lines {
        let start = layout.line(3);
        let mut below = vec![start[0]];
        for _ in 0..size / lines {
            below.push(layout.onward(below[below.len() - 1]));
        }
        if random.one_in(2) {
            layout.onward(random.pick(&below));
        }
        lows.push(below[below.len() - 1]);
    }
    if random.one_in(2) {
        for pair in lows.windows(2) {
            layout.join(pair[1], pair[0]);
        }
    }
    layout
}

/// Two lines, rungs between their couplings, and chords within one line.
pub fn ladder(random: &mut Random, size: usize) -> Layout {
    let fittings = 2 + size / 2;
    let mut layout = Layout::default();
    let sides = [layout.line(fittings), layout.line(fittings)];
    for _ in 0..random.between(1, fittings) {
        let one = &sides[random.below(2)];
        let other = &sides[random.below(2)];
        // The same fitting twice is left out later.
        layout.join(one[random.below(fittings)], other[random.below(fittings)]);
    }
    layout
}

/// Rings of two to nine pipes, the pipes of all landed in any order.
pub fn rings(random: &mut Random, size: usize) -> Layout {
    let mut layout = Layout::default();
    while layout.fittings < size {
        let fittings = small_ring(random);
        layout.ring(fittings);
    }
    layout.maybe_shuffled(random)
}

/// Lines of two to seven fittings, and rings, none of them tapped: what may be joined, split and closed.
pub fn lines_and_rings(random: &mut Random, size: usize) -> Layout {
    let mut layout = Layout::default();
    while layout.fittings < size {
        if random.one_in(3) {
            let fittings = small_ring(random);
            layout.ring(fittings);
        } else {
            layout.line(random.between(2, 7));
        }
    }
    layout.maybe_shuffled(random)
}

/// Rings closed by a pipe of theirs drawn at random, each then tapped once or more: by a fitting, by
/// the end of a line with or without couplings, or by a pipe between two of its own.
pub fn tapped_rings(random: &mut Random, size: usize) -> Layout {
    let mut layout = Layout::default();
    while layout.fittings < size {
        let ring = shuffled_ring(random, &mut layout);
        for _ in 0..random.between(1, 3) {
            tap(random, &mut layout, &ring);
        }
    }
    layout
}

/// A pipe to some fitting of a ring.
fn tap(random: &mut Random, layout: &mut Layout, ring: &[usize]) {
    let at = random.pick(ring);
    match random.below(4) {
        0 => {
            layout.onward(at);
        }
        1 => {
            let (one, other) = random.pair_below(ring.len());
            layout.join(ring[one], ring[other]);
        }
        kind => {
            let fittings = if kind == 2 { 2 } else { random.between(3, 5) };
            let end = layout.line(fittings)[0];
            layout.join(at, end);
        }
    }
}

/// Rings, each joined to one before it, so that one pipe taps two of them, or one and a junction.
pub fn rings_joined(random: &mut Random, size: usize) -> Layout {
    let mut layout = Layout::default();
    let mut before = shuffled_ring(random, &mut layout);
    while layout.fittings < size {
        let ring = shuffled_ring(random, &mut layout);
        layout.join(random.pick(&before), random.pick(&ring));
        if !random.one_in(3) {
            before = ring;
        }
    }
    layout
}

/// Rings of two pipes, each tapped at one of its two fittings.
pub fn rings_of_two_tapped(random: &mut Random, size: usize) -> Layout {
    let mut layout = Layout::default();
    for _ in 0..(size / 3).max(1) {
        let ring = layout.ring(2);
        let at = random.pick(&ring);
        layout.onward(at);
    }
    layout
}

/// One ring of almost all fittings, tapped at the end: at either end of the tag order, or anywhere.
pub fn ring_around(random: &mut Random, size: usize) -> Layout {
    let mut layout = Layout::default();
    let fittings = size.saturating_sub(1).max(2);
    let ring = layout.line(fittings);
    if random.one_in(2) {
        random.shuffle(&mut layout.joins);
    }
    layout.join(ring[fittings - 1], ring[0]);
    match random.below(4) {
        0 => {}
        1 => tap(random, &mut layout, &[ring[0], ring[fittings - 1]]),
        2 => tap(random, &mut layout, &[ring[0], ring[1]]),
        _ => tap(random, &mut layout, &ring),
    }
    layout
}

/// Lines grown from the middle to both sides, or to one, closed, and some of them tapped.
pub fn line_grown_and_closed(random: &mut Random, size: usize) -> Layout {
    let mut layout = Layout::default();
    while layout.fittings < size {
        let start = layout.line(3);
        let mut line = start.clone();
        let downwards = random.between(0, 4);
        for _ in 0..random.between(0, 8) {
            if random.below(4) < downwards {
                line.insert(0, layout.onward(line[0]));
            } else {
                line.push(layout.onward(line[line.len() - 1]));
            }
        }
        layout.join(line[0], line[line.len() - 1]);
        if random.one_in(2) {
            let ends = [line[0], line[line.len() - 1], start[1]];
            tap(random, &mut layout, &ends);
        }
    }
    layout
}

fn small_ring(random: &mut Random) -> usize {
    random.between(2, 9).min(random.between(2, 9))
}

/// The fittings of a new ring in order; its pipes are landed in any order.
fn shuffled_ring(random: &mut Random, layout: &mut Layout) -> Vec<usize> {
    let before = layout.joins.len();
    let fittings = small_ring(random);
    let ring = layout.ring(fittings);
    random.shuffle(&mut layout.joins[before..]);
    ring
}

/// Pipes whose two ends are drawn by their degrees, which choose the case of landing.
pub fn all_cases(random: &mut Random, size: usize) -> Layout {
    let mut layout = Layout::of_fittings(size);
    let mut degrees = vec![0; size];
    for _ in 0..size * 5 / 4 {
        let one = fitting_of_some_degree(random, &degrees);
        let other = fitting_of_some_degree(random, &degrees);
        if one != other {
            layout.join(one, other);
            degrees[one] += 1;
            degrees[other] += 1;
        }
    }
    layout
}

/// A fitting of degree 0, 1, 2, or 3 and up, if a look around finds one.
fn fitting_of_some_degree(random: &mut Random, degrees: &[usize]) -> usize {
    let wanted = random.below(4);
    let start = random.below(degrees.len());
    let around = (start..degrees.len()).chain(0..start);
    let found = around.into_iter().find(|&at| degrees[at].min(3) == wanted);
    found.unwrap_or(start)
}

/// Two shapes, with a few pipes between them at the end.
fn side_by_side(random: &mut Random, size: usize) -> Layout {
    let one = any(random, size / 2);
    let other = any(random, size / 2);
    let mut layout = one.beside(random, other);
    for _ in 0..random.below(6) {
        let join = random.pair_below(layout.fittings);
        layout.joins.push(join);
    }
    layout
}

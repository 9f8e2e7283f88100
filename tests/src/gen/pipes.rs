//! One more record for a house: pipes by the places of their ends, and some that are refused.

use super::random::Random;
use super::records;
use crate::house::{House, Pipe, Standing, LARGEST_VOLUME};
use crate::list::Record;

/// A fitting, or a pipe between fittings that are landed, by their degrees; now and then a refused one.
pub fn record(random: &mut Random, house: &House) -> Record {
    let fittings = house.fittings();
    if fittings < 2 || random.one_in(5) {
        return Record::Fitting;
    }
    let first = fitting_of_some_place(random, house);
    let mut second = match house.run_from(first) {
        // It closes a ring, if that end is free too.
        Some(run) if random.one_in(3) && run.low() == first => run.high(),
        Some(run) if random.one_in(3) => run.low(),
        _ => fitting_of_some_place(random, house),
    };
    if first == second && !random.one_in(30) {
        second = (first + 1) % fittings;
    }
    let missing = usize::from(random.one_in(40)) * fittings;
    let length = if random.one_in(60) {
        random.pick(&[0, 100_001])
    } else {
        1 + random.u32() % 500
    };
    records::with_volume(first + missing, second, length, volume(random))
}

/// A pipe as a list would name it, or one that no list has.
pub fn pipe(random: &mut Random, house: &House) -> Pipe {
    match record(random, house) {
        Record::Pipe {
            first,
            second,
            length,
            volume,
        } => Pipe {
            first: first.into(),
            second: second.into(),
            length,
            volume,
        },
        Record::Fitting => Pipe {
            first: random.pick(&[0, 1, 4_096, 65_535]),
            second: random.pick(&[0, 1, 65_535]),
            length: random.pick(&[1, 100_000, 100_001, u32::MAX]),
            volume: random.pick(&[0, 1, u32::MAX]),
        },
    }
}

/// Mostly known, now and then refused.
fn volume(random: &mut Random) -> u32 {
    let known = 1 + random.u32() % 900;
    let above = (LARGEST_VOLUME + 1).max(random.u32());
    match random.below(60) {
        0 => random.pick(&[LARGEST_VOLUME + 1, above]),
        1 | 2 => LARGEST_VOLUME,
        3..=10 => 0,
        _ => known,
    }
}

/// A fitting of a ring, the free end of a run with couplings, or a fitting of some standing.
fn fitting_of_some_place(random: &mut Random, house: &House) -> usize {
    let found = match random.below(6) {
        0 | 1 => ring_fitting(random, house),
        2 | 3 => end_with_couplings(random, house),
        _ => None,
    };
    found.unwrap_or_else(|| fitting_of_some_standing(random, house))
}

fn ring_fitting(random: &mut Random, house: &House) -> Option<usize> {
    if house.rings().is_empty() {
        return None;
    }
    let ring = &house.rings()[random.below(house.rings().len())];
    Some(random.pick(ring.fittings()))
}

/// From such an end to such an end two runs are merged, and tags re-hung.
fn end_with_couplings(random: &mut Random, house: &House) -> Option<usize> {
    let runs = house.runs();
    let start = random.below(runs.len() + 1);
    let around = runs[start..].iter().chain(&runs[..start]).take(20);
    let tagged = around.filter(|run| !run.couplings().is_empty());
    let mut ends = tagged.flat_map(|run| [run.low(), run.high()]);
    ends.find(|&end| house.standing(end) == Standing::Free)
}

/// A look around finds a fitting of the standing wanted, or gives the one where it starts.
fn fitting_of_some_standing(random: &mut Random, house: &House) -> usize {
    use Standing::{Coupling, Free, Settled};
    let wanted = random.pick(&[Coupling, Free, Free, Free, Settled]);
    let start = random.below(house.fittings());
    let around = (start..house.fittings()).chain(0..start).take(40);
    let found = around.into_iter().find(|&at| house.standing(at) == wanted);
    found.unwrap_or(start)
}

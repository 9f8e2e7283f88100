//! Lists of full size: 4,096 fittings, 4,096 pipes, and one more of each.

use super::layout::Layout;
use super::random::Random;
use super::shapes::{self, Shape};
use super::{records, stops, version, whole_of, Maker};
use crate::house::{LARGEST_VOLUME, LONGEST_PIPE, MOST_FITTINGS};
use crate::list::{self, Record};

/// Shapes that are landed whole.
const WHOLE: &[Shape] = &[
    shapes::balanced_merges,
    shapes::any,
    shapes::line_grown_downwards,
    shapes::all_cases,
    shapes::line_in_any_order,
    shapes::tapped_rings,
    shapes::rings_of_two_tapped,
    closed_line,
    shapes::ring_around,
    shapes::rings_joined,
];

/// Lists that stop.
const STOPPING: &[Maker] = &[
    pipe_too_many,
    ring_too_many,
    fault_too_many,
    volume_too_many,
    cut_too_many,
    kind_too_many,
    fitting_too_many,
];

/// By turns one that is landed whole and one that stops, each kind going round all of its own.
pub fn list(random: &mut Random, turn: usize) -> Vec<u8> {
    let round = turn / 2;
    if turn.is_multiple_of(2) {
        let records = whole(random, WHOLE[round % WHOLE.len()]);
        list::write(version(random), &records)
    } else {
        STOPPING[round % STOPPING.len()](random)
    }
}

fn whole(random: &mut Random, shape: Shape) -> Vec<Record> {
    whole_of(random, shape, MOST_FITTINGS)
}

/// A line, which its last pipe closes: of all fittings, with the 4,096th.
pub fn closed_line(random: &mut Random, size: usize) -> Layout {
    let mut layout = shapes::line_in_any_order(random, size);
    layout.join(0, size - 1);
    layout
}

/// 22: as many pipes and fittings as there may be, and one fitting more.
pub fn fitting_too_many(random: &mut Random) -> Vec<u8> {
    let layout = full_layout(random, MOST_FITTINGS, 0);
    stops::one_fitting_more(random, &layout)
}

/// 23: a 4,097th pipe, and more after it.
pub fn pipe_too_many(random: &mut Random) -> Vec<u8> {
    let fittings = random.pick(&[3, 64, 1_000, MOST_FITTINGS]);
    let mut layout = full_layout(random, fittings, 0);
    for _ in 0..random.between(1, 3) {
        layout.joins.push(random.pair_below(fittings));
    }
    let records = records::of(random, &layout);
    list::write(version(random), &records)
}

/// 23: a 4,097th pipe that would close a ring.
pub fn ring_too_many(random: &mut Random) -> Vec<u8> {
    let line = random.between(2, 50);
    let mut layout = full_layout(random, 1_000, line);
    layout.join(0, line - 1);
    let records = records::of(random, &layout);
    list::write(version(random), &records)
}

/// 5, 6 or 7 and not 23: a 4,097th pipe with a fault of its own.
pub fn fault_too_many(random: &mut Random) -> Vec<u8> {
    let fittings = 64;
    let (first, second, length) = random.pick(&[
        (0, fittings, 1),
        (fittings, 0, 1),
        (3, 3, 1),
        (0, 1, 0),
        (0, 1, LONGEST_PIPE + 1),
    ]);
    let version = version(random);
    let mut list = full_list(random, version, fittings);
    let fault = records::pipe(first, second, length);
    list.extend(list::record_bytes(version, &fault));
    list.extend(list::record_bytes(version, &Record::Fitting));
    list
}

/// 31 and not 23: a 4,097th pipe whose volume is too large.
pub fn volume_too_many(random: &mut Random) -> Vec<u8> {
    let mut list = full_list(random, 2, 64);
    let fault = records::with_volume(0, 1, 1, LARGEST_VOLUME + 1);
    list.extend(list::record_bytes(2, &fault));
    list
}

/// 3 and not 23: a 4,097th pipe that is cut.
pub fn cut_too_many(random: &mut Random) -> Vec<u8> {
    let version = version(random);
    let mut list = full_list(random, version, 64);
    list.extend(stops::cut(random, version, &records::pipe(0, 1, 1)));
    list
}

/// 4, and neither 22 nor 23: an unknown kind where no fitting and no pipe has room.
pub fn kind_too_many(random: &mut Random) -> Vec<u8> {
    let version = version(random);
    let mut list = full_list(random, version, MOST_FITTINGS);
    list.push(stops::kind(random));
    list
}

fn full_list(random: &mut Random, version: u16, fittings: usize) -> Vec<u8> {
    let layout = full_layout(random, fittings, 0);
    list::write(version, &records::of(random, &layout))
}

/// A layout of 4,096 pipes. Its first fittings are a line that nothing else is joined to.
fn full_layout(random: &mut Random, fittings: usize, line: usize) -> Layout {
    let mut layout = Layout::default();
    if line > 0 {
        layout.line(line);
    }
    let others = fittings - line;
    let shape = if random.one_in(2) {
        shapes::all_cases(random, others)
    } else {
        Layout::of_fittings(others)
    };
    layout.beside(random, shape).filled(random, line)
}

#[cfg(test)]
mod tests {
    use super::*;
    use crate::house::MOST_PIPES;
    use crate::list::{grow, Stop};
    use crate::queries;
    use crate::refusal::Refusal;

    fn stop_of(maker: Maker, seed: u64) -> (usize, usize, Option<Refusal>) {
        let (house, result) = grow(&maker(&mut Random::new(seed)));
        let refusal = result.err().map(Stop::refusal);
        (house.fittings(), house.pipes().len(), refusal)
    }

    #[test]
    fn full_lists_stop_as_named() {
        let faults = [Refusal::NotLanded, Refusal::SameFitting, Refusal::Length];
        for (maker, refusals) in [
            (pipe_too_many as Maker, &[Refusal::FullPipes][..]),
            (ring_too_many, &[Refusal::FullPipes]),
            (fault_too_many, &faults),
            (volume_too_many, &[Refusal::Volume]),
            (cut_too_many, &[Refusal::Cut]),
            (kind_too_many, &[Refusal::UnknownKind]),
        ] {
            for seed in 0..2 {
                let (_, pipes, refusal) = stop_of(maker, seed);
                assert_eq!(pipes, MOST_PIPES);
                let refusal = refusal.expect("a list that stops");
                assert!(refusals.contains(&refusal), "{refusal:?}");
            }
        }
        let full = (MOST_FITTINGS, MOST_PIPES, Some(Refusal::UnknownKind));
        assert_eq!(stop_of(kind_too_many, 1), full);
        let (fittings, _, refusal) = stop_of(fitting_too_many, 1);
        assert_eq!(
            (fittings, refusal),
            (MOST_FITTINGS, Some(Refusal::FullFittings))
        );
    }

    #[test]
    fn full_lists_are_whole_otherwise() {
        for &shape in WHOLE {
            let records = whole(&mut Random::new(3), shape);
            let (house, result) = grow(&list::write(2, &records));
            assert_eq!(result, Ok(()));
            assert!(house.fittings().max(house.pipes().len()) > 3_500);
        }
    }

    #[test]
    fn full_rings() {
        let lines = |shape, seed| {
            let records = whole(&mut Random::new(seed), shape);
            let (house, result) = grow(&list::write(2, &records));
            assert_eq!(result, Ok(()));
            (house.births(), queries::sheet(&house))
        };
        let (_, ring) = lines(closed_line, 4);
        assert_eq!(ring.len(), 1);
        assert_eq!(ring[0][..4], [0, 0, 0, 4_096]);
        // Each ring of two is a birth, and so is its tap; then a loop and a run are on the sheet.
        let (births, rings) = lines(shapes::rings_of_two_tapped, 5);
        assert_eq!((births, rings.len()), (2 * 1_365, 2 * 1_365));
    }
}

//! What demand 3 and documents 01 and 02 say of every house, on random ones.

use std::collections::BTreeSet;

use crate::gen::random::Random;
use crate::gen::{self, full, layout::Layout, records, shapes};
use crate::house::{House, Tag};
use crate::list::{self, Record};
use crate::queries;
use crate::refusal::Refusal;
use crate::ring::Ring;
use crate::run::Run;
use crate::times::Watched;

/// Lands a record; a refused one changes nothing.
fn land(watched: &mut Watched, record: Record) -> Result<(), Refusal> {
    let before = watched.clone();
    let result = watched.land(record);
    assert!(result.is_ok() || before == *watched);
    result
}

fn check(watched: &Watched) {
    let house = watched.house();
    assert_eq!(house.re_hung(), watched.times().iter().sum());
    assert!(watched.most() <= watched.bound());
    check_re_hung_bound(house);
    check_tags(house);
    check_lengths(house);
    check_volumes(house);
    check_found_lengths(house);
    check_finds(house);
}

/// At most n times the whole part of the base-2 logarithm of n.
fn check_re_hung_bound(house: &House) {
    let pipes = house.pipes().len();
    let bound = pipes.checked_ilog2().map_or(0, |log| pipes * log as usize);
    assert!(house.re_hung() as usize <= bound);
}

/// A coupling wears a tag and a junction none; tags are worn once, rise by 1 from low to high, and
/// round a ring from one of its fittings on.
fn check_tags(house: &House) {
    for (fitting, &tag) in house.tags().iter().enumerate() {
        assert_eq!(tag != 0, house.degree(fitting) == 2, "tag of {fitting}");
    }
    let worn: Vec<Tag> = house
        .tags()
        .iter()
        .copied()
        .filter(|&tag| tag != 0)
        .collect();
    assert_eq!(worn.iter().collect::<BTreeSet<_>>().len(), worn.len());
    for couplings in couplings_in_order(house) {
        for pair in couplings.windows(2) {
            assert_eq!(house.tags()[pair[0]] + 1, house.tags()[pair[1]]);
        }
    }
}

/// The couplings of each run from low to high, and of each ring from its lowest tag to its highest.
fn couplings_in_order(house: &House) -> impl Iterator<Item = &[usize]> {
    let of_runs = house.runs().iter().map(Run::couplings);
    of_runs.chain(house.rings().iter().map(Ring::fittings))
}

/// The lengths of runs and rings add up to those of the pipes, and every pipe lies on exactly one of
/// them.
fn check_lengths(house: &House) {
    let on_sheet: u32 = queries::sheet(house).iter().map(|line| line[4]).sum();
    let of_pipes: u32 = house.pipes().iter().map(|pipe| pipe.length).sum();
    assert_eq!(on_sheet, of_pipes);
    let of_runs = house.runs().iter().map(Run::pipes);
    let of_rings = house.rings().iter().map(Ring::pipes);
    let mut all = of_runs.chain(of_rings).collect::<Vec<_>>().concat();
    all.sort_unstable();
    assert_eq!(all, (0..house.pipes().len()).collect::<Vec<_>>());
}

/// A line has a volume exactly where each of its pipes has one, and these volumes then add up to that of
/// their pipes.
fn check_volumes(house: &House) {
    let volume = |&pipe: &usize| house.pipes()[pipe].volume;
    let of_runs = house.runs().iter().map(|run| (run.name(), run.pipes()));
    let of_rings = house.rings().iter().map(|ring| (ring.name(), ring.pipes()));
    let mut known: u32 = 0;
    for (name, pipes) in of_runs.chain(of_rings) {
        let sheet = queries::sheet(house);
        let line = sheet.iter().find(|line| line[0] as usize == name);
        let on_sheet = line.expect("a line of this name")[5];
        assert_eq!(on_sheet == 0, pipes.iter().any(|pipe| volume(pipe) == 0));
        if on_sheet != 0 {
            assert_eq!(on_sheet, pipes.iter().map(volume).sum());
            known += on_sheet;
        }
    }
    let on_sheet: u32 = queries::sheet(house).iter().map(|line| line[5]).sum();
    assert_eq!(on_sheet, known);
}

/// Asked by its number, a coupling is found itself, and any other number is refused. The two lengths add up
/// to that of its run, and the first rises along it; in a ring they are 0 and its length.
fn check_found_lengths(house: &House) {
    for ring in house.rings() {
        for &coupling in ring.fittings() {
            let found = queries::find_at(house, coupling).expect("a coupling");
            assert_eq!(found.coupling, coupling);
            assert_eq!((found.low, found.high), (0, ring.length(house.pipes())));
        }
    }
    for run in house.runs() {
        let mut below = 0;
        for &coupling in run.couplings() {
            let found = queries::find_at(house, coupling).expect("a coupling");
            assert_eq!(found.coupling, coupling);
            assert_eq!(found.low + found.high, run.length(house.pipes()));
            assert!(found.low > below && found.high > 0);
            below = found.low;
        }
    }
    for fitting in 0..house.fittings() {
        let refused = queries::find_at(house, fitting) == Err(Refusal::NoCoupling);
        assert_eq!(refused, house.degree(fitting) != 2);
    }
    assert_eq!(
        queries::find_at(house, house.fittings()),
        Err(Refusal::NoCoupling)
    );
}

/// Each tag in use finds its own run or ring, and a tag beside it finds one exactly if it is in use.
fn check_finds(house: &House) {
    let of_runs = house.runs().iter().map(Run::name);
    let names = of_runs.chain(house.rings().iter().map(Ring::name));
    for (couplings, name) in couplings_in_order(house).zip(names) {
        for &coupling in couplings {
            let tag = house.tags()[coupling];
            assert_eq!(queries::find(house, tag).map(|found| found.name), Ok(name));
            for beside in [tag - 1, tag + 1] {
                let worn = house.tags().contains(&beside);
                assert_eq!(queries::find(house, beside).is_ok(), worn);
            }
        }
    }
    assert_eq!(queries::find(house, 0), Err(Refusal::NoCoupling));
}

/// The query itself compares the ways over pipes and over runs; here, what a distance has to be: 0 to
/// the fitting itself, the same there and back, along no pipe more than its length, and attained.
fn check_distances(house: &House) {
    let all: Vec<Vec<Option<u32>>> = (0..house.fittings())
        .map(|from| distances_from(house, from))
        .collect();
    for (from, row) in all.iter().enumerate() {
        assert_eq!(row[from], Some(0));
        for (to, &distance) in row.iter().enumerate() {
            assert_eq!(distance, all[to][from]);
            assert!(to == from || distance.is_none() || is_attained(house, row, to));
        }
        for pipe in house.pipes() {
            let (one, other) = (row[pipe.first], row[pipe.second]);
            assert_eq!(one.is_some(), other.is_some());
            assert!(one <= other.map(|length| length + pipe.length));
            assert!(other <= one.map(|length| length + pipe.length));
        }
    }
}

/// Whether a pipe leads to a fitting from one that is nearer by the length of the pipe.
fn is_attained(house: &House, distances: &[Option<u32>], to: usize) -> bool {
    house.pipes().iter().any(|pipe| {
        let there = distances[pipe.far_end(to)].map(|length| length + pipe.length);
        [pipe.first, pipe.second].contains(&to) && there == distances[to]
    })
}

fn distances_from(house: &House, from: usize) -> Vec<Option<u32>> {
    let distances = queries::Distances::from(house, from).expect("landed");
    let targets = 0..house.fittings();
    targets
        .map(|to| distances.to(to).expect("landed"))
        .collect()
}

/// The records of a house of at most about so many fittings.
fn small_house(random: &mut Random, most: usize) -> Vec<Record> {
    let size = random.between(2, most);
    gen::whole_of(random, shapes::any, size)
}

#[test]
fn small_houses_after_every_record() {
    for index in 0..1_500 {
        let random = &mut Random::of_list(101, index);
        let mut watched = Watched::default();
        for record in small_house(random, 24) {
            assert_eq!(land(&mut watched, record), Ok(()));
            check(&watched);
        }
    }
}

#[test]
fn distances_of_small_houses() {
    for index in 0..800 {
        let random = &mut Random::of_list(202, index);
        let list = list::write(2, &small_house(random, 16));
        check_distances(&list::grow(&list).0);
    }
}

/// Lists landed one after the other, as in a series of demand 3: refused records and stopped lists
/// included.
#[test]
fn series_of_lists_on_one_register() {
    let mut refused = 0;
    for index in 0..400 {
        let random = &mut Random::of_list(303, index);
        let mut watched = Watched::default();
        for _ in 0..random.between(1, 4) {
            refused += usize::from(land_until_refused(random, &mut watched).is_err());
            check(&watched);
        }
        check_distances(watched.house());
    }
    assert!(refused > 100, "{refused}");
}

/// Records drawn from all fittings landed so far and some that are not.
fn land_until_refused(random: &mut Random, watched: &mut Watched) -> Result<(), Refusal> {
    for _ in 0..random.below(30) {
        let fittings = watched.house().fittings();
        let record = if fittings < 3 || random.one_in(4) {
            Record::Fitting
        } else {
            let not_landed = usize::from(random.one_in(12));
            let (first, second) = random.pair_below(fittings + not_landed);
            let (length, volume) = (1 + random.u32() % 500, random.u32() % 3);
            records::with_volume(first, second, length, volume)
        };
        land(watched, record)?;
    }
    Ok(())
}

/// Every pipe between two fittings lands, and one more ring stands exactly where it leaves one of
/// couplings only.
#[test]
fn rings_are_closed_and_nothing_is_refused() {
    let mut rings = 0;
    for index in 0..3_000 {
        let random = &mut Random::of_list(505, index);
        let mut house = list::grow(&list::write(2, &small_house(random, 12))).0;
        let (first, second) = random.pair_below(house.fittings());
        let closes = closes_a_ring(&house, first, second);
        let tapped: BTreeSet<usize> = [first, second]
            .iter()
            .filter_map(|&fitting| house.ring_through(fitting).map(Ring::name))
            .collect();
        let before = house.rings().len();
        let landed = list::land_record(&mut house, records::pipe(first, second, 1));
        assert_eq!(landed, Ok(()));
        let after = before - tapped.len() + usize::from(closes);
        assert_eq!(house.rings().len(), after);
        rings += usize::from(closes);
    }
    assert!(rings > 50, "{rings}");
}

/// Of a ring's S fittings S - 1 are re-hung by a pipe to one of them, and S - 2 by a pipe to two.
#[test]
fn taps_re_hang_all_others() {
    for size in 2..40 {
        let random = &mut Random::new(size as u64);
        let layout = full::closed_line(random, size);
        let ring = list::grow(&list::write(2, &records::of(random, &layout))).0;
        let (one, other) = random.pair_below(size);
        let landed = |joins: &[Record]| {
            let mut house = ring.clone();
            list::land(&mut house, &list::write(2, joins)).expect("accepted");
            (
                house.re_hung() - ring.re_hung(),
                house.births() - ring.births(),
            )
        };
        let size = u32::try_from(size).expect("small");
        let outside = usize::try_from(size).expect("small");
        let tap = [Record::Fitting, records::pipe(outside, one, 1)];
        assert_eq!(landed(&tap), (size - 1, 1));
        assert_eq!(landed(&[records::pipe(one, other, 1)]), (size - 2, 1));
    }
}

/// Whether all fittings joined with these two would have degree 2, if a pipe joined them.
fn closes_a_ring(house: &House, first: usize, second: usize) -> bool {
    let degree = |fitting| house.degree(fitting) + usize::from([first, second].contains(&fitting));
    let joined = |fitting| {
        let distance = |end| queries::distance(house, end, fitting).expect("both landed");
        distance(first).or(distance(second)).is_some()
    };
    (0..house.fittings())
        .filter(|&fitting| joined(fitting))
        .all(|fitting| degree(fitting) == 2)
}

/// Landing list by list is landing all at once.
#[test]
fn a_list_landed_in_parts() {
    for index in 0..300 {
        let random = &mut Random::of_list(404, index);
        let records = gen::whole(random);
        let (before, after) = records.split_at(random.below(records.len() + 1));
        let mut house = list::grow(&list::write(2, before)).0;
        assert_eq!(list::land(&mut house, &list::write(2, after)), Ok(()));
        assert_eq!(house, list::grow(&list::write(2, &records)).0);
    }
}

#[test]
fn a_full_line_of_merges_keeps_the_bound() {
    let layout = shapes::balanced_merges(&mut Random::new(1), 4_096);
    let house = grown_in_order(&layout);
    // For k from 1 to 11, two pieces of 2^k fittings are joined 2^(11 - k) times, and 2^k - 2 tags
    // are re-hung each time. The bound is 4,095 times 11.
    assert_eq!(house.re_hung(), 18_434);
    check_re_hung_bound(&house);
    check_tags(&house);
    check_lengths(&house);
}

/// The ways over pipes and over runs, compared by the query; there and back.
#[test]
fn distances_of_full_houses() {
    let mut joined = 0;
    let shapes = [
        shapes::grid,
        shapes::all_cases,
        shapes::comb,
        shapes::loops,
        shapes::ring_around,
        shapes::rings_joined,
    ];
    for shape in shapes {
        let random = &mut Random::new(6);
        let house = grown_in_order(&shape(random, 4_096).landable());
        for _ in 0..10 {
            let (from, to) = random.pair_below(house.fittings());
            let there = queries::distance(&house, from, to).expect("both landed");
            assert_eq!(queries::distance(&house, to, from), Ok(there));
            joined += usize::from(there.is_some());
        }
    }
    assert!(joined > 10, "{joined}");
}

#[test]
fn the_longest_line() {
    let house = grown_in_order(&shapes::line_in_any_order(&mut Random::new(2), 4_096));
    let length = 4_095 * 100_000;
    assert_eq!(queries::distance(&house, 4_095, 0), Ok(Some(length)));
    assert_eq!(queries::sheet(&house), [[0, 0, 4_095, 4_094, length, 0]]);
}

#[test]
fn a_full_line_grown_downwards_keeps_its_tags_apart() {
    let mut layout = Layout::default();
    let mut low = layout.line(3)[0];
    while layout.fittings < 4_096 {
        low = layout.onward(low);
    }
    let house = grown_in_order(&layout);
    let lowest = house.tags().iter().filter(|&&tag| tag != 0).min();
    assert_eq!(lowest, Some(&(8_192 - 4_093)));
    assert_eq!(house.re_hung(), 0);
    check_tags(&house);
}

/// 1,365 rings of two pipes, each tapped: 2,730 births, and one tag of each ring is re-hung.
#[test]
fn a_full_house_of_tapped_rings() {
    let house = grown_in_order(&shapes::rings_of_two_tapped(&mut Random::new(8), 4_096));
    assert_eq!((house.births(), house.re_hung()), (2_730, 1_365));
    check_tags(&house);
    check_lengths(&house);
    check_found_lengths(&house);
}

/// A ring of thousands of pipes: the distance is the shorter way round.
#[test]
fn a_full_ring() {
    let layout = full::closed_line(&mut Random::new(9), 4_096);
    let house = grown_in_order(&layout);
    check_re_hung_bound(&house);
    check_tags(&house);
    for to in [1, 2_047, 2_048, 2_049, 4_095] {
        let steps = u32::try_from(to.min(4_096 - to)).expect("small");
        let length = Ok(Some(100_000 * steps));
        assert_eq!(queries::distance(&house, 0, to), length);
    }
}

fn grown_in_order(layout: &Layout) -> House {
    let mut records = vec![Record::Fitting; layout.fittings];
    let joins = layout.joins.iter();
    records.extend(joins.map(|&(first, second)| records::pipe(first, second, 100_000)));
    let (house, result) = list::grow(&list::write(2, &records));
    assert_eq!(result, Ok(()));
    house
}

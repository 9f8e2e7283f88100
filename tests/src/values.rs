//! Document 01's "Values to hold" and the faults that it names as near at hand; document 02's rings and
//! quotes.

use crate::gen::records;
use crate::house::{House, Pipe, MOST_FITTINGS, MOST_PIPES};
use crate::list::{self, Record, Stop};
use crate::print::Outcome;
use crate::queries::{self, Found};
use crate::quote::{self, Quote, OTHER_QUOTE};
use crate::refusal::Refusal;

/// A list of so many fittings and then these pipes.
pub fn pipes(fittings: usize, pipes: &[(usize, usize, u32)]) -> Vec<u8> {
    let mut records = vec![Record::Fitting; fittings];
    let pipes = pipes.iter();
    records.extend(pipes.map(|&(first, second, length)| records::pipe(first, second, length)));
    list::write(1, &records)
}

/// The same with volumes, in version 2.
pub fn with_volumes(fittings: usize, pipes: &[(usize, usize, u32, u32)]) -> Vec<u8> {
    let mut records = vec![Record::Fitting; fittings];
    let pipes = pipes.iter();
    records.extend(pipes.map(|&(a, b, length, volume)| records::with_volume(a, b, length, volume)));
    list::write(2, &records)
}

/// The example of "The printing program".
pub fn listing() -> Vec<u8> {
    pipes(
        7,
        &[
            (0, 1, 1000),
            (1, 2, 2000),
            (3, 4, 500),
            (4, 5, 700),
            (2, 3, 300),
            (3, 6, 900),
        ],
    )
}

fn found(name: usize, coupling: usize, low: u32, high: u32) -> Found {
    Found {
        name,
        coupling,
        low,
        high,
    }
}

fn printed(list: &[u8]) -> String {
    Outcome::of(list).to_string()
}

fn grown(list: &[u8]) -> House {
    let (house, result) = list::grow(list);
    assert_eq!(result, Ok(()));
    house
}

/// The house of these pipes, each 1 mm long.
fn joined(fittings: usize, joins: &[(usize, usize)]) -> House {
    let with_length: Vec<_> = joins.iter().map(|&(a, b)| (a, b, 1)).collect();
    grown(&pipes(fittings, &with_length))
}

fn stop_of(list: &[u8]) -> Option<Refusal> {
    list::grow(list).1.err().map(Stop::refusal)
}

#[test]
fn the_listing() {
    assert_eq!(
        printed(&listing()),
        "7 6 3 1\n0 0 3 2 3300 -\n2 3 5 1 1200 -\n5 3 6 0 900 -\n"
    );
}

#[test]
fn the_tags_of_the_listing() {
    let house = grown(&listing());
    assert_eq!(house.tags(), [0, 8192, 8193, 0, 8195, 0, 0]);
    assert_eq!(queries::find(&house, 8192), Ok(found(0, 1, 1000, 2300)));
    assert_eq!(queries::find(&house, 8195), Ok(found(2, 4, 500, 700)));
    assert_eq!(queries::find(&house, 8194), Err(Refusal::NoCoupling));
}

/// Document 02, S-4: the sum where each volume is known, and a dash where one is not.
#[test]
fn volumes_of_runs_and_rings() {
    let listed = |volumes: [u32; 3], ring: [u32; 2]| {
        let [a, b, c] = volumes;
        let list = with_volumes(
            6,
            &[
                (0, 1, 10, a),
                (1, 2, 20, b),
                (2, 3, 30, c),
                (4, 5, 1, ring[0]),
                (5, 4, 2, ring[1]),
            ],
        );
        printed(&list)
    };
    let known = "6 5 2 0\n0 0 3 2 60 1000006\n3 4 4 2 3 9\n";
    assert_eq!(listed([1, 1_000_000, 5], [4, 5]), known);
    let line_unknown = "6 5 2 0\n0 0 3 2 60 -\n3 4 4 2 3 9\n";
    for volumes in [[0, 2, 3], [1, 0, 3], [1, 2, 0], [0, 0, 0]] {
        assert_eq!(listed(volumes, [4, 5]), line_unknown);
    }
    let ring_unknown = "6 5 2 0\n0 0 3 2 60 6\n3 4 4 2 3 -\n";
    for volumes in [[0, 5], [4, 0]] {
        assert_eq!(listed([1, 2, 3], volumes), ring_unknown);
    }
    let refused = listed([1, 1_000_001, 0], [0, 0]);
    assert!(refused.ends_with("\n0 0 1 0 10 1\nstopped 7 31\n"));
}

/// A pipe of version 1 beside one of version 2 on one run.
#[test]
fn lists_of_both_versions_on_one_register() {
    let mut house = grown(&with_volumes(3, &[(0, 1, 10, 7)]));
    assert_eq!(queries::sheet(&house), [[0, 0, 1, 0, 10, 7]]);
    let onward = list::write(1, &[records::with_volume(1, 2, 20, 9)]);
    assert_eq!(list::land(&mut house, &onward), Ok(()));
    assert_eq!(queries::sheet(&house), [[0, 0, 2, 1, 30, 0]]);
}

/// 4,096 pipes of 1,000,000 ml each: below 2 to the 32.
#[test]
fn the_largest_volume() {
    let mut records = vec![Record::Fitting; MOST_FITTINGS];
    for first in 0..MOST_FITTINGS {
        let second = (first + 1) % MOST_FITTINGS;
        records.push(records::with_volume(first, second, 1, 1_000_000));
    }
    let house = grown(&list::write(2, &records));
    let line = [0, 0, 0, 4_096, 4_096, 4_096_000_000];
    assert_eq!(queries::sheet(&house), [line]);
}

#[test]
fn volume_before_full() {
    let mut records = vec![Record::Fitting; 3];
    records.push(records::pipe(0, 1, 1));
    records.resize(3 + MOST_PIPES, records::pipe(0, 2, 1));
    records.push(records::with_volume(0, 1, 1, 1_000_001));
    assert_eq!(stop_of(&list::write(2, &records)), Some(Refusal::Volume));
    assert_eq!(stop_of(&list::write(1, &records)), Some(Refusal::FullPipes));
}

#[test]
fn header_alone() {
    assert_eq!(printed(b"PNL\x01\x00"), "0 0 0 0\n");
}

#[test]
fn two_pipes_on_two_fittings() {
    let list = pipes(2, &[(0, 1, 10), (1, 0, 20)]);
    assert_eq!(printed(&list), "2 2 1 0\n0 0 0 2 30 -\n");
    let house = grown(&list);
    assert_eq!(house.tags(), [8193, 8192]);
    assert_eq!(queries::find_at(&house, 0), Ok(found(0, 0, 0, 30)));
}

#[test]
fn closing_a_run_with_couplings() {
    // Its high end gets the highest tag plus 1, its low end the lowest minus 1, whoever is named first.
    for closing in [(0, 2), (2, 0)] {
        let house = joined(3, &[(0, 1), (1, 2), closing]);
        assert_eq!(house.tags(), [8191, 8192, 8193]);
        assert_eq!((house.births(), house.re_hung()), (1, 0));
        assert_eq!(queries::sheet(&house), [[0, 0, 0, 3, 3, 0]]);
    }
    // Tags that ran downwards: 3 is the high end, 6 the low one.
    let mut joins = vec![(1, 2), (2, 3), (1, 4), (4, 5), (5, 6), (3, 6)];
    let house = joined(7, &joins);
    assert_eq!(house.tags(), [0, 8191, 8192, 8193, 8190, 8189, 8188]);
    // Tapped at 6, between pipes 4 (to 5) and 5 (to 3): up from 5, round to 3.
    joins.push((0, 6));
    let tags = [16_386, 16_387, 16_388, 16_385, 16_384];
    assert_eq!(joined(7, &joins).tags()[1..6], tags);
}

#[test]
fn the_shorter_way_round() {
    let house = grown(&pipes(3, &[(0, 1, 5), (1, 2, 5), (2, 0, 1)]));
    let distances = [(0, 2), (0, 1), (2, 1), (1, 1)].map(|(a, b)| queries::distance(&house, a, b));
    assert_eq!(distances, [1, 5, 5, 0].map(|length| Ok(Some(length))));
    let house = grown(&pipes(4, &[(0, 1, 2), (1, 2, 3), (2, 0, 9)]));
    assert_eq!(queries::distance(&house, 0, 2), Ok(Some(5)));
    assert_eq!(queries::distance(&house, 0, 3), Ok(None));
}

#[test]
fn a_tapped_ring_of_two() {
    // Pipes 0 and 1; the loop rises from pipe 0, whichever fitting is tapped.
    let house = joined(3, &[(0, 1), (1, 0), (0, 2)]);
    assert_eq!(house.tags(), [0, 16_384, 0]);
    assert_eq!((house.births(), house.re_hung()), (2, 1));
    assert_eq!(
        queries::sheet(&house),
        [[0, 0, 0, 1, 2, 0], [2, 0, 2, 0, 1, 0]]
    );
    let lengths = [(0, 1, 10), (1, 0, 200), (2, 1, 1)];
    let house = grown(&pipes(3, &lengths));
    assert_eq!(house.tags(), [16_384, 0, 0]);
    assert_eq!(queries::find_at(&house, 0), Ok(found(0, 0, 10, 200)));
}

#[test]
fn a_tap_rises_from_the_lower_numbered_pipe() {
    let ring = [(0, 1), (1, 2), (2, 0)];
    let tags = |tapped| {
        joined(4, &[&ring[..], &[(tapped, 3)]].concat())
            .tags()
            .to_vec()
    };
    // Fitting 0 has pipes 0 and 2: up along pipe 0. Fitting 1 has 0 and 1, fitting 2 has 1 and 2.
    assert_eq!(tags(0), [0, 16_384, 16_385, 0]);
    assert_eq!(tags(1), [16_384, 0, 16_385, 0]);
    assert_eq!(tags(2), [16_385, 16_384, 0, 0]);
}

#[test]
fn two_fittings_of_one_ring() {
    // A tap at the first named, one birth, and a split of the loop at the second: of five tags, three
    // are re-hung.
    let ring = [(0, 1), (1, 2), (2, 3), (3, 4), (4, 0)];
    let house = joined(5, &[&ring[..], &[(1, 3)]].concat());
    assert_eq!(house.tags(), [16_384, 0, 16_387, 0, 16_385]);
    assert_eq!((house.births(), house.re_hung()), (2, 3));
    let house = joined(5, &[&ring[..], &[(3, 1)]].concat());
    assert_eq!(house.tags(), [16_386, 0, 16_384, 0, 16_387]);
    assert_eq!((house.births(), house.re_hung()), (2, 3));
    let lines = [[0, 1, 3, 2, 3, 0], [1, 1, 3, 1, 2, 0], [5, 1, 3, 0, 1, 0]];
    assert_eq!(queries::sheet(&house), lines);
    // A third pipe of a ring of two: nothing is left to wear a tag.
    let house = joined(2, &[(0, 1), (1, 0), (0, 1)]);
    assert_eq!(house.tags(), [0, 0]);
    assert_eq!((house.births(), house.re_hung()), (2, 0));
}

#[test]
fn two_rings_joined() {
    let rings = [(0, 1), (1, 0), (2, 3), (3, 2)];
    let house = joined(4, &[&rings[..], &[(3, 0)]].concat());
    assert_eq!(house.tags(), [0, 32_768, 24_576, 0]);
    assert_eq!((house.births(), house.re_hung()), (4, 2));
}

#[test]
fn a_split_birth_precedes_an_extension_birth() {
    let ring = [(0, 1), (1, 0), (2, 3)];
    // The free end is named first, and its run has no couplings: two births, the tap's before.
    let house = joined(4, &[&ring[..], &[(2, 1)]].concat());
    assert_eq!(house.tags(), [16_384, 0, 24_576, 0]);
    // With a coupling, the run goes on with its own tags.
    let house = joined(5, &[(0, 1), (1, 0), (2, 3), (3, 4), (4, 1)]);
    assert_eq!(house.tags(), [24_576, 0, 0, 16_384, 16_385]);
    // The births of a ring and of its tap, and then that of a line.
    let house = joined(5, &[(0, 1), (1, 0), (0, 1), (2, 3), (3, 4)]);
    assert_eq!((house.tags()[3], house.births()), (24_576, 3));
}

#[test]
fn a_loop() {
    let list = pipes(
        5,
        &[(0, 3, 5), (0, 4, 5), (0, 1, 10), (1, 2, 20), (2, 0, 30)],
    );
    assert!(printed(&list).ends_with("\n2 0 0 2 60 -\n"));
    assert_eq!(queries::distance(&grown(&list), 1, 2), Ok(Some(20)));
}

#[test]
fn a_low_end_extended() {
    let house = joined(7, &[(0, 1), (1, 2), (2, 3), (3, 4), (2, 5), (0, 6)]);
    assert_eq!(house.tags()[0], 8191);
}

#[test]
fn lengths_and_the_same_fitting() {
    assert_eq!(stop_of(&pipes(2, &[(0, 1, 100_000)])), None);
    assert_eq!(
        stop_of(&pipes(2, &[(0, 1, 100_001)])),
        Some(Refusal::Length)
    );
    assert_eq!(stop_of(&pipes(2, &[(0, 1, 0)])), Some(Refusal::Length));
    assert_eq!(stop_of(&pipes(1, &[(0, 0, 1)])), Some(Refusal::SameFitting));
}

#[test]
fn full_and_ring_together() {
    // A hub with an arm for every pipe but one, and a line of one pipe apart from it.
    let hub = 2;
    let mut records = vec![Record::Fitting; MOST_FITTINGS];
    records.push(records::pipe(0, 1, 1));
    records.resize(MOST_FITTINGS + 3, records::pipe(hub, 3, 1));
    records[MOST_FITTINGS + 2] = records::pipe(hub, 4, 1);
    records.resize(MOST_FITTINGS + MOST_PIPES - 1, records::pipe(hub, 5, 1));
    let ring = records::pipe(1, 0, 1);

    let mut not_full = records.clone();
    not_full.push(ring);
    assert_eq!(grown(&list::write(1, &not_full)).rings().len(), 1);

    let mut full = records;
    full.push(records::pipe(hub, 5, 1));
    assert_eq!(stop_of(&list::write(1, &full)), None);
    full.push(ring);
    assert_eq!(stop_of(&list::write(1, &full)), Some(Refusal::FullPipes));
}

#[test]
fn a_last_record_of_one_byte() {
    let mut list = listing();
    list.push(0x00);
    assert!(printed(&list).ends_with("\nstopped 13 4\n"));
}

#[test]
fn the_lowest_coupling_is_found() {
    let house = joined(5, &[(0, 1), (1, 2), (2, 3), (3, 4)]);
    let names = [8192, 8193, 8194].map(|tag| queries::find(&house, tag).map(|found| found.name));
    assert_eq!(names, [Ok(0); 3]);
    for tag in [0, 8191, 8195, 16_384] {
        assert_eq!(queries::find(&house, tag), Err(Refusal::NoCoupling));
    }
}

#[test]
fn lengths_after_a_split() {
    let line = [(0, 1, 1), (1, 2, 20), (2, 3, 300), (3, 4, 4000), (4, 5, 5)];
    let mut tapped = line.to_vec();
    tapped.push((2, 6, 7));
    let at = |joins: &[(usize, usize, u32)]| queries::find_at(&grown(&pipes(7, joins)), 3);
    assert_eq!(at(&line), Ok(found(0, 3, 321, 4005)));
    assert_eq!(at(&tapped), Ok(found(2, 3, 300, 4005)));
}

#[test]
fn lone_couplings_keep_their_sides() {
    // Couplings 1 and 3 are left alone by the tap at 2, and each is extended at its free end.
    let mut joins = vec![(0, 1), (1, 2), (2, 3), (3, 4), (2, 5)];
    joins.extend([(0, 6), (6, 7), (4, 8)]);
    let house = joined(9, &joins);
    assert_eq!(house.tags(), [8191, 8192, 0, 8194, 8195, 0, 8190, 0, 0]);
}

#[test]
fn two_couplings_of_one_run() {
    let house = joined(6, &[(0, 1), (1, 2), (2, 3), (3, 4), (4, 5), (4, 1)]);
    assert_eq!(house.tags(), [0, 0, 8193, 8194, 0, 0]);
    let sheet = queries::sheet(&house);
    assert_eq!(sheet[..2], [[0, 0, 1, 0, 1, 0], [1, 1, 4, 2, 3, 0]]);
    assert_eq!(sheet[2..], [[4, 4, 5, 0, 1, 0], [5, 1, 4, 0, 1, 0]]);
}

#[test]
fn a_free_end_joined_to_its_own_run() {
    let house = joined(4, &[(0, 1), (1, 2), (2, 3), (3, 1)]);
    assert_eq!(house.tags(), [0, 0, 8193, 8194]);
    assert_eq!(
        queries::sheet(&house),
        [[0, 0, 1, 0, 1, 0], [1, 1, 1, 2, 3, 0]]
    );
    // A piece without couplings has no sides: its extension is a birth.
    let house = joined(3, &[(0, 1), (1, 2), (1, 2)]);
    assert_eq!(house.tags(), [0, 0, 16_384]);
    assert_eq!(
        queries::sheet(&house),
        [[0, 0, 1, 0, 1, 0], [1, 1, 1, 1, 2, 0]]
    );
}

#[test]
fn merging_keeps_the_tags_of_more_couplings() {
    // Two couplings against one, the longer run's joint named second and at its low end.
    let joins = [(4, 5), (5, 6), (0, 1), (1, 2), (2, 3), (6, 0)];
    let house = joined(7, &joins);
    let tags = [16_383, 16_384, 16_385, 0, 0, 16_381, 16_382];
    assert_eq!(house.tags(), tags);
    assert_eq!(house.re_hung(), 1);
    assert_eq!(queries::find_at(&house, 5), Ok(found(0, 5, 1, 5)));
    // Three against two: the two follow in path order.
    let longer = [(0, 1), (1, 2), (2, 3), (3, 4)];
    let house = joined(
        9,
        &[&longer[..], &[(5, 6), (6, 7), (7, 8), (4, 5)]].concat(),
    );
    let tags = [0, 8192, 8193, 8194, 8195, 8196, 8197, 8198, 0];
    assert_eq!((house.tags(), house.re_hung()), (&tags[..], 2));
}

#[test]
fn merging_without_couplings_is_a_birth() {
    let house = joined(4, &[(0, 1), (2, 3), (3, 0)]);
    assert_eq!(house.tags(), [8193, 0, 0, 8192]);
    assert_eq!((house.births(), house.re_hung()), (1, 0));
}

/// The house of the listing before its pipe 2-3.
fn before_the_join() -> House {
    let joins = [(0, 1, 1000), (1, 2, 2000), (3, 4, 500), (4, 5, 700)];
    grown(&pipes(7, &joins))
}

fn asked(first: usize, second: usize, length: u32, volume: u32) -> Pipe {
    Pipe {
        first,
        second,
        length,
        volume,
    }
}

/// Document 02, S-5: landing a list is a quote and a commit for each pipe.
#[test]
fn the_listing_by_quotes() {
    let mut house = joined(7, &[]);
    let costs = [
        ((0, 1, 1000), (1, 0)),
        ((1, 2, 2000), (2, 0)),
        ((3, 4, 500), (1, 0)),
        ((4, 5, 700), (2, 0)),
        ((2, 3, 300), (3, 1)),
        ((3, 6, 900), (5, 0)),
    ];
    for (((first, second, length), terms), landed) in costs.into_iter().zip(0..) {
        let made = quote::quote(&house, asked(first, second, length, 0));
        assert_eq!(made.terms, Ok(terms));
        assert_eq!((made.fittings, made.pipes), (7, landed));
        assert_eq!(quote::commit(&mut house, &made), Ok(()));
    }
    assert_eq!(house, grown(&listing()));
}

#[test]
fn a_quote_of_every_case() {
    let terms = |house: &House, (a, b)| quote::quote(house, asked(a, b, 1, 0)).terms;
    let house = before_the_join();
    let cases = [(2, 6), (6, 2), (2, 3), (1, 5), (6, 4), (1, 4), (0, 2)];
    let expected = [(2, 0), (2, 0), (3, 1), (4, 0), (5, 0), (6, 0), (7, 0)];
    assert_eq!(cases.map(|join| terms(&house, join)), expected.map(Ok));
    assert_eq!(terms(&joined(2, &[]), (0, 1)), Ok((1, 0)));
    // A ring of four, one of two, and a line without couplings: taps, two taps, two fittings of one ring.
    let ring = [(0, 1), (1, 2), (2, 3), (3, 0), (4, 5), (5, 4), (6, 7)];
    let house = joined(9, &ring);
    let taps = [(8, 1), (7, 1), (0, 5), (0, 2), (3, 2), (4, 5)];
    let expected = [(5, 3), (4, 3), (6, 4), (6, 2), (6, 2), (6, 0)];
    assert_eq!(taps.map(|join| terms(&house, join)), expected.map(Ok));
}

#[test]
fn a_refused_pipe_is_a_quote_too() {
    let mut house = grown(&listing());
    let refused = [
        (asked(3, 7, 1200, 0), 5),
        (asked(65_535, 65_535, 0, 0), 5),
        (asked(3, 3, 0, 0), 6),
        (asked(0, 6, 100_001, 1_000_001), 7),
        (asked(0, 6, 1, 1_000_001), 31),
    ];
    for (pipe, refusal) in refused {
        let made = quote::quote(&house, pipe);
        assert_eq!(made.terms, Err(refusal));
        assert_eq!((made.pipe, made.fittings, made.pipes), (pipe, 7, 6));
        // Its commit gives the refusal, while it holds.
        assert_eq!(quote::commit(&mut house, &made), Err(refusal));
        assert_eq!(house, grown(&listing()));
    }
    let made = quote::quote(&house, refused[0].0);
    assert_eq!(house.land_fitting(), Ok(()));
    assert_eq!(quote::commit(&mut house, &made), Err(OTHER_QUOTE));
}

#[test]
fn a_quote_that_differs_in_any_part() {
    let house = before_the_join();
    let made = quote::quote(&house, asked(2, 3, 300, 0));
    let differing = [
        Quote {
            terms: Ok((3, 0)),
            ..made
        },
        Quote {
            terms: Ok((2, 1)),
            ..made
        },
        Quote {
            terms: Err(5),
            ..made
        },
        Quote {
            fittings: 6,
            ..made
        },
        Quote { pipes: 5, ..made },
        Quote {
            pipe: asked(2, 6, 300, 0),
            ..made
        },
    ];
    for other in differing {
        let mut after = house.clone();
        assert_eq!(quote::commit(&mut after, &other), Err(OTHER_QUOTE));
        assert_eq!(after, house);
    }
    // Another length is another pipe, with the same terms here.
    let longer = Quote {
        pipe: asked(2, 3, 400, 0),
        ..made
    };
    assert_eq!(quote::commit(&mut house.clone(), &longer), Ok(()));
    // A fitting or a pipe in between changes a count; what was committed is not committed again.
    let mut after = house.clone();
    assert_eq!(after.land_fitting(), Ok(()));
    assert_eq!(quote::commit(&mut after, &made), Err(OTHER_QUOTE));
    let mut after = house.clone();
    assert_eq!(after.land_pipe(asked(5, 6, 1, 0)), Ok(()));
    assert_eq!(quote::commit(&mut after, &made), Err(OTHER_QUOTE));
    let mut after = house;
    assert_eq!(quote::commit(&mut after, &made), Ok(()));
    assert_eq!(quote::commit(&mut after, &made), Err(OTHER_QUOTE));
}

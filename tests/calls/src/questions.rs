//! What is asked of a list: calls, each with the answer of the other implementation.

use std::collections::BTreeSet;
use std::ops::Range;

use reference::calls::{Answer, Grown};
use reference::gen::pipes;
use reference::gen::random::Random;
use reference::house::{House, LARGEST_VOLUME, MOST_FITTINGS};

use crate::archive::Call;

/// Houses of up to so many fittings have every length of slice tried, for every question.
const TINY: usize = 14;
/// Houses of up to so many fittings have every pair of them measured.
const SMALL: usize = 40;
/// On a larger house, so many fittings are measured from, each to so many others.
const SOURCES: usize = 6;
const TARGETS: usize = 24;
/// So many pipes are quoted, and so many that are refused.
const PIPES: usize = 6;
const REFUSED: usize = 3;
/// On a house that is not tiny, one question in so many, the sheet among them, has slices of more
/// lengths than the answer's own.
const LENGTHS_EVERY: usize = 40;

pub struct Question {
    pub call: Call,
    pub answer: Answer,
    /// The lengths of answer slices to try.
    pub rooms: Vec<usize>,
}

/// The sheet, every tag in use and its neighbours, every fitting, pairs of fittings, numbers that are
/// none of them, and pipes. A list that stops has no house to ask about: its refusal is the answer,
/// whatever is asked.
pub fn of(grown: &Grown, random: &mut Random) -> Vec<Question> {
    let empty = House::default();
    let house = grown.house().unwrap_or(&empty);
    let tiny = house.fittings() <= TINY;
    let asked = [
        vec![(Call::Sheet, grown.sheet())],
        finds(grown, house),
        finds_at(grown, house),
        distances(grown, house, random),
        quotes(grown, house, random),
    ];
    let questions = asked.concat().into_iter().enumerate();
    let with_rooms = |(place, (call, answer)): (usize, (Call, Answer))| {
        let needs = answer
            .as_ref()
            .map_or(call.usual_size(), |numbers| 4 * numbers.len());
        let rooms = rooms(needs, tiny, place);
        Question {
            call,
            answer,
            rooms,
        }
    };
    questions.map(with_rooms).collect()
}

/// Each tag in use with its neighbours, 0, and tags at the ends of their range.
fn finds(grown: &Grown, house: &House) -> Vec<(Call, Answer)> {
    let worn = house.tags().iter().filter(|&&tag| tag != 0);
    let near = worn.flat_map(|&tag| [tag - 1, tag, tag + 1]);
    let tags: BTreeSet<u32> = near.chain([0, 1, 8_192, u32::MAX]).collect();
    tags.into_iter()
        .map(|tag| (Call::Find(tag), grown.find(tag)))
        .collect()
}

fn finds_at(grown: &Grown, house: &House) -> Vec<(Call, Answer)> {
    let fittings = landed(house).chain(not_landed(house));
    fittings
        .map(|fitting| (Call::FindAt(fitting), grown.find_at(fitting)))
        .collect()
}

fn distances(grown: &Grown, house: &House, random: &mut Random) -> Vec<(Call, Answer)> {
    let mut asked = Vec::new();
    for (from, to) in pairs(house, random) {
        let answers = grown.distances(from, &to);
        asked.extend(
            to.iter()
                .zip(answers)
                .map(|(&to, answer)| (Call::Distance(from, to), answer)),
        );
    }
    asked
}

/// The fittings to measure from, each with those to measure to.
fn pairs(house: &House, random: &mut Random) -> Vec<(u32, Vec<u32>)> {
    let mut sources: Vec<u32> = landed(house).collect();
    let mut targets = sources.clone();
    if house.fittings() > SMALL {
        random.shuffle(&mut sources);
        random.shuffle(&mut targets);
        sources.truncate(SOURCES);
        targets.truncate(TARGETS);
    }
    targets.extend(not_landed(house).take(2));
    let near = |from: u32| [from, from.saturating_sub(1)];
    let joined = sources
        .into_iter()
        .map(|from| (from, [&near(from)[..], &targets].concat()));
    let missing = not_landed(house).map(|from| (from, vec![0, from]));
    joined.chain(missing).collect()
}

/// Pipes by the places of their ends, taps and closings among them; and some that are refused.
fn quotes(grown: &Grown, house: &House, random: &mut Random) -> Vec<(Call, Answer)> {
    let drawn = |_| {
        let pipe = pipes::pipe(random, house);
        let [first, second] = [pipe.first, pipe.second].map(number);
        [first, second, pipe.length, pipe.volume]
    };
    let mut asked: Vec<[u32; 4]> = (0..PIPES).map(drawn).collect();
    let mut refused = refused_pipes(house);
    random.shuffle(&mut refused);
    asked.extend(&refused[..REFUSED]);
    let quote = |pipe| (Call::Quote(pipe), grown.quote(pipe));
    asked.into_iter().map(quote).collect()
}

/// Each with what the refusals behind its own look for. With 16 bits alone of the fittings, some would
/// land.
fn refused_pipes(house: &House) -> Vec<[u32; 4]> {
    let above = LARGEST_VOLUME + 1;
    let named = |missing| [[missing, 0, 0, above], [0, missing, 0, above]];
    let mut refused: Vec<[u32; 4]> = not_landed(house).flat_map(named).collect();
    refused.extend([[65_536, 1, 1, 0], [0, 65_537, 1, 0], [65_537, 65_536, 1, 0]]);
    refused.extend([[0, 0, 0, above], [1, 0, 0, above], [1, 0, 100_001, above]]);
    refused.extend([
        [1, 0, 100_000, above],
        [0, 1, u32::MAX, 0],
        [0, 1, 1, u32::MAX],
    ]);
    refused
}

fn landed(house: &House) -> Range<u32> {
    0..number(house.fittings())
}

/// The first number that is no fitting, and some whose low 16 bits are a fitting's or are not.
fn not_landed(house: &House) -> impl Iterator<Item = u32> {
    [
        number(house.fittings()),
        65_536,
        65_535,
        number(MOST_FITTINGS),
        u32::MAX,
    ]
    .into_iter()
}

/// Every length from none to one too many, or the answer's own and now and then those beside it.
fn rooms(needs: usize, tiny: bool, place: usize) -> Vec<usize> {
    if tiny {
        (0..=needs + 1).collect()
    } else if place.is_multiple_of(LENGTHS_EVERY) {
        vec![0, needs.saturating_sub(1), needs, needs + 1]
    } else {
        vec![needs]
    }
}

fn number(count: usize) -> u32 {
    u32::try_from(count).expect("at most 65,536")
}

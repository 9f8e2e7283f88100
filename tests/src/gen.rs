//! Lists of every kind, drawn from a seed.
//!
//! List `index` of a seed depends on these two numbers only, so it can be made again alone.

pub mod damage;
pub mod full;
pub mod layout;
pub mod pipes;
pub mod random;
pub mod records;
pub mod series;
pub mod shapes;
pub mod stops;

use crate::list::{self, Record};
use random::Random;
use shapes::Shape;

/// Draws a list.
pub type Maker = fn(&mut Random) -> Vec<u8>;

/// One list in so many is of full size.
const FULL_SIZE_EVERY: usize = 500;

/// The list of this number.
pub fn list(seed: u64, index: usize) -> Vec<u8> {
    let random = &mut Random::of_list(seed, index);
    if index % FULL_SIZE_EVERY == FULL_SIZE_EVERY - 1 {
        return full::list(random, index / FULL_SIZE_EVERY);
    }
    match random.below(100) {
        0..=54 => whole_list(random),
        55..=79 => stops::any(random),
        80..=89 => damage::damaged(random),
        90..=93 => damage::noise(random),
        94..=98 => damage::record_soup(random),
        _ => damage::about_the_longest(random),
    }
}

/// A list of either version, of a house of some shape, that is landed whole.
pub fn whole_list(random: &mut Random) -> Vec<u8> {
    let records = whole(random);
    list::write(version(random), &records)
}

/// One of the versions that a list may have.
pub fn version(random: &mut Random) -> u16 {
    random.pick(&list::VERSIONS)
}

/// The records of a house of some shape, none of them refused.
pub fn whole(random: &mut Random) -> Vec<Record> {
    let size = small_size(random);
    whole_of(random, shapes::any, size)
}

/// The same of one shape, about as large as it is told.
pub fn whole_of(random: &mut Random, shape: Shape, size: usize) -> Vec<Record> {
    let layout = shape(random, size).landable();
    records::of(random, &layout)
}

/// Mostly a handful of fittings, now and then some hundreds.
fn small_size(random: &mut Random) -> usize {
    match random.below(40) {
        0 => random.between(100, 400),
        1..=9 => random.between(20, 80),
        _ => random.between(2, 20),
    }
}

#[cfg(test)]
mod tests {
    use super::*;
    use std::collections::BTreeSet;

    use crate::list::grow;
    use crate::tally::Cases;

    #[test]
    fn a_list_depends_on_seed_and_index_only() {
        assert_eq!(list(7, 3), list(7, 3));
        assert_ne!(list(7, 3), list(7, 4));
        assert_ne!(list(7, 3), list(8, 3));
    }

    #[test]
    fn whole_lists_are_not_refused() {
        for index in 0..500 {
            let list = whole_list(&mut Random::of_list(11, index));
            assert_eq!(grow(&list).1, Ok(()), "list {index}");
        }
    }

    /// Runs of several pipes with every volume known, with one unknown, and with all; in version 1
    /// none is known.
    #[test]
    fn volumes_are_known_and_unknown() {
        let mut seen = BTreeSet::new();
        for index in 0..500 {
            let list = whole_list(&mut Random::of_list(17, index));
            let house = grow(&list).0;
            for run in house.runs().iter().filter(|run| run.pipes().len() > 1) {
                let volumes = run.pipes().iter().map(|&pipe| house.pipes()[pipe].volume);
                let unknown = volumes.filter(|&volume| volume == 0).count();
                assert!(list[3] == 2 || unknown == run.pipes().len());
                seen.insert((unknown == 0, unknown == run.pipes().len()));
            }
        }
        assert_eq!(seen.len(), 3);
    }

    #[test]
    fn every_case_of_landing_comes_up_often() {
        let mut cases = Cases::default();
        for index in 0..1_000 {
            let list = whole_list(&mut Random::of_list(13, index));
            cases.count(&grow(&list).0);
        }
        assert_eq!(cases.fewer_than(20), [""; 0]);
    }
}

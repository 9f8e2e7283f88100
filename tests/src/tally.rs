//! Counting lists by what became of them.

use std::collections::BTreeMap;
use std::fmt;
use std::process::ExitCode;

use crate::cases::Case;
use crate::house::House;
use crate::list::Stop;
use crate::print::Outcome;
use crate::quote::Terms;
use crate::refusal::Refusal;

/// What became of a list, as far as it is counted.
#[derive(Clone, Copy, Debug, PartialEq, Eq, PartialOrd, Ord)]
enum Kind {
    Whole,
    TooLong,
    InHeader(Refusal),
    InRecord(Refusal),
}

#[derive(Debug, Default)]
pub struct Tally {
    counts: BTreeMap<Kind, usize>,
    cases: Cases,
    /// Pipes and fittings of the house with the most pipes.
    largest: (usize, usize),
    most_re_hung: u32,
}

impl Tally {
    pub fn count(&mut self, outcome: &Outcome) {
        *self.counts.entry(kind(outcome)).or_default() += 1;
        if let Outcome::Grown(house, _) = outcome {
            self.cases.count(house);
            let size = (house.pipes().len(), house.fittings());
            self.largest = self.largest.max(size);
            self.most_re_hung = self.most_re_hung.max(house.re_hung());
        }
    }

    pub fn add(&mut self, other: Tally) {
        for (kind, count) in other.counts {
            *self.counts.entry(kind).or_default() += count;
        }
        self.cases.add(&other.cases);
        self.largest = self.largest.max(other.largest);
        self.most_re_hung = self.most_re_hung.max(other.most_re_hung);
    }

    pub fn lists(&self) -> usize {
        self.counts.values().sum()
    }

    /// What no list came to, and the cases of landing that no pipe came to.
    pub fn missing(&self) -> Vec<String> {
        let kinds = kinds().into_iter();
        let missing = kinds.filter(|kind| !self.counts.contains_key(kind));
        let mut missing: Vec<String> = missing.map(|kind| kind.to_string()).collect();
        missing.extend(self.cases.missing());
        missing
    }
}

/// Pipes by the cases under which they were landed.
#[derive(Debug, Default)]
pub struct Cases {
    counts: BTreeMap<(Case, u32), usize>,
}

impl Cases {
    /// All pipes of a house.
    pub fn count(&mut self, house: &House) {
        self.add_counts(house.cases());
    }

    pub fn add(&mut self, other: &Cases) {
        self.add_counts(&other.counts);
    }

    fn add_counts(&mut self, counts: &BTreeMap<(Case, u32), usize>) {
        for (&case, count) in counts {
            *self.counts.entry(case).or_default() += count;
        }
    }

    /// The cases that fewer pipes than this came to.
    pub fn fewer_than(&self, least: usize) -> Vec<String> {
        let all = Case::all().into_iter();
        let few = all.filter(|case| self.counts.get(case).is_none_or(|&count| count < least));
        few.map(|(case, births)| format!("{case}, births {births}"))
            .collect()
    }

    pub fn missing(&self) -> Vec<String> {
        self.fewer_than(1)
    }

    /// How many of all cases came up.
    fn seen(&self) -> usize {
        Case::all().len() - self.missing().len()
    }
}

/// Quotes by their case and whether tags are re-hung, or by their refusal.
#[derive(Debug, Default)]
pub struct Quotes {
    counts: BTreeMap<Result<(u32, bool), u32>, usize>,
}

impl Quotes {
    pub fn count(&mut self, terms: Terms) {
        let kind = terms.map(|(case, re_hung)| (case, re_hung > 0));
        *self.counts.entry(kind).or_default() += 1;
    }

    pub fn add(&mut self, other: &Quotes) {
        for (&kind, count) in &other.counts {
            *self.counts.entry(kind).or_default() += count;
        }
    }

    /// What no quote came to: a new run, an extension and a closing re-hang nothing; a merge and a
    /// landing on couplings may, the latter by a tap.
    pub fn missing(&self) -> Vec<String> {
        let offered = [1, 2, 3, 4, 5, 6, 7].map(|case| Ok((case, false)));
        let re_hung = [3, 4, 5, 6].map(|case| Ok((case, true)));
        let declined = [5, 6, 7, 31, 23].map(Err);
        let all = offered.into_iter().chain(re_hung).chain(declined);
        let missing = all.filter(|kind| !self.counts.contains_key(kind));
        let words = missing.map(|kind| match kind {
            Ok((case, true)) => format!("quote of case {case} with tags re-hung"),
            Ok((case, false)) => format!("quote of case {case} without"),
            Err(refusal) => format!("quote with refusal {refusal}"),
        });
        words.collect()
    }
}

/// How a comparison without a difference ends: with enough lists, no outcome may be missing.
pub fn verdict(enough: bool, missing: &[String]) -> ExitCode {
    if !enough || missing.is_empty() {
        return ExitCode::SUCCESS;
    }
    eprintln!("never came up: {}", missing.join(", "));
    ExitCode::FAILURE
}

/// What a list can come to.
fn kinds() -> Vec<Kind> {
    use Refusal::{Cut, NoMark, UnknownKind, Version};
    use Refusal::{FullFittings, FullPipes, Length, NotLanded, SameFitting, Volume};
    let of_pipe = [NotLanded, SameFitting, Length, Volume, FullPipes];
    let mut kinds = vec![Kind::Whole, Kind::TooLong];
    kinds.extend([NoMark, Version, Cut].map(Kind::InHeader));
    kinds.extend([UnknownKind, Cut, FullFittings].map(Kind::InRecord));
    kinds.extend(of_pipe.map(Kind::InRecord));
    kinds
}

fn kind(outcome: &Outcome) -> Kind {
    match outcome {
        Outcome::TooLong => Kind::TooLong,
        Outcome::Grown(_, Ok(())) => Kind::Whole,
        Outcome::Grown(_, Err(Stop::Header(refusal))) => Kind::InHeader(*refusal),
        Outcome::Grown(_, Err(Stop::Record(_, refusal))) => Kind::InRecord(*refusal),
    }
}

impl fmt::Display for Kind {
    fn fmt(&self, f: &mut fmt::Formatter) -> fmt::Result {
        match self {
            Kind::Whole => write!(f, "whole"),
            Kind::TooLong => write!(f, "too long"),
            Kind::InHeader(refusal) => write!(f, "header {}", refusal.number()),
            Kind::InRecord(refusal) => write!(f, "record {}", refusal.number()),
        }
    }
}

/// One line.
impl fmt::Display for Tally {
    fn fmt(&self, f: &mut fmt::Formatter) -> fmt::Result {
        for (kind, count) in &self.counts {
            write!(f, "{kind}: {count}, ")?;
        }
        write!(f, "cases of landing: {}, ", self.cases.seen())?;
        let (pipes, fittings) = self.largest;
        write!(f, "largest house: {fittings} fittings {pipes} pipes, ")?;
        write!(f, "most re-hung: {}", self.most_re_hung)
    }
}

#[cfg(test)]
mod tests {
    use super::*;

    #[test]
    fn what_was_counted_is_not_missing() {
        let mut tally = Tally::default();
        let (kinds, cases) = (13, 35);
        assert_eq!(tally.missing().len(), kinds + cases);
        let pipe = b"P\x00\x00\x01\x00\x05\x00\x00\x00";
        let joined = [&b"PNL\x01\x00FF"[..], pipe].concat();
        for list in [&b"PNL\x01\x00"[..], b"PN", b"PNL\x01\x00P", &joined] {
            tally.count(&Outcome::of(list));
        }
        let missing = tally.missing();
        assert_eq!(missing[..3], ["too long", "header 2", "header 3"]);
        assert_eq!(missing.len(), kinds - 3 + cases - 1);
        assert!(!missing.contains(&"record 3".to_string()));
        assert!(!missing.contains(&"Junction to Junction Apart, births 0".to_string()));
        assert!(missing.contains(&"Ring to Ring Same, births 1".to_string()));
    }
}

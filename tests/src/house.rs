//! The register of documents 01 and 02, kept as explicit runs and rings.
//!
//! Degrees, names and lengths are worked out from the landed pipes whenever they are asked for.
//! Beside the pipes stand the runs as ordered lists, low end first, the rings as ordered lists,
//! lowest tag first, and the tags hung along them.

use std::collections::BTreeMap;

use crate::cases::Case;
use crate::licence::Licence;
use crate::refusal::Refusal;
use crate::ring::Ring;
use crate::run::{self, Run};

/// A fitting's number, from 0 in order of landing.
pub type Fitting = usize;
/// A pipe's number, from 0 in order of landing.
pub type PipeNumber = usize;
/// A coupling's tag; 0 at a junction.
pub type Tag = u32;
pub type Millimetres = u32;
/// 0 is unknown.
pub type Millilitres = u32;

pub const MOST_FITTINGS: usize = 4_096;
pub const MOST_PIPES: usize = 4_096;
pub const LONGEST_PIPE: Millimetres = 100_000;
pub const LARGEST_VOLUME: Millilitres = 1_000_000;

/// The k-th birth uses this times k.
const BIRTH_STEP: Tag = 8_192;

/// A pipe with its two fittings in the order in which they are named.
#[derive(Clone, Copy, Debug, PartialEq, Eq)]
pub struct Pipe {
    pub first: Fitting,
    pub second: Fitting,
    pub length: Millimetres,
    pub volume: Millilitres,
}

impl Pipe {
    /// The end that is not `near`.
    pub fn far_end(&self, near: Fitting) -> Fitting {
        if self.first == near {
            self.second
        } else {
            self.first
        }
    }
}

/// What its degree makes of a fitting that a pipe comes to ("Landing a pipe").
#[derive(Clone, Copy, Debug, PartialEq, Eq)]
pub enum Standing {
    /// Degree 2.
    Coupling,
    /// A junction of degree 1.
    Free,
    /// Any other junction.
    Settled,
}

/// The way in which tags go on from a run's end.
#[derive(Clone, Copy, Debug, PartialEq, Eq)]
enum Side {
    Low,
    High,
}

#[derive(Clone, Debug, Default, PartialEq, Eq)]
pub struct House {
    pipes: Vec<Pipe>,
    runs: Vec<Run>,
    rings: Vec<Ring>,
    /// One for each landed fitting.
    tags: Vec<Tag>,
    births: u32,
    re_hung: u32,
    /// How many pipes were landed under each case, and with so many births.
    cases: BTreeMap<(Case, u32), usize>,
}

/// What the register holds.
impl House {
    pub fn fittings(&self) -> usize {
        self.tags.len()
    }

    pub fn pipes(&self) -> &[Pipe] {
        &self.pipes
    }

    /// The runs with their sides, in no order.
    pub fn runs(&self) -> &[Run] {
        &self.runs
    }

    /// The rings, in no order.
    pub fn rings(&self) -> &[Ring] {
        &self.rings
    }

    /// The runs and the rings by rising name, without sides, from the pipes alone.
    pub fn afresh(&self) -> (Vec<Run>, Vec<Ring>) {
        run::afresh(self.fittings(), &self.pipes)
    }

    pub fn tags(&self) -> &[Tag] {
        &self.tags
    }

    pub fn births(&self) -> u32 {
        self.births
    }

    pub fn re_hung(&self) -> u32 {
        self.re_hung
    }

    /// How many pipes were landed under each case, and with so many births.
    pub fn cases(&self) -> &BTreeMap<(Case, u32), usize> {
        &self.cases
    }

    /// The number of pipe ends at a fitting.
    pub fn degree(&self, fitting: Fitting) -> usize {
        let ends = self.pipes.iter().flat_map(|pipe| [pipe.first, pipe.second]);
        ends.filter(|&end| end == fitting).count()
    }

    pub fn standing(&self, fitting: Fitting) -> Standing {
        match self.degree(fitting) {
            1 => Standing::Free,
            2 => Standing::Coupling,
            _ => Standing::Settled,
        }
    }

    /// The run that a coupling lies on.
    pub fn run_through(&self, coupling: Fitting) -> Option<&Run> {
        let mut runs = self.runs.iter();
        runs.find(|run| run.couplings().contains(&coupling))
    }

    /// The run that a free fitting ends.
    pub fn run_from(&self, free: Fitting) -> Option<&Run> {
        self.runs.iter().find(|run| run.ends_at(free))
    }

    /// The ring that a coupling lies on.
    pub fn ring_through(&self, coupling: Fitting) -> Option<&Ring> {
        let mut rings = self.rings.iter();
        rings.find(|ring| ring.fittings().contains(&coupling))
    }
}

/// Landing ("Landing a pipe" and "Tags").
impl House {
    pub fn land_fitting(&mut self) -> Result<(), Refusal> {
        if self.fittings() == MOST_FITTINGS {
            return Err(Refusal::FullFittings);
        }
        self.tags.push(0);
        Ok(())
    }

    /// Lands a pipe where there is no licence; a refused one changes nothing.
    pub fn land_pipe(&mut self, pipe: Pipe) -> Result<(), Refusal> {
        self.land_pipe_on(&Licence::none(), pipe)
    }

    /// The same on a licence (document 02, S-10).
    pub fn land_pipe_on(&mut self, licence: &Licence, pipe: Pipe) -> Result<(), Refusal> {
        self.check(licence, &pipe)?;
        let case = Case::of(self, &pipe);
        let (tags, births) = (self.tags.clone(), self.births);
        self.land_by_case(&pipe);
        self.pipes.push(pipe);
        self.re_hung += re_hangings(&tags, &self.tags);
        let of_case = self.cases.entry((case, self.births - births));
        *of_case.or_default() += 1;
        Ok(())
    }

    /// Refusals 5, 6, 7, 31, 23 and 36, in this order.
    fn check(&self, licence: &Licence, pipe: &Pipe) -> Result<(), Refusal> {
        if pipe.first >= self.fittings() || pipe.second >= self.fittings() {
            return Err(Refusal::NotLanded);
        }
        if pipe.first == pipe.second {
            return Err(Refusal::SameFitting);
        }
        if pipe.length == 0 || pipe.length > LONGEST_PIPE {
            return Err(Refusal::Length);
        }
        if pipe.volume > LARGEST_VOLUME {
            return Err(Refusal::Volume);
        }
        if self.pipes.len() == MOST_PIPES {
            return Err(Refusal::FullPipes);
        }
        if !licence.allows(self.pipes.len()) {
            return Err(Refusal::OverLimit);
        }
        Ok(())
    }

    /// The cases, by the two degrees before the pipe: the runs of couplings are split and their rings
    /// tapped, that of the first named first; then a free end's run goes on, or a new one starts.
    fn land_by_case(&mut self, pipe: &Pipe) {
        use Standing::{Coupling, Free};
        let (first, second) = (pipe.first, pipe.second);
        let standings = [first, second].map(|fitting| self.standing(fitting));
        for (fitting, standing) in [first, second].into_iter().zip(standings) {
            if standing == Coupling {
                self.split_or_tap(fitting);
            }
        }
        match standings {
            [Free, Free] => self.merge_or_close(first, second),
            [Free, _] => self.extend(first, second),
            [_, Free] => self.extend(second, first),
            _ => self.start_run(first, second),
        }
    }

    /// The number of the pipe that is being landed.
    fn next_pipe(&self) -> PipeNumber {
        self.pipes.len()
    }

    fn start_run(&mut self, first: Fitting, second: Fitting) {
        let run = Run::of_one_pipe(self.next_pipe(), first, second);
        self.runs.push(run);
    }

    /// The run of a free fitting goes on to another fitting.
    fn extend(&mut self, free: Fitting, other: Fitting) {
        let pipe = self.next_pipe();
        let run = self.take_run_ending_at(free);
        let (side, next) = if run.couplings().is_empty() {
            (Side::High, self.birth())
        } else {
            self.next_tag(&run, free)
        };
        self.hang(side, next, &[free]);
        let path = run.leading_to(free).lengthened(pipe, other);
        self.keep(path, side);
    }

    /// The runs of two free fittings become one; if they are one, it becomes a ring.
    fn merge_or_close(&mut self, first: Fitting, second: Fitting) {
        let one = self.take_run_ending_at(first);
        if one.ends_at(second) {
            return self.close(one, first, second);
        }
        let two = self.take_run_ending_at(second);
        if two.couplings().len() > one.couplings().len() {
            self.merge_onto(two, second, one, first);
        } else {
            self.merge_onto(one, first, two, second);
        }
    }

    /// A run between two free fittings becomes a ring. With couplings, its high end gets the highest
    /// tag plus 1 and its low end the lowest minus 1; without, it is a birth: the first named gets
    /// the base, the second base + 1.
    fn close(&mut self, run: Run, first: Fitting, second: Fitting) {
        let run = if run.couplings().is_empty() {
            let base = self.birth();
            self.hang(Side::High, base, &[first, second]);
            run.leading_to(second)
        } else {
            for end in [run.high(), run.low()] {
                let (side, next) = self.next_tag(&run, end);
                self.hang(side, next, &[end]);
            }
            run
        };
        let ring = Ring::closed(run, self.next_pipe());
        self.rings.push(ring);
    }

    /// Merges two runs; the first given keeps its tags. Where neither has couplings, it is the run
    /// of the first named fitting, and the base goes where its next tag would.
    fn merge_onto(&mut self, keeper: Run, joint: Fitting, other: Run, other_joint: Fitting) {
        let pipe = self.next_pipe();
        let (side, next) = if keeper.couplings().is_empty() {
            (Side::High, self.birth())
        } else {
            self.next_tag(&keeper, joint)
        };
        let onward = other.leading_from(other_joint);
        let outwards = [&[joint, other_joint], onward.couplings()].concat();
        self.hang(side, next, &outwards);
        self.keep(keeper.leading_to(joint).joined(pipe, onward), side);
    }

    /// Splits a coupling's run there; or, where it lies on a ring, taps that.
    fn split_or_tap(&mut self, coupling: Fitting) {
        let mut rings = self.rings.iter();
        let ring = rings.position(|ring| ring.fittings().contains(&coupling));
        match ring {
            Some(place) => self.tap(place, coupling),
            None => self.split(coupling),
        }
        self.tags[coupling] = 0;
    }

    /// The ring at this place of the list becomes a loop run at one of its fittings: a birth, whose
    /// base goes to the neighbour along the lower-numbered of its two ring pipes, rising round.
    fn tap(&mut self, place: usize, at: Fitting) {
        let run = self.rings.swap_remove(place).opened_at(at);
        let base = self.birth();
        self.hang(Side::High, base, run.couplings());
        self.runs.push(run);
    }

    /// Splits a coupling's run there; the pieces keep their tags and sides.
    fn split(&mut self, coupling: Fitting) {
        let mut runs = self.runs.iter();
        let place = runs.position(|run| run.couplings().contains(&coupling));
        let place = place.expect("a coupling lies on a run");
        let pieces = self.runs.swap_remove(place).split_at(coupling);
        let (low, high) = pieces.expect("the run was found by this coupling");
        self.runs.extend([low, high]);
    }

    /// The base of the next birth.
    fn birth(&mut self) -> Tag {
        self.births += 1;
        BIRTH_STEP * self.births
    }

    /// At which side of a run with couplings an end lies, and the tag that is next there.
    fn next_tag(&self, run: &Run, end: Fitting) -> (Side, Tag) {
        let tags = run.couplings().iter().map(|&coupling| self.tags[coupling]);
        if run.high() == end {
            (Side::High, tags.max().expect("the run has couplings") + 1)
        } else {
            (Side::Low, tags.min().expect("the run has couplings") - 1)
        }
    }

    /// Hangs tags outwards from one side of a run, starting with `next`.
    fn hang(&mut self, side: Side, next: Tag, outwards: &[Fitting]) {
        for (&fitting, step) in outwards.iter().zip(0..) {
            self.tags[fitting] = match side {
                Side::High => next + step,
                Side::Low => next - step,
            };
        }
    }

    /// Keeps a path whose last fitting is the end on the side given.
    fn keep(&mut self, path: Run, side: Side) {
        self.runs.push(match side {
            Side::High => path,
            Side::Low => path.reversed(),
        });
    }

    fn take_run_ending_at(&mut self, free: Fitting) -> Run {
        let place = self.runs.iter().position(|run| run.ends_at(free));
        self.runs
            .swap_remove(place.expect("a free fitting ends a run"))
    }
}

/// The fittings whose tags before and after are both not 0 and differ.
fn re_hangings(before: &[Tag], after: &[Tag]) -> u32 {
    let pairs = before.iter().zip(after);
    let changed = pairs.filter(|&(&old, &new)| old != 0 && new != 0 && old != new);
    changed.map(|_| 1).sum()
}

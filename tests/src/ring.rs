//! A ring as an ordered list (document 02, S-2).

use crate::house::{Fitting, Millilitres, Millimetres, Pipe, PipeNumber};
use crate::run::{self, sum, Run};

/// A closed path through couplings only: pipe `i` joins fittings `i` and `i + 1`, and the last pipe the
/// last fitting and the first. Tags rise by 1 from the first fitting to the last.
#[must_use]
#[derive(Clone, Debug, PartialEq, Eq, PartialOrd, Ord)]
pub struct Ring {
    pipes: Vec<PipeNumber>,
    fittings: Vec<Fitting>,
}

impl Ring {
    /// A run whose ends one more pipe joins.
    pub fn closed(run: Run, pipe: PipeNumber) -> Self {
        Ring {
            pipes: [run.pipes(), &[pipe]].concat(),
            fittings: [&[run.low()], run.couplings(), &[run.high()]].concat(),
        }
    }

    /// The ring of a path that comes back to where it starts.
    pub fn of_loop(path: &Run) -> Self {
        Ring {
            pipes: path.pipes().to_vec(),
            fittings: [&[path.low()], path.couplings()].concat(),
        }
    }

    /// All of them couplings.
    pub fn fittings(&self) -> &[Fitting] {
        &self.fittings
    }

    pub fn pipes(&self) -> &[PipeNumber] {
        &self.pipes
    }

    /// The lowest pipe number.
    pub fn name(&self) -> PipeNumber {
        let lowest = self.pipes.iter().min();
        *lowest.expect("a ring has a pipe")
    }

    /// What the sheet shows as both ends.
    pub fn lowest_fitting(&self) -> Fitting {
        let lowest = self.fittings.iter().min();
        *lowest.expect("a ring has a fitting")
    }

    /// The sum of the pipes.
    pub fn length(&self, pipes: &[Pipe]) -> Millimetres {
        sum(&self.pipes, pipes)
    }

    /// The sum of the pipes, or 0 where one of them is unknown.
    pub fn volume(&self, pipes: &[Pipe]) -> Millilitres {
        run::volume(&self.pipes, pipes)
    }

    /// The lengths between two different fittings of this ring, one way round and the other.
    pub fn ways(&self, from: Fitting, to: Fitting, pipes: &[Pipe]) -> Option<[Millimetres; 2]> {
        let (one, other) = (self.place_of(from)?, self.place_of(to)?);
        let between = &self.pipes[one.min(other)..one.max(other)];
        let way = sum(between, pipes);
        Some([way, self.length(pipes) - way])
    }

    /// The loop run at one of its fittings, which starts with the lower-numbered of the two pipes
    /// there.
    pub fn opened_at(self, at: Fitting) -> Run {
        let turned = self.turned_to(at);
        let fittings = [&turned.fittings[..], &[at]].concat();
        let there = Run::of_path(turned.pipes, fittings);
        let back = there.clone().reversed();
        if there.pipes()[0] < back.pipes()[0] {
            there
        } else {
            back
        }
    }

    /// The pipes on the low and on the high side of a fitting: towards the lower and the higher tag,
    /// and at the lowest and the highest tag the pipe between these two.
    pub fn sides(&self, fitting: Fitting) -> Option<[PipeNumber; 2]> {
        let place = self.place_of(fitting)?;
        let below = (place + self.pipes.len() - 1) % self.pipes.len();
        Some([self.pipes[below], self.pipes[place]])
    }

    /// The same ring in one order, whichever it was in before.
    pub fn without_sides(self) -> Self {
        let lowest = self.lowest_fitting();
        Ring::of_loop(&self.opened_at(lowest))
    }

    /// The same ring, started at one of its fittings.
    fn turned_to(mut self, fitting: Fitting) -> Self {
        let place = self.place_of(fitting).expect("a fitting of this ring");
        self.pipes.rotate_left(place);
        self.fittings.rotate_left(place);
        self
    }

    fn place_of(&self, fitting: Fitting) -> Option<usize> {
        self.fittings.iter().position(|&f| f == fitting)
    }
}

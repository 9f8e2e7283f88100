//! A run as an ordered path (document 01, "Fittings, pipes, runs").

use crate::house::{Fitting, Millilitres, Millimetres, Pipe, PipeNumber};
use crate::ring::Ring;

/// A path of pipes from junction to junction: pipe `i` joins fittings `i` and `i + 1` of the path.
/// Where it has couplings, its first fitting is the low end and its last the high end.
#[must_use]
#[derive(Clone, Debug, PartialEq, Eq, PartialOrd, Ord)]
pub struct Run {
    pipes: Vec<PipeNumber>,
    fittings: Vec<Fitting>,
}

impl Run {
    pub fn of_one_pipe(pipe: PipeNumber, from: Fitting, to: Fitting) -> Self {
        Run {
            pipes: vec![pipe],
            fittings: vec![from, to],
        }
    }

    /// The fittings are one more than the pipes.
    pub fn of_path(pipes: Vec<PipeNumber>, fittings: Vec<Fitting>) -> Self {
        Run { pipes, fittings }
    }

    pub fn low(&self) -> Fitting {
        self.fittings[0]
    }

    pub fn high(&self) -> Fitting {
        self.fittings[self.fittings.len() - 1]
    }

    /// The fittings between the two ends, from low to high.
    pub fn couplings(&self) -> &[Fitting] {
        &self.fittings[1..self.fittings.len() - 1]
    }

    pub fn pipes(&self) -> &[PipeNumber] {
        &self.pipes
    }

    pub fn ends_at(&self, fitting: Fitting) -> bool {
        self.low() == fitting || self.high() == fitting
    }

    /// The lowest pipe number.
    pub fn name(&self) -> PipeNumber {
        let lowest = self.pipes.iter().min();
        *lowest.expect("a run has a pipe")
    }

    /// The sum of the pipes.
    pub fn length(&self, pipes: &[Pipe]) -> Millimetres {
        sum(&self.pipes, pipes)
    }

    /// The sum of the pipes, or 0 where one of them is unknown.
    pub fn volume(&self, pipes: &[Pipe]) -> Millilitres {
        volume(&self.pipes, pipes)
    }

    /// The lengths from a coupling of this run to its low and its high end.
    pub fn reach(&self, coupling: Fitting, pipes: &[Pipe]) -> Option<(Millimetres, Millimetres)> {
        let place = self.place_of(coupling)?;
        let (below, above) = self.pipes.split_at(place);
        Some((sum(below, pipes), sum(above, pipes)))
    }

    /// The pipes on the low and on the high side of a coupling of this run.
    pub fn sides(&self, coupling: Fitting) -> Option<[PipeNumber; 2]> {
        let place = self.place_of(coupling)?;
        Some([self.pipes[place - 1], self.pipes[place]])
    }

    /// The same path walked the other way.
    pub fn reversed(mut self) -> Self {
        self.pipes.reverse();
        self.fittings.reverse();
        self
    }

    /// The path turned, if need be, to lead to one of its ends.
    pub fn leading_to(self, end: Fitting) -> Self {
        if self.high() == end {
            self
        } else {
            self.reversed()
        }
    }

    /// The path turned, if need be, to lead away from one of its ends.
    pub fn leading_from(self, end: Fitting) -> Self {
        self.leading_to(end).reversed()
    }

    /// The path with one more pipe after its last fitting.
    pub fn lengthened(mut self, pipe: PipeNumber, to: Fitting) -> Self {
        self.pipes.push(pipe);
        self.fittings.push(to);
        self
    }

    /// This path, a pipe, and another path.
    pub fn joined(mut self, pipe: PipeNumber, onward: Run) -> Self {
        self.pipes.push(pipe);
        self.pipes.extend(onward.pipes);
        self.fittings.extend(onward.fittings);
        self
    }

    /// The pieces below and above a coupling of this run, both in the order of the run.
    pub fn split_at(mut self, coupling: Fitting) -> Option<(Run, Run)> {
        let place = self.place_of(coupling)?;
        let above = Run {
            pipes: self.pipes.split_off(place),
            fittings: self.fittings[place..].to_vec(),
        };
        self.fittings.truncate(place + 1);
        Some((self, above))
    }

    /// The same path in one of its two orders, whichever it was in before.
    pub fn without_sides(self) -> Self {
        let other = self.clone().reversed();
        self.min(other)
    }

    /// The number of pipes below a coupling.
    fn place_of(&self, coupling: Fitting) -> Option<usize> {
        let couplings = self.couplings();
        Some(couplings.iter().position(|&c| c == coupling)? + 1)
    }
}

pub fn sum(numbers: &[PipeNumber], pipes: &[Pipe]) -> Millimetres {
    numbers.iter().map(|&number| pipes[number].length).sum()
}

/// The volume of these pipes together; one that is unknown makes it so (document 02, S-4).
pub fn volume(numbers: &[PipeNumber], pipes: &[Pipe]) -> Millilitres {
    let volumes = numbers.iter().map(|&number| match pipes[number].volume {
        0 => None,
        volume => Some(volume),
    });
    volumes.sum::<Option<Millilitres>>().unwrap_or(0)
}

/// The runs and the rings by rising name, from the pipes alone. The order of each path, and where a
/// ring starts, mean nothing here.
pub fn afresh(fittings: usize, pipes: &[Pipe]) -> (Vec<Run>, Vec<Ring>) {
    let pipes_at = pipes_at(fittings, pipes);
    let mut walked = vec![false; pipes.len()];
    let (mut runs, mut rings) = (Vec::new(), Vec::new());
    for (number, pipe) in pipes.iter().enumerate() {
        if walked[number] {
            continue;
        }
        let back = Run::of_one_pipe(number, pipe.second, pipe.first);
        let there = walked_on(back, &pipes_at, pipes).reversed();
        let path = walked_on(there, &pipes_at, pipes);
        for &pipe in &path.pipes {
            walked[pipe] = true;
        }
        if pipes_at[path.high()].len() == 2 {
            rings.push(Ring::of_loop(&path));
        } else {
            runs.push(path);
        }
    }
    (runs, rings)
}

/// For each fitting, the numbers of the pipes that end there.
pub fn pipes_at(fittings: usize, pipes: &[Pipe]) -> Vec<Vec<PipeNumber>> {
    let mut pipes_at = vec![Vec::new(); fittings];
    for (number, pipe) in pipes.iter().enumerate() {
        pipes_at[pipe.first].push(number);
        pipes_at[pipe.second].push(number);
    }
    pipes_at
}

/// The path led on through couplings to the next junction, or until it is back where it starts.
fn walked_on(mut run: Run, pipes_at: &[Vec<PipeNumber>], pipes: &[Pipe]) -> Run {
    while let [one, other] = pipes_at[run.high()][..] {
        if run.high() == run.low() {
            break;
        }
        let came_by = run.pipes[run.pipes.len() - 1];
        let next = if one == came_by { other } else { one };
        let to = pipes[next].far_end(run.high());
        run = run.lengthened(next, to);
    }
    run
}

//! Which fittings are joined, and in which order, before numbers and lengths are given.

use super::random::Random;
use crate::house::{House, Pipe, MOST_FITTINGS, MOST_PIPES};

#[must_use]
#[derive(Clone, Debug, Default)]
pub struct Layout {
    pub fittings: usize,
    /// The pairs joined by a pipe, in order of landing.
    pub joins: Vec<(usize, usize)>,
}

impl Layout {
    pub fn of_fittings(fittings: usize) -> Self {
        Layout {
            fittings,
            joins: Vec::new(),
        }
    }

    pub fn join(&mut self, one: usize, other: usize) {
        self.joins.push((one, other));
    }

    /// One more fitting.
    pub fn fitting(&mut self) -> usize {
        self.fittings += 1;
        self.fittings - 1
    }

    /// One more fitting, joined to one that is there; gives the new one.
    pub fn onward(&mut self, from: usize) -> usize {
        let to = self.fitting();
        self.join(from, to);
        to
    }

    /// A line of new fittings, joined in order.
    pub fn line(&mut self, fittings: usize) -> Vec<usize> {
        let mut line = vec![self.fitting()];
        while line.len() < fittings {
            line.push(self.onward(line[line.len() - 1]));
        }
        line
    }

    /// A ring of at least two new fittings, joined in order and closed by its last pipe.
    pub fn ring(&mut self, fittings: usize) -> Vec<usize> {
        let ring = self.line(fittings);
        self.join(ring[fittings - 1], ring[0]);
        ring
    }

    pub fn shuffled(mut self, random: &mut Random) -> Self {
        random.shuffle(&mut self.joins);
        self
    }

    /// As it is, or shuffled.
    pub fn maybe_shuffled(self, random: &mut Random) -> Self {
        if random.one_in(2) {
            self.shuffled(random)
        } else {
            self
        }
    }

    /// Both layouts side by side, their pipes landed by turns drawn at random.
    pub fn beside(self, random: &mut Random, other: Layout) -> Self {
        let shift = self.fittings;
        let mut one = self.joins.into_iter().peekable();
        let mut two = other.joins.into_iter().peekable();
        let mut both = Layout::of_fittings(shift + other.fittings);
        while one.peek().is_some() || two.peek().is_some() {
            if random.one_in(2) {
                both.joins.extend(one.next());
            } else {
                both.joins
                    .extend(two.next().map(|(a, b)| (a + shift, b + shift)));
            }
        }
        both
    }

    /// The layout without what the register refuses.
    pub fn landable(mut self) -> Self {
        self.fittings = self.fittings.min(MOST_FITTINGS);
        let mut house = house_of(self.fittings);
        self.joins.retain(|&join| lands(&mut house, join));
        self
    }

    /// The layout without what is refused, and with more pipes until there are as many as the
    /// register takes. The fittings below `kept` get none of these.
    pub fn filled(self, random: &mut Random, kept: usize) -> Self {
        let mut layout = self.landable();
        let mut house = house_of(layout.fittings);
        for &join in &layout.joins {
            lands(&mut house, join);
        }
        while layout.joins.len() < MOST_PIPES {
            let (one, other) = random.pair_below(layout.fittings - kept);
            let join = (one + kept, other + kept);
            if lands(&mut house, join) {
                layout.joins.push(join);
            }
        }
        layout
    }
}

fn house_of(fittings: usize) -> House {
    let mut house = House::default();
    for _ in 0..fittings {
        house.land_fitting().expect("at most 4,096");
    }
    house
}

/// Lands a pipe of some length; whether it was accepted.
fn lands(house: &mut House, (first, second): (usize, usize)) -> bool {
    let length = 1;
    let pipe = Pipe {
        first,
        second,
        length,
        volume: 0,
    };
    house.land_pipe(pipe).is_ok()
}

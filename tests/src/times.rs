//! How often each tag is re-hung (document 02, S-12), counted from outside: by the tags before and
//! after each pipe.

use crate::gen::layout::Layout;
use crate::gen::records;
use crate::house::{Fitting, House, Tag};
use crate::list::{self, Record};
use crate::refusal::Refusal;

/// A house that is landed record by record, and how often the tag of each fitting was re-hung.
#[derive(Clone, Debug, Default, PartialEq, Eq)]
pub struct Watched {
    house: House,
    times: Vec<u32>,
}

impl Watched {
    /// The pipes of a layout, landed in its order, each with the first of its pair named first.
    pub fn of(layout: &Layout) -> Result<Self, Refusal> {
        let mut watched = Watched::default();
        for _ in 0..layout.fittings {
            watched.land(Record::Fitting)?;
        }
        for &(first, second) in &layout.joins {
            watched.land(records::pipe(first, second, 1))?;
        }
        Ok(watched)
    }

    pub fn land(&mut self, record: Record) -> Result<(), Refusal> {
        let before = self.house.tags().to_vec();
        list::land_record(&mut self.house, record)?;
        self.times.resize(self.house.fittings(), 0);
        for fitting in re_hung_fittings(&before, self.house.tags()) {
            self.times[fitting] += 1;
        }
        Ok(())
    }

    pub fn house(&self) -> &House {
        &self.house
    }

    /// How often the tag of each fitting was re-hung.
    pub fn times(&self) -> &[u32] {
        &self.times
    }

    /// How often the tag was re-hung that was re-hung most often.
    pub fn most(&self) -> u32 {
        self.times.iter().copied().max().unwrap_or(0)
    }

    /// Twice the whole part of the base-2 logarithm of the number of pipes; without pipes, 0.
    pub fn bound(&self) -> u32 {
        2 * self.single_logarithm()
    }

    /// Half of the bound, which is not promised.
    pub fn single_logarithm(&self) -> u32 {
        self.house.pipes().len().checked_ilog2().unwrap_or(0)
    }
}

fn re_hung_fittings(before: &[Tag], after: &[Tag]) -> Vec<Fitting> {
    let both_worn = |&fitting: &Fitting| before[fitting] != 0 && after[fitting] != 0;
    let changed = |&fitting: &Fitting| before[fitting] != after[fitting];
    (0..before.len())
        .filter(both_worn)
        .filter(changed)
        .collect()
}

#[cfg(test)]
mod tests {
    use super::*;
    use crate::gen::random::Random;
    use crate::gen::shapes;

    /// docs/THEORY.md: 24 pipes re-hang the tag of one fitting five times.
    #[test]
    fn a_fitting_beside_a_split() {
        let layout = shapes::returning(&mut Random::new(1), 24);
        let watched = Watched::of(&layout).expect("accepted");
        assert_eq!(watched.house().pipes().len(), 24);
        assert_eq!(watched.times()[1], 5);
        assert_eq!((watched.single_logarithm(), watched.bound()), (4, 8));
    }

    /// A tap is counted: three fittings in a ring, one of them tapped.
    #[test]
    fn a_tap_re_hangs_each_other_fitting_once() {
        let mut layout = Layout::default();
        let ring = layout.ring(3);
        layout.onward(ring[1]);
        let watched = Watched::of(&layout).expect("accepted");
        assert_eq!(watched.times(), [1, 0, 1, 0]);
    }
}

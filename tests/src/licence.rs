//! One licence for eight houses (document 02, S-10): which of them may land a pipe.

/// A nursery runs up to so many houses.
pub const HOUSES: usize = 8;
/// The pipes of all houses together.
pub const LICENSED_PIPES: usize = 4_096;

/// What a house may land by. The other houses stay as they are while it lands.
#[derive(Clone, Copy, Debug, PartialEq, Eq)]
pub enum Licence {
    /// One register alone: the calls from C, printing and judging.
    None,
    Of {
        house: usize,
        shares: [usize; HOUSES],
        /// Of each house; that of the own one is not looked at.
        pipes: [usize; HOUSES],
    },
}

impl Licence {
    pub fn none() -> Self {
        Licence::None
    }

    /// Whether the house, which has so many pipes, may land one more: "if it is below its share, or if
    /// the pipes of all houses plus the others' unused shares are below 4,096".
    pub fn allows(&self, own: usize) -> bool {
        let Licence::Of {
            house,
            shares,
            pipes,
        } = self
        else {
            return true;
        };
        if own < shares[*house] {
            return true;
        }
        let others = (0..HOUSES).filter(|other| other != house);
        let unused: usize = others
            .clone()
            .map(|other| shares[other].saturating_sub(pipes[other]))
            .sum();
        let of_others: usize = others.map(|other| pipes[other]).sum();
        own + of_others + unused < LICENSED_PIPES
    }
}

/// Whether "the larger of share and pipes, summed over them, passes 4,096".
pub fn overfull(shares: [usize; HOUSES], pipes: [usize; HOUSES]) -> bool {
    let larger = shares
        .iter()
        .zip(&pipes)
        .map(|(share, pipes)| share.max(pipes));
    larger.sum::<usize>() > LICENSED_PIPES
}

#[cfg(test)]
mod tests {
    use super::*;
    use crate::gen::random::Random;

    /// These in front, and 0 for the other houses.
    fn eight(front: &[usize]) -> [usize; HOUSES] {
        let mut all = [0; HOUSES];
        all[..front.len()].copy_from_slice(front);
        all
    }

    /// How many pipes a house comes to that goes on landing.
    fn last(house: usize, shares: &[usize], pipes: &[usize]) -> usize {
        let (shares, pipes) = (eight(shares), eight(pipes));
        let licence = Licence::Of {
            house,
            shares,
            pipes,
        };
        (pipes[house]..)
            .find(|&own| !licence.allows(own))
            .expect("a limit")
    }

    #[test]
    fn the_papers_limits() {
        // Share 90, the others hold 4,000, 50 of its own: up to the 96th.
        assert_eq!(last(0, &[90], &[50, 4_000]), 96);
        // No more than its share, and that in any case.
        assert_eq!(last(0, &[90], &[50, 4_006]), 90);
        // The others' unused shares are kept for them.
        assert_eq!(last(2, &[90, 4_000], &[50, 10, 6]), 6);
        assert_eq!(last(2, &[90, 4_000], &[50, 10, 3]), 6);
        // No shares: first come, first served.
        assert_eq!(last(2, &[], &[50, 10, 6]), 4_036);
        assert_eq!(last(7, &[0, 4_096], &[]), 0);
        assert_eq!(last(1, &[0, 4_096], &[]), 4_096);
    }

    #[test]
    fn the_sum_that_21_looks_at() {
        assert!(!overfull(eight(&[90, 4_006]), eight(&[50, 4_000])));
        assert!(overfull(eight(&[90, 4_007]), eight(&[50, 4_000])));
        assert!(overfull(eight(&[90]), eight(&[50, 4_007])));
        assert!(!overfull([512; HOUSES], [0; HOUSES]));
        assert!(overfull(
            [513, 512, 512, 512, 512, 512, 512, 512],
            [0; HOUSES]
        ));
    }

    /// From empty houses, with shares of at most 4,096: a house below its share is never turned away, and
    /// the sum never passes 4,096.
    #[test]
    fn shares_are_guaranteed_and_the_sum_stays() {
        for index in 0..60 {
            let random = &mut Random::of_list(1010, index);
            let mut shares = [0; HOUSES];
            let mut left = LICENSED_PIPES;
            for share in &mut shares {
                let bound = random.pick(&[1, 100, left + 1]);
                *share = random.below(bound.min(left + 1));
                left -= *share;
            }
            let mut pipes = [0; HOUSES];
            for _ in 0..400 {
                let house = random.below(HOUSES);
                let licence = Licence::Of {
                    house,
                    shares,
                    pipes,
                };
                for _ in 0..random.below(200) {
                    let allowed = licence.allows(pipes[house]);
                    assert!(allowed || pipes[house] >= shares[house]);
                    pipes[house] += usize::from(allowed);
                }
                assert!(!overfull(shares, pipes));
                if random.one_in(5) {
                    pipes[house] = random.below(pipes[house] + 1);
                }
            }
            assert!(pipes.iter().sum::<usize>() <= LICENSED_PIPES);
        }
    }
}

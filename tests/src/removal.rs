//! Taking a pipe out (document 02, S-11).

use crate::house::{House, Pipe, PipeNumber, Tag};
use crate::refusal::Refusal;

/// A fitting whose tag differs: its number, the old tag, the new tag, 0 for none.
pub type Change = [u32; 3];

/// The house without a pipe, and what is reported. 38 where there is no such pipe or no removal more can
/// be counted, then 9 where the report has not room in so many numbers.
pub fn remove(
    house: &House,
    removals: u32,
    pipe: PipeNumber,
    room: usize,
) -> Result<(House, Vec<Change>), Refusal> {
    if pipe >= house.pipes().len() || removals == u32::MAX {
        return Err(Refusal::NotRemovable);
    }
    let mut rest = house.pipes().to_vec();
    rest.remove(pipe);
    let left = landed(house.fittings(), &rest);
    let report = changes(house.tags(), left.tags());
    if room < 3 * report.len() {
        return Err(Refusal::TooShort);
    }
    Ok((left, report))
}

/// "what landing the remaining pipes in order from empty leaves"
fn landed(fittings: usize, pipes: &[Pipe]) -> House {
    let mut house = House::default();
    for _ in 0..fittings {
        house.land_fitting().expect("as many as there were");
    }
    for &pipe in pipes {
        house.land_pipe(pipe).expect("it was landed before");
    }
    house
}

fn changes(old: &[Tag], new: &[Tag]) -> Vec<Change> {
    let tags = (0..).zip(old.iter().zip(new));
    tags.filter(|(_, (old, new))| old != new)
        .map(|(fitting, (&old, &new))| [fitting, old, new])
        .collect()
}

#[cfg(test)]
mod tests {
    use super::*;
    use crate::gen::random::Random;
    use crate::gen::{self, records};
    use crate::list::{self, Record};
    use crate::queries;
    use crate::values::{listing, pipes};

    fn grown(list: &[u8]) -> House {
        let (house, result) = list::grow(list);
        assert_eq!(result, Ok(()));
        house
    }

    fn counts(house: &House) -> (usize, usize, u32, u32) {
        (
            house.fittings(),
            house.pipes().len(),
            house.births(),
            house.re_hung(),
        )
    }

    /// Document 01's house without the pipe that joined its runs: a fitting that ceases to be a coupling,
    /// one that becomes one, one with another tag.
    #[test]
    fn the_listing_without_pipe_4() {
        let house = grown(&listing());
        let (left, report) = remove(&house, 3, 4, 9).expect("a removal");
        assert_eq!(report, [[2, 8193, 0], [3, 0, 16383], [4, 8195, 16384]]);
        assert_eq!(counts(&left), (7, 5, 2, 0));
        let rows = [[0, 0, 2, 1, 3000, 0], [2, 5, 6, 2, 2100, 0]];
        assert_eq!(queries::sheet(&left), rows);
        for room in [0, 8] {
            assert_eq!(remove(&house, 3, 4, room), Err(Refusal::TooShort));
        }
    }

    #[test]
    fn later_pipes_move_down_and_so_do_births() {
        let (left, report) = remove(&grown(&listing()), 0, 1, 9).expect("a removal");
        assert_eq!(report, [[1, 8192, 0], [2, 8193, 0], [4, 8195, 8192]]);
        assert_eq!(counts(&left), (7, 5, 1, 0));
        assert_eq!(left.pipes()[1].length, 500);
    }

    #[test]
    fn no_such_pipe_or_too_many_removals() {
        let house = grown(&listing());
        for pipe in [6, 7, 4_096, 65_535] {
            assert_eq!(remove(&house, 0, pipe, 0), Err(Refusal::NotRemovable));
        }
        assert_eq!(remove(&house, u32::MAX, 4, 9), Err(Refusal::NotRemovable));
        assert!(remove(&house, u32::MAX - 1, 4, 9).is_ok());
        assert_eq!(
            remove(&House::default(), 0, 0, 9),
            Err(Refusal::NotRemovable)
        );
    }

    /// No tag differs: nothing is reported, into no slice.
    #[test]
    fn nothing_to_report() {
        let (left, report) = remove(&grown(&pipes(2, &[(0, 1, 5)])), 0, 0, 0).expect("a removal");
        assert_eq!((counts(&left), report), ((2, 0, 0, 0), vec![]));
    }

    /// The first run has its coupling again, and gives way at the joining.
    #[test]
    fn the_total_may_rise() {
        let joins = [(0, 1), (1, 2), (1, 7), (3, 4), (4, 5), (5, 6), (2, 3)];
        let house = grown(&pipes(8, &joins.map(|(a, b)| (a, b, 1))));
        let (left, _) = remove(&house, 0, 2, 24).expect("a removal");
        assert_eq!((house.re_hung(), left.re_hung()), (0, 1));
    }

    /// Without the ring's closing pipe its fittings are a run again; without another one a run is left that is
    /// landed in another order.
    #[test]
    fn out_of_a_ring() {
        let house = grown(&pipes(3, &[(0, 1, 1), (1, 2, 1), (2, 0, 1)]));
        assert_eq!(house.tags(), [8191, 8192, 8193]);
        let (left, report) = remove(&house, 0, 2, 6).expect("a removal");
        assert_eq!(left.tags(), [0, 8192, 0]);
        assert_eq!(report, [[0, 8191, 0], [2, 8193, 0]]);
        let (left, report) = remove(&house, 0, 0, 9).expect("a removal");
        assert_eq!(left.tags(), [0, 0, 8192]);
        assert_eq!(report, [[0, 8191, 0], [1, 8192, 0], [2, 8193, 8192]]);
    }

    /// Against growing a list of the rest, and the report against the tags.
    #[test]
    fn as_if_it_had_never_been_landed() {
        for index in 0..300 {
            let random = &mut Random::of_list(1111, index);
            let house = grown(&list::write(2, &gen::whole(random)));
            if house.pipes().is_empty() {
                continue;
            }
            let pipe = random.below(house.pipes().len());
            let mut rest = vec![Record::Fitting; house.fittings()];
            let pipes = house.pipes().iter().enumerate();
            rest.extend(
                pipes
                    .filter(|&(number, _)| number != pipe)
                    .map(|(_, pipe)| {
                        records::with_volume(pipe.first, pipe.second, pipe.length, pipe.volume)
                    }),
            );
            let (left, report) = remove(&house, 0, pipe, 12_288).expect("a removal");
            assert_eq!(left, grown(&list::write(2, &rest)));
            let mut tags = house.tags().to_vec();
            for [fitting, old, new] in report {
                let tag = &mut tags[fitting as usize];
                assert_eq!(*tag, old);
                assert_ne!(*tag, new);
                *tag = new;
            }
            assert_eq!(tags, left.tags());
        }
    }
}

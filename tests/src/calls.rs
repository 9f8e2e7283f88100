//! The calls from C (document 01, "What may be called", and document 02's quote).
//!
//! Each grows a list of its own and answers in little-endian 32-bit numbers. It returns the count
//! of answer bytes, or the refusal's number made negative: first that of the list, then the
//! question's own, and 9 last.

use crate::house::{Fitting, House, Pipe, Tag};
use crate::list;
use crate::queries::{self, Distances, Wearers};
use crate::quote;
use crate::refusal::Refusal;

/// The answer to a distance where there is no way.
pub const NOT_JOINED: u32 = u32::MAX;

/// The numbers that a call answers with, or the refusal that comes before 9.
pub type Answer = Result<Vec<u32>, Refusal>;

/// A list grown once, for any number of calls on it.
pub struct Grown {
    /// The register, or the refusal where the list stopped.
    house: Result<House, Refusal>,
    wearers: Wearers,
}

impl Grown {
    pub fn of(list: &[u8]) -> Self {
        let (house, result) = list::grow(list);
        let wearers = queries::wearers(&house);
        let house = result.map(|()| house).map_err(list::Stop::refusal);
        Grown { house, wearers }
    }

    pub fn house(&self) -> Result<&House, Refusal> {
        self.house.as_ref().map_err(|&refusal| refusal)
    }

    pub fn sheet(&self) -> Answer {
        Ok(queries::sheet(self.house()?).concat())
    }

    pub fn find(&self, tag: Tag) -> Answer {
        let found = queries::find_among(self.house()?, &self.wearers, tag)?;
        let [name, coupling] =
            [found.name, found.coupling].map(|n| u32::try_from(n).expect("below 4,096"));
        Ok(vec![name, coupling, found.low, found.high])
    }

    pub fn find_at(&self, fitting: u32) -> Answer {
        self.find(queries::tag_of(self.house()?, fitting_number(fitting)))
    }

    /// The answers to the distances from one fitting to these, in order.
    pub fn distances(&self, from: u32, to: &[u32]) -> Vec<Answer> {
        let house = self.house();
        let from = house.and_then(|house| Distances::from(house, fitting_number(from)));
        let answer = |&to: &u32| match &from {
            Ok(from) => Ok(vec![from.to(fitting_number(to))?.unwrap_or(NOT_JOINED)]),
            Err(refusal) => Err(*refusal),
        };
        to.iter().map(answer).collect()
    }

    /// A pipe's case and its re-hangings: two fittings, a length and a volume are asked.
    pub fn quote(&self, [first, second, length, volume]: [u32; 4]) -> Answer {
        let pipe = Pipe {
            first: fitting_number(first),
            second: fitting_number(second),
            length,
            volume,
        };
        let (case, re_hung) = quote::terms(self.house()?, pipe)?;
        Ok(vec![case, re_hung])
    }
}

fn fitting_number(number: u32) -> Fitting {
    usize::try_from(number).expect("an index has at least 32 bits")
}

/// What a call returns, and the bytes at the start of the answer slice; none of them under a refusal.
pub fn returned(answer: &Answer, slice: &mut [u8]) -> i32 {
    let count = match answer {
        Ok(numbers) => write_answer(numbers, slice),
        Err(refusal) => Err(*refusal),
    };
    match count {
        Ok(count) => i32::try_from(count).expect("at most 98,304"),
        Err(refusal) => -refusal.number(),
    }
}

/// Writes the numbers at the start of the answer slice, or nothing at all.
fn write_answer(numbers: &[u32], slice: &mut [u8]) -> Result<usize, Refusal> {
    let bytes: Vec<u8> = numbers.iter().flat_map(|n| n.to_le_bytes()).collect();
    let room = slice.get_mut(..bytes.len()).ok_or(Refusal::TooShort)?;
    room.copy_from_slice(&bytes);
    Ok(bytes.len())
}

#[cfg(test)]
mod tests {
    use super::*;
    use crate::values::{listing, pipes};

    const UNTOUCHED: u8 = 0xA5;

    /// What a call returns into a slice of this length, and the slice after it.
    fn answered(length: usize, answer: &Answer) -> (i32, Vec<u8>) {
        let mut slice = vec![UNTOUCHED; length];
        let value = returned(answer, &mut slice);
        (value, slice)
    }

    fn distance(grown: &Grown, from: u32, to: u32) -> Answer {
        grown.distances(from, &[to]).remove(0)
    }

    #[test]
    fn answers_are_little_endian_and_the_rest_is_untouched() {
        let grown = Grown::of(&listing());
        assert_eq!(
            answered(18, &grown.find(8195)),
            (
                16,
                vec![
                    2, 0, 0, 0, 4, 0, 0, 0, 0xF4, 0x01, 0, 0, 0xBC, 0x02, 0, 0, UNTOUCHED,
                    UNTOUCHED
                ]
            )
        );
        assert_eq!(
            answered(16, &grown.find_at(1)),
            (
                16,
                vec![0, 0, 0, 0, 1, 0, 0, 0, 0xE8, 0x03, 0, 0, 0xFC, 0x08, 0, 0]
            )
        );
        assert_eq!(
            answered(4, &distance(&grown, 0, 5)),
            (4, 4500_u32.to_le_bytes().to_vec())
        );
        let before = Grown::of(&pipes(
            7,
            &[(0, 1, 1000), (1, 2, 2000), (3, 4, 500), (4, 5, 700)],
        ));
        assert_eq!(
            answered(9, &before.quote([2, 3, 300, 0])),
            (8, vec![3, 0, 0, 0, 1, 0, 0, 0, UNTOUCHED])
        );
        let (value, slice) = answered(73, &grown.sheet());
        assert_eq!(value, 72);
        assert_eq!(slice[..4], [0, 0, 0, 0]);
        assert_eq!(slice[64..], [0x84, 0x03, 0, 0, 0, 0, 0, 0, UNTOUCHED]);
    }

    #[test]
    fn not_joined_is_the_greatest_number() {
        let grown = Grown::of(&pipes(4, &[(0, 1, 5), (2, 3, 5)]));
        assert_eq!(answered(4, &distance(&grown, 0, 3)), (4, vec![255; 4]));
    }

    #[test]
    fn refusals_come_in_order_and_write_nothing() {
        let grown = Grown::of(&listing());
        let stopped = Grown::of(&[listing(), vec![0]].concat());
        let refusals = [
            (stopped.find(8192), 4),
            (stopped.find_at(1), 4),
            (stopped.sheet(), 4),
            (distance(&stopped, 0, 99), 4),
            (grown.sheet(), 9),
            (grown.find(0), 8),
            (grown.find(8192), 9),
            (grown.find_at(7), 8),
            (grown.find_at(65_537), 8),
            (grown.find_at(3), 8),
            (grown.find_at(1), 9),
            (distance(&grown, 0, 7), 5),
            (distance(&grown, u32::MAX, 0), 5),
            (distance(&grown, 0, 0), 9),
            (stopped.quote([7, 7, 0, 1_000_001]), 4),
            (grown.quote([7, 7, 0, 1_000_001]), 5),
            (grown.quote([0, 65_537, 0, 1_000_001]), 5),
            (grown.quote([6, 6, 0, 1_000_001]), 6),
            (grown.quote([5, 6, 100_001, 1_000_001]), 7),
            (grown.quote([5, 6, 100_000, 1_000_001]), 31),
            (grown.quote([5, 6, 100_000, 1_000_000]), 9),
        ];
        for (answer, refusal) in refusals {
            assert_eq!(answered(3, &answer), (-refusal, vec![UNTOUCHED; 3]));
        }
    }

    #[test]
    fn an_empty_sheet_needs_no_room() {
        let grown = Grown::of(&list::header(1));
        assert_eq!(answered(0, &grown.sheet()), (0, vec![]));
    }
}

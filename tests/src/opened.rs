//! A sheet that is opened and then fetched line by line, with landings between (document 02, S-6),
//! and that a removal ends (S-11).

use crate::house::{House, Pipe};
use crate::queries::{self, Line};
use crate::refusal::Refusal;

/// What a caller keeps of an opened sheet: the counts at its opening, that of removals among them, and
/// the place of its next line.
#[derive(Clone, Copy, Debug, PartialEq, Eq)]
pub struct OpenSheet {
    pub fittings: u16,
    pub pipes: u16,
    pub place: u16,
    pub removals: u32,
}

#[derive(Clone, Copy, Debug, PartialEq, Eq)]
pub enum Fetched {
    Line(Line, OpenSheet),
    Done(OpenSheet),
}

/// The sheet of a house from which pipes were taken out so often.
pub fn open(house: &House, removals: u32) -> OpenSheet {
    let [fittings, pipes] = [house.fittings(), house.pipes().len()];
    let counts = [fittings, pipes].map(|count| u16::try_from(count).expect("at most 4,096"));
    OpenSheet {
        fittings: counts[0],
        pipes: counts[1],
        place: 0,
        removals,
    }
}

/// The line at the sheet's place, of the runs and rings that the pipes of its opening make by themselves:
/// 39 where pipes were taken out since, or a grow came between; then 33.
pub fn fetch(house: &House, removals: u32, sheet: OpenSheet) -> Result<Fetched, Refusal> {
    if sheet.removals != removals {
        return Err(Refusal::Ended);
    }
    let lines = lines(house, sheet)?;
    let next = |place| OpenSheet { place, ..sheet };
    let line = lines.get(usize::from(sheet.place));
    Ok(line.map_or(Fetched::Done(sheet), |&line| {
        Fetched::Line(line, next(sheet.place + 1))
    }))
}

/// All lines of an opened sheet that is not ended.
pub fn lines(house: &House, sheet: OpenSheet) -> Result<Vec<Line>, Refusal> {
    let [fittings, pipes] = [sheet.fittings, sheet.pipes].map(usize::from);
    if fittings > house.fittings() || pipes > house.pipes().len() {
        return Err(Refusal::Beyond);
    }
    let first = &house.pipes()[..pipes];
    let beyond = |pipe: &Pipe| pipe.first.max(pipe.second) >= fittings;
    if first.iter().any(beyond) {
        return Err(Refusal::Beyond);
    }
    Ok(queries::sheet_of(fittings, first))
}

#[cfg(test)]
mod tests {
    use super::*;
    use crate::gen::random::Random;
    use crate::gen::{self, records};
    use crate::list::{self, Record};

    fn of(fittings: u16, pipes: u16, place: u16) -> OpenSheet {
        OpenSheet {
            fittings,
            pipes,
            place,
            removals: 0,
        }
    }

    fn grown(fittings: usize, pipes: &[(usize, usize, u32)]) -> House {
        let mut records = vec![Record::Fitting; fittings];
        let pipes = pipes.iter();
        records.extend(pipes.map(|&(first, second, length)| records::pipe(first, second, length)));
        let (house, result) = list::grow(&list::write(1, &records));
        assert_eq!(result, Ok(()));
        house
    }

    /// The house of document 01, opened at four pipes and fetched when six are landed.
    #[test]
    fn landings_between_do_not_show() {
        let pipes = [
            (0, 1, 1000),
            (1, 2, 2000),
            (3, 4, 500),
            (4, 5, 700),
            (2, 3, 300),
            (3, 6, 900),
        ];
        let opened = open(&grown(7, &pipes[..4]), 0);
        assert_eq!(opened, of(7, 4, 0));
        let house = grown(7, &pipes);
        let lines = [[0, 0, 2, 1, 3000, 0], [2, 3, 5, 1, 1200, 0]];
        for (line, place) in lines.into_iter().zip(0..) {
            let next = Fetched::Line(line, of(7, 4, place + 1));
            assert_eq!(fetch(&house, 0, of(7, 4, place)), Ok(next));
        }
        for place in [2, 3, u16::MAX] {
            let done = of(7, 4, place);
            assert_eq!(fetch(&house, 0, done), Ok(Fetched::Done(done)));
        }
        for beyond in [of(8, 6, 0), of(7, 7, 0), of(5, 4, 0), of(5, 4, 2)] {
            assert_eq!(fetch(&house, 0, beyond), Err(Refusal::Beyond));
        }
        assert_eq!(lines.len(), fetched(&house, of(6, 4, 0)).len());
    }

    /// Where the counts of removals differ, 39 comes before 33 and before "done"; where they are equal
    /// again, the sheet goes on.
    #[test]
    fn another_count_of_removals_ends_it() {
        let house = grown(3, &[(0, 1, 5), (1, 2, 6)]);
        let opened = open(&house, 3);
        assert_eq!(
            opened,
            OpenSheet {
                removals: 3,
                ..of(3, 2, 0)
            }
        );
        for sheet in [
            opened,
            OpenSheet { place: 9, ..opened },
            OpenSheet { pipes: 9, ..opened },
        ] {
            for now in [0, 2, 4, u32::MAX] {
                assert_eq!(fetch(&house, now, sheet), Err(Refusal::Ended));
            }
        }
        let next = OpenSheet { place: 1, ..opened };
        let line = Fetched::Line([0, 0, 2, 1, 11, 0], next);
        assert_eq!(fetch(&house, 3, opened), Ok(line));
        assert_eq!(
            fetch(&house, 3, OpenSheet { pipes: 9, ..opened }),
            Err(Refusal::Beyond)
        );
    }

    /// Fetched until it is done.
    fn fetched(house: &House, mut sheet: OpenSheet) -> Vec<Line> {
        let mut lines = Vec::new();
        while let Ok(Fetched::Line(line, next)) = fetch(house, 0, sheet) {
            lines.push(line);
            sheet = next;
        }
        assert_eq!(fetch(house, 0, sheet), Ok(Fetched::Done(sheet)));
        lines
    }

    /// Whatever is landed later, an opened sheet has the lines that it had.
    #[test]
    fn opened_sheets_stand() {
        for index in 0..200 {
            let random = &mut Random::of_list(606, index);
            let mut house = House::default();
            let mut sheets = Vec::new();
            for record in gen::whole(random) {
                if random.one_in(4) {
                    sheets.push((open(&house, 0), queries::sheet(&house)));
                }
                assert_eq!(list::land_record(&mut house, record), Ok(()));
            }
            for (sheet, lines) in sheets {
                assert_eq!(fetched(&house, sheet), lines);
            }
        }
    }
}

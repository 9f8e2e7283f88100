//! The list of records (document 01, "The list"): read with its refusals in order, and written.

pub use pnltext::records::{
    header, pipe_body, record_bytes, write, Record, FITTING_KIND, MARK, PIPE_KIND,
};

use crate::house::{House, Pipe};
use crate::licence::Licence;
use crate::refusal::Refusal;

/// Without volumes, and with them (document 02, S-4).
pub const VERSIONS: [u16; 2] = [1, 2];
/// The version of the list that is written of a register.
pub const WRITTEN: u16 = 2;

/// Where a list stopped, and why.
#[derive(Clone, Copy, Debug, PartialEq, Eq)]
pub enum Stop {
    Header(Refusal),
    /// The record's number, from 0.
    Record(usize, Refusal),
}

impl Stop {
    /// The record that is named; a refusal of the header names record 0.
    pub fn record(self) -> usize {
        match self {
            Stop::Header(_) => 0,
            Stop::Record(record, _) => record,
        }
    }

    pub fn refusal(self) -> Refusal {
        match self {
            Stop::Header(refusal) | Stop::Record(_, refusal) => refusal,
        }
    }
}

/// Grows a list from an empty register.
pub fn grow(list: &[u8]) -> (House, Result<(), Stop>) {
    let mut house = House::default();
    let result = land(&mut house, list);
    (house, result)
}

/// Lands a list on a register without a licence.
pub fn land(house: &mut House, list: &[u8]) -> Result<(), Stop> {
    land_on(&Licence::none(), house, list)
}

/// Lands a list on a register. The records before a stop stand, and nothing after it is read.
pub fn land_on(licence: &Licence, house: &mut House, list: &[u8]) -> Result<(), Stop> {
    let (version, mut rest) = read_header(list).map_err(Stop::Header)?;
    let mut number = 0;
    while !rest.is_empty() {
        rest = land_next(licence, house, version, rest)
            .map_err(|refusal| Stop::Record(number, refusal))?;
        number += 1;
    }
    Ok(())
}

/// Refusals 1, 3 and 2, in this order; gives the version and the bytes after the header.
fn read_header(list: &[u8]) -> Result<(u16, &[u8]), Refusal> {
    let rest = list.strip_prefix(MARK).ok_or(Refusal::NoMark)?;
    let (version, rest) = rest.split_first_chunk().ok_or(Refusal::Cut)?;
    let version = u16::from_le_bytes(*version);
    if !VERSIONS.contains(&version) {
        return Err(Refusal::Version);
    }
    Ok((version, rest))
}

/// Reads and lands one record; gives the bytes after it.
fn land_next<'a>(
    licence: &Licence,
    house: &mut House,
    version: u16,
    bytes: &'a [u8],
) -> Result<&'a [u8], Refusal> {
    let (record, rest) = read_record(version, bytes)?;
    land_record_on(licence, house, record)?;
    Ok(rest)
}

/// Refusals 4 and 3, in this order.
fn read_record(version: u16, bytes: &[u8]) -> Result<(Record, &[u8]), Refusal> {
    let (kind, rest) = bytes.split_first().ok_or(Refusal::Cut)?;
    match *kind {
        FITTING_KIND => Ok((Record::Fitting, rest)),
        PIPE_KIND => {
            let body = rest.split_at_checked(pipe_body(version));
            let (body, rest) = body.ok_or(Refusal::Cut)?;
            Ok((pipe_record(body), rest))
        }
        _ => Err(Refusal::UnknownKind),
    }
}

/// Where no volume follows the length, it is unknown.
fn pipe_record(body: &[u8]) -> Record {
    let (fittings, amounts) = body.split_at(4);
    let number = |place: usize| {
        let bytes = amounts.chunks_exact(4).nth(place)?;
        Some(u32::from_le_bytes([bytes[0], bytes[1], bytes[2], bytes[3]]))
    };
    Record::Pipe {
        first: u16::from_le_bytes([fittings[0], fittings[1]]),
        second: u16::from_le_bytes([fittings[2], fittings[3]]),
        length: number(0).expect("a length in both versions"),
        volume: number(1).unwrap_or(0),
    }
}

/// Lands a record without a licence.
pub fn land_record(house: &mut House, record: Record) -> Result<(), Refusal> {
    land_record_on(&Licence::none(), house, record)
}

/// Refusal 22 for a fitting, or 5, 6, 7, 31, 23 and 36 for a pipe.
pub fn land_record_on(licence: &Licence, house: &mut House, record: Record) -> Result<(), Refusal> {
    match record {
        Record::Fitting => house.land_fitting(),
        Record::Pipe {
            first,
            second,
            length,
            volume,
        } => {
            let pipe = Pipe {
                first: first.into(),
                second: second.into(),
                length,
                volume,
            };
            house.land_pipe_on(licence, pipe)
        }
    }
}

/// The list of a register: all fittings, then the pipes by number (document 02, S-1 and S-4).
pub fn written(house: &House) -> Vec<u8> {
    let mut records = vec![Record::Fitting; house.fittings()];
    records.extend(house.pipes().iter().map(|pipe| Record::Pipe {
        first: u16::try_from(pipe.first).expect("below 4,096"),
        second: u16::try_from(pipe.second).expect("below 4,096"),
        length: pipe.length,
        volume: pipe.volume,
    }));
    write(WRITTEN, &records)
}

#[cfg(test)]
mod tests {
    use super::*;
    use crate::gen;

    fn stop_of(list: &[u8]) -> Result<(), Stop> {
        grow(list).1
    }

    #[test]
    fn header_is_refused_in_order() {
        let refusals = [
            (&b""[..], Refusal::NoMark),
            (b"PN", Refusal::NoMark),
            (b"PNM\x02\x00", Refusal::NoMark),
            (b"pnl\x01\x00", Refusal::NoMark),
            (b"PNL", Refusal::Cut),
            (b"PNL\x02", Refusal::Cut),
            (b"PNL\x00\x00", Refusal::Version),
            (b"PNL\x00\x01", Refusal::Version),
            (b"PNL\x01\x01F", Refusal::Version),
            (b"PNL\x02\x01F", Refusal::Version),
            (b"PNL\x03\x00F", Refusal::Version),
        ];
        for (list, refusal) in refusals {
            assert_eq!(stop_of(list), Err(Stop::Header(refusal)), "{list:?}");
        }
        assert_eq!(stop_of(b"PNL\x01\x00"), Ok(()));
        assert_eq!(stop_of(b"PNL\x02\x00"), Ok(()));
    }

    #[test]
    fn records_are_refused_in_order() {
        let refusals = [
            (&b"\x00"[..], 2, Refusal::UnknownKind),
            (b"FG", 3, Refusal::UnknownKind),
            (b"P", 2, Refusal::Cut),
            // Cut comes before a fitting that is not landed.
            (b"P\xff\xff\xff\xff\x00\x00\x00", 2, Refusal::Cut),
            // Not landed before the same twice, that before the length.
            (b"P\x02\x00\x02\x00\x00\x00\x00\x00", 2, Refusal::NotLanded),
            (b"P\x00\x00\x02\x00\x01\x00\x00\x00", 2, Refusal::NotLanded),
            (
                b"P\x01\x00\x01\x00\x00\x00\x00\x00",
                2,
                Refusal::SameFitting,
            ),
            (b"P\x00\x00\x01\x00\x00\x00\x00\x00", 2, Refusal::Length),
        ];
        for (tail, record, refusal) in refusals {
            let list = [b"PNL\x01\x00FF", tail].concat();
            assert_eq!(
                stop_of(&list),
                Err(Stop::Record(record, refusal)),
                "{tail:?}"
            );
        }
    }

    #[test]
    fn records_of_version_2_are_refused_in_order() {
        let refusals = [
            // A record of version 1 is cut, and so is one without its last byte.
            (&b"P\x00\x00\x01\x00\x01\x00\x00\x00"[..], Refusal::Cut),
            (
                b"P\x00\x00\x02\x00\x00\x00\x00\x00\xff\xff\xff",
                Refusal::Cut,
            ),
            // The length comes before the volume.
            (
                b"P\x00\x00\x01\x00\x00\x00\x00\x00\x41\x42\x0f\x00",
                Refusal::Length,
            ),
            (
                b"P\x00\x00\x01\x00\x01\x00\x00\x00\x41\x42\x0f\x00",
                Refusal::Volume,
            ),
        ];
        for (tail, refusal) in refusals {
            let list = [b"PNL\x02\x00FF", tail].concat();
            assert_eq!(stop_of(&list), Err(Stop::Record(2, refusal)), "{tail:?}");
        }
        let largest = b"PNL\x02\x00FFP\x00\x00\x01\x00\x01\x00\x00\x00\x40\x42\x0f\x00";
        let (house, result) = grow(largest);
        assert_eq!((house.pipes()[0].volume, result), (1_000_000, Ok(())));
    }

    #[test]
    fn an_unknown_volume_is_that_of_version_1() {
        let old = b"PNL\x01\x00FFP\x00\x00\x01\x00\x01\x00\x00\x00";
        let new = b"PNL\x02\x00FFP\x00\x00\x01\x00\x01\x00\x00\x00\x00\x00\x00\x00";
        assert_eq!(grow(old), grow(new));
        assert_eq!(written(&grow(old).0), new);
    }

    #[test]
    fn growing_from_the_written_list_leaves_the_same_register() {
        for index in 0..300 {
            let house = grow(&gen::list(606, index)).0;
            assert_eq!(grow(&written(&house)), (house, Ok(())));
        }
    }

    #[test]
    fn what_is_written_is_read() {
        let records = [
            Record::Fitting,
            Record::Fitting,
            Record::Pipe {
                first: 1,
                second: 0,
                length: 0x0001_0203,
                volume: 0x000A_0B0C,
            },
        ];
        let old = b"PNL\x01\x00FFP\x01\x00\x00\x00\x03\x02\x01\x00";
        let new = b"PNL\x02\x00FFP\x01\x00\x00\x00\x03\x02\x01\x00\x0c\x0b\x0a\x00";
        for (version, bytes, volume) in [(1, &old[..], 0), (2, new, 658_188)] {
            let list = write(version, &records);
            assert_eq!(list, bytes);
            let (house, result) = grow(&list);
            assert_eq!(result, Ok(()));
            assert_eq!(
                house.pipes(),
                [Pipe {
                    first: 1,
                    second: 0,
                    length: 66_051,
                    volume
                }]
            );
        }
    }
}

//! The records of a list (document 01, "The list"), and how they are written.

pub const MARK: &[u8; 3] = b"PNL";
pub const FITTING_KIND: u8 = 0x46;
pub const PIPE_KIND: u8 = 0x50;

/// The bytes of a pipe record after its kind.
pub fn pipe_body(version: u16) -> usize {
    if version == 1 {
        8
    } else {
        12
    }
}

/// A record as it stands in a list; its numbers need not be good ones.
#[derive(Clone, Copy, Debug, PartialEq, Eq)]
pub enum Record {
    Fitting,
    Pipe {
        first: u16,
        second: u16,
        length: u32,
        /// Not written to a list of version 1, and read from it as 0.
        volume: u32,
    },
}

/// The header of a good list.
pub fn header(version: u16) -> Vec<u8> {
    [&MARK[..], &version.to_le_bytes()].concat()
}

/// A list of these records; in version 1, without their volumes.
pub fn write(version: u16, records: &[Record]) -> Vec<u8> {
    let mut list = header(version);
    list.extend(
        records
            .iter()
            .flat_map(|record| record_bytes(version, record)),
    );
    list
}

pub fn record_bytes(version: u16, record: &Record) -> Vec<u8> {
    match record {
        Record::Fitting => vec![FITTING_KIND],
        Record::Pipe {
            first,
            second,
            length,
            volume,
        } => {
            let mut bytes = vec![PIPE_KIND];
            bytes.extend(first.to_le_bytes());
            bytes.extend(second.to_le_bytes());
            bytes.extend(length.to_le_bytes());
            bytes.extend(volume.to_le_bytes());
            bytes.truncate(1 + pipe_body(version));
            bytes
        }
    }
}

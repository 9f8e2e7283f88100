//! The verdict on a contractor's sheet (document 02, S-9), by lines.

use std::fmt;

use crate::gen::random::Random;
use crate::print::Outcome;

/// No sheet that is printed has so many bytes.
const LONGER_THAN_ANY: usize = 300_000;

#[derive(Clone, Copy, Debug, PartialEq, Eq)]
pub enum Verdict {
    Agrees,
    /// From 1.
    WrongLine(usize),
    /// The list's own record and refusal.
    Stopped(usize, i32),
    TooLong,
}

impl Verdict {
    pub fn of(list: &[u8], sheet: &[u8]) -> Self {
        let outcome = Outcome::of(list);
        match &outcome {
            Outcome::TooLong => Verdict::TooLong,
            Outcome::Grown(_, Err(stop)) => {
                Verdict::Stopped(stop.record(), stop.refusal().number())
            }
            Outcome::Grown(_, Ok(())) => compared(outcome.to_string().as_bytes(), sheet),
        }
    }
}

impl fmt::Display for Verdict {
    fn fmt(&self, f: &mut fmt::Formatter) -> fmt::Result {
        match self {
            Verdict::Agrees => write!(f, "agrees"),
            Verdict::WrongLine(line) => write!(f, "line {line}"),
            Verdict::Stopped(record, refusal) => write!(f, "stopped {record} {refusal}"),
            Verdict::TooLong => write!(f, "too long"),
        }
    }
}

fn compared(right: &[u8], sheet: &[u8]) -> Verdict {
    let mut found = sheet.split_inclusive(|byte| *byte == b'\n');
    let mut number = 0;
    for expected in right.split_inclusive(|byte| *byte == b'\n') {
        number += 1;
        if found.next() != Some(expected) {
            return Verdict::WrongLine(number);
        }
    }
    match found.next() {
        Some(_) => Verdict::WrongLine(number + 1),
        None => Verdict::Agrees,
    }
}

/// The right sheet with one byte changed, dropped or added, at each place.
pub fn one_byte_off(right: &[u8]) -> Vec<Vec<u8>> {
    let mut sheets = Vec::new();
    let mut with = |change: &dyn Fn(&mut Vec<u8>)| {
        let mut sheet = right.to_vec();
        change(&mut sheet);
        sheets.push(sheet);
    };
    for at in 0..right.len() {
        with(&|sheet| sheet[at] ^= 1);
        with(&|sheet| {
            sheet.remove(at);
        });
    }
    for at in 0..=right.len() {
        with(&|sheet| sheet.insert(at, b'\n'));
        with(&|sheet| sheet.insert(at, b'0'));
    }
    sheets
}

/// Sheets made from the right one: itself, none, cut and longer ones, one byte off somewhere, and
/// lines swapped, dropped or added.
pub fn sheets(random: &mut Random, right: &[u8]) -> Vec<Vec<u8>> {
    let mut sheets = vec![right.to_vec(), Vec::new()];
    let mut with = |change: &dyn Fn(&mut Vec<u8>)| {
        let mut sheet = right.to_vec();
        change(&mut sheet);
        sheets.push(sheet);
    };
    let size = right.len();
    with(&|sheet| sheet.truncate(size - 1));
    with(&|sheet| sheet.push(b'\n'));
    with(&|sheet| sheet.push(b' '));
    with(&|sheet| sheet.extend_from_slice(right));
    with(&|sheet| sheet.resize(LONGER_THAN_ANY, b'x'));
    with(&|sheet| sheet.resize(LONGER_THAN_ANY, b'\n'));
    for byte in [b'\n', b'\r', b' ', b'0', b'9', 0, 255] {
        let (at, to) = (random.below(size), random.below(size + 1));
        with(&|sheet| sheet[at] = byte);
        with(&|sheet| sheet.insert(to, byte));
        with(&|sheet| {
            sheet.remove(at);
        });
        with(&|sheet| sheet.truncate(at));
    }
    let lines: Vec<&[u8]> = right.split_inclusive(|byte| *byte == b'\n').collect();
    let (first, second) = (random.below(lines.len()), random.below(lines.len()));
    let mut swapped = lines.clone();
    swapped.swap(first, second);
    sheets.push(swapped.concat());
    let mut fewer = lines.clone();
    fewer.remove(first);
    sheets.push(fewer.concat());
    let mut more = lines;
    more.insert(first, more[second]);
    sheets.push(more.concat());
    sheets
}

#[cfg(test)]
mod tests {
    use super::*;

    const RIGHT: &[u8] = b"2 1 1 0\n0 0 1 0 5 -\n";

    #[test]
    fn the_first_wrong_line() {
        assert_eq!(compared(RIGHT, RIGHT), Verdict::Agrees);
        for (sheet, line) in [
            (&b""[..], 1),
            (b"2 1 1 0", 1),
            (b"2 1 1 0\r\n0 0 1 0 5 -\n", 1),
            (b"0 0 1 0 5 -\n2 1 1 0\n", 1),
            (b"2 1 1 0\n", 2),
            (b"2 1 1 0\n0 0 1 0 5\n", 2),
            (b"2 1 1 0\n0 0 1 0 5 0\n", 2),
            (b"2 1 1 0\n0 0 1 0 5 -", 2),
            (b"2 1 1 0\n\n0 0 1 0 5 -\n", 2),
            (b"2 1 1 0\n0 0 1 0 5 -\n\n", 3),
            (b"2 1 1 0\n0 0 1 0 5 -\n ", 3),
        ] {
            assert_eq!(compared(RIGHT, sheet), Verdict::WrongLine(line));
        }
    }

    #[test]
    fn one_byte_off_is_wrong_where_it_is() {
        let sheets = one_byte_off(RIGHT);
        assert_eq!(sheets.len(), 4 * RIGHT.len() + 2);
        for sheet in sheets {
            let alike = RIGHT.iter().zip(&sheet).take_while(|(a, b)| a == b);
            let ends = alike.filter(|(byte, _)| **byte == b'\n').count();
            assert_eq!(compared(RIGHT, &sheet), Verdict::WrongLine(1 + ends));
        }
    }

    #[test]
    fn a_refused_list_is_told() {
        assert_eq!(Verdict::of(b"PNL", RIGHT), Verdict::Stopped(0, 3));
    }
}

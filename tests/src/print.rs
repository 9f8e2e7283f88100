//! The printing program (document 01, "The printing program").

use std::fmt;

use crate::house::House;
use crate::list::{self, Stop};
use crate::queries;

/// A longer input is not read as a list.
pub const MOST_BYTES: usize = 65_536;

/// What becomes of an input. Displayed, it is what the printing program prints.
pub enum Outcome {
    TooLong,
    /// The register, and where its list stopped.
    Grown(House, Result<(), Stop>),
}

impl Outcome {
    pub fn of(input: &[u8]) -> Self {
        if input.len() > MOST_BYTES {
            return Outcome::TooLong;
        }
        let (house, result) = list::grow(input);
        Outcome::Grown(house, result)
    }
}

impl fmt::Display for Outcome {
    fn fmt(&self, f: &mut fmt::Formatter) -> fmt::Result {
        match self {
            Outcome::TooLong => writeln!(f, "too long"),
            Outcome::Grown(house, result) => {
                print_house(house, f)?;
                result.map_or_else(|stop| print_stop(stop, f), |()| Ok(()))
            }
        }
    }
}

fn print_house(house: &House, f: &mut fmt::Formatter) -> fmt::Result {
    let sheet = queries::sheet(house);
    let (fittings, pipes) = (house.fittings(), house.pipes().len());
    writeln!(f, "{fittings} {pipes} {} {}", sheet.len(), house.re_hung())?;
    for [name, lower, other, couplings, length, volume] in sheet {
        write!(f, "{name} {lower} {other} {couplings} {length} ")?;
        match volume {
            0 => writeln!(f, "-")?,
            _ => writeln!(f, "{volume}")?,
        }
    }
    Ok(())
}

fn print_stop(stop: Stop, f: &mut fmt::Formatter) -> fmt::Result {
    writeln!(f, "stopped {} {}", stop.record(), stop.refusal().number())
}

#[cfg(test)]
mod tests {
    use super::*;

    fn printed(input: &[u8]) -> String {
        Outcome::of(input).to_string()
    }

    #[test]
    fn a_refused_header_names_record_0() {
        assert_eq!(printed(b""), "0 0 0 0\nstopped 0 1\n");
        assert_eq!(printed(b"PNL\x07\x00F"), "0 0 0 0\nstopped 0 2\n");
        assert_eq!(printed(b"PNL\x07"), "0 0 0 0\nstopped 0 3\n");
    }

    #[test]
    fn more_than_65_536_bytes_are_too_long() {
        let mut input = list::header(1);
        input.resize(MOST_BYTES, list::FITTING_KIND);
        assert_eq!(printed(&input), "4096 0 0 0\nstopped 4096 22\n");
        input.push(list::FITTING_KIND);
        assert_eq!(printed(&input), "too long\n");
        assert_eq!(printed(&vec![0; MOST_BYTES + 1]), "too long\n");
        assert_eq!(printed(&vec![0; MOST_BYTES]), "0 0 0 0\nstopped 0 1\n");
    }
}

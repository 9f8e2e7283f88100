//! A house as text: one record a line, each problem told with its line in a grower's words.

use std::str::FromStr;

use crate::records::{Record, MARK};

const LINES: &str = "a line is `fittings N`, `fitting`, `pipe A B LENGTH` or `pipe A B LENGTH VOLUME`; `#` starts a comment";
const BYTE_ORDER_MARK: &[u8] = b"\xEF\xBB\xBF";

/// Where in a text something is wrong, and what.
#[derive(Debug, PartialEq, Eq)]
pub struct Problem {
    pub line: usize,
    pub words: String,
}

/// A record and the line that it is from, counted from 1.
pub type Placed = (Record, usize);

/// The records of a text with their lines. A byte order mark in front says that it is UTF-8, and is no part of it.
pub fn read(bytes: &[u8]) -> Result<Vec<Placed>, Problem> {
    check_kind(bytes).map_err(|words| Problem { line: 1, words })?;
    let mut records = Vec::new();
    for (number, line) in (1..).zip(lines(bytes)) {
        let of_line = read_line(line).map_err(|words| Problem {
            line: number,
            words,
        })?;
        records.extend(of_line.into_iter().map(|record| (record, number)));
    }
    Ok(records)
}

/// The line of a text, counted from 1, as far as it can be shown.
pub fn shown(bytes: &[u8], line: usize) -> String {
    let found = lines(bytes).nth(line.saturating_sub(1));
    let text = String::from_utf8_lossy(found.unwrap_or_default());
    let plain = |letter: char| if letter.is_control() { ' ' } else { letter };
    text.trim().chars().map(plain).take(60).collect()
}

fn lines(bytes: &[u8]) -> impl Iterator<Item = &[u8]> {
    let text = bytes.strip_prefix(BYTE_ORDER_MARK).unwrap_or(bytes);
    text.split(|&byte| byte == b'\n')
}

/// Files that are no text of this kind at all. A closed standard input reads as empty, too.
fn check_kind(bytes: &[u8]) -> Result<(), String> {
    if bytes.is_empty() {
        return Err("the text is empty".to_string());
    }
    if bytes.starts_with(b"\xFF\xFE") || bytes.starts_with(b"\xFE\xFF") {
        return Err("the text is saved as UTF-16 (\"Unicode\"): save it as UTF-8".to_string());
    }
    if bytes.starts_with(MARK) {
        return Err("this is a list and no text: give it a name that ends in .pnl".to_string());
    }
    Ok(())
}

/// The records of one line; a comment or an empty line has none.
fn read_line(line: &[u8]) -> Result<Vec<Record>, String> {
    let line = std::str::from_utf8(line).map_err(|error| {
        let byte = line[error.valid_up_to()];
        format!("a letter that is not UTF-8 (byte {byte:#04X}): save the text as UTF-8")
    })?;
    // A lone one would hide, behind a comment, what an editor shows as lines of their own.
    if line.strip_suffix('\r').unwrap_or(line).contains('\r') {
        return Err(
            "a carriage return within the line: save the text with usual line ends".to_string(),
        );
    }
    let before_comment = line.split('#').next().unwrap_or_default();
    let words: Vec<&str> = before_comment.split_whitespace().collect();
    let Some((&kind, numbers)) = words.split_first() else {
        return Ok(vec![]);
    };
    match (kind, numbers) {
        ("fitting", []) => Ok(vec![Record::Fitting]),
        ("fitting", _) => Err("`fitting` stands alone; for several write `fittings N`".to_string()),
        ("fittings", [count]) => {
            let count: u16 = number("the count of fittings", 65_535, count)?;
            Ok(vec![Record::Fitting; count.into()])
        }
        ("fittings", _) => Err("behind `fittings` stands one number, how many".to_string()),
        ("pipe", numbers) => Ok(vec![read_pipe(numbers)?]),
        _ => Err(unknown(kind)),
    }
}

/// Two fittings, a length, and a volume if it is known.
fn read_pipe(numbers: &[&str]) -> Result<Record, String> {
    let (first, second, length, volume) = match *numbers {
        [first, second, length] => (first, second, length, "0"),
        [_, _, _, unit, ..] if !unit.starts_with(|letter: char| letter.is_ascii_digit()) => {
            return Err(format!(
                "`{unit}` behind the length: a length is in millimetres, without a unit"
            ));
        }
        [first, second, length, volume] => (first, second, length, volume),
        [_, _, _, _, unit, ..] => {
            return Err(format!(
                "`{unit}` behind the volume: a volume is in millilitres, without a unit"
            ));
        }
        _ => {
            return Err(
                "a pipe has two fittings and a length in millimetres: `pipe A B LENGTH`, and perhaps a volume in millilitres behind it"
                    .to_string(),
            );
        }
    };
    Ok(Record::Pipe {
        first: number("the first fitting", 65_535, first)?,
        second: number("the second fitting", 65_535, second)?,
        length: number("the length", 4_294_967_295, length)?,
        volume: number("the volume", 4_294_967_295, volume)?,
    })
}

fn unknown(kind: &str) -> String {
    let small = kind.to_lowercase();
    if small != kind && ["fitting", "fittings", "pipe"].contains(&small.as_str()) {
        return format!("`{kind}` is written in small letters, `{small}`");
    }
    format!("`{kind}` is no word of a house: {LINES}")
}

/// A number that fits its place in a list. Its bound in a house is the register's to say, so that refused records can be written too.
fn number<T: FromStr>(what: &str, most: u32, word: &str) -> Result<T, String> {
    let digits = word.trim_end_matches(|letter: char| !letter.is_ascii_digit());
    let whole = |word: &str| !word.is_empty() && word.bytes().all(|byte| byte.is_ascii_digit());
    if whole(word) {
        return word
            .parse()
            .map_err(|_| format!("{what} is at most {most}, not `{word}`"));
    }
    if whole(digits) {
        return Err(format!(
            "{what} is a number without a unit: `{digits}`, not `{word}`"
        ));
    }
    Err(format!(
        "{what} is a whole number, digits alone, not `{word}`"
    ))
}

#[cfg(test)]
mod tests {
    use super::*;

    fn words_of(text: impl AsRef<[u8]>) -> (usize, String) {
        let problem = read(text.as_ref()).expect_err("something is wrong");
        (problem.line, problem.words)
    }

    #[test]
    fn a_text_becomes_records_with_their_lines() {
        let pipe = |volume| Record::Pipe {
            first: 0,
            second: 1,
            length: 1000,
            volume,
        };
        let expected = vec![
            (Record::Fitting, 2),
            (Record::Fitting, 2),
            (pipe(0), 4),
            (Record::Fitting, 5),
            (pipe(157), 6),
            (pipe(0), 7),
        ];
        let text =
            "# house\nfittings 2\n\n  pipe 0 1 1000 # first\nfitting\npipe 0 1 1000 157\npipe 0 1 1000 0\n";
        assert_eq!(read(text.as_bytes()), Ok(expected.clone()));
        let from_windows = format!("\u{feff}{}", text.replace('\n', "\r\n"));
        assert_eq!(read(from_windows.as_bytes()), Ok(expected));
        assert_eq!(read(b"# nothing\n"), Ok(vec![]));
    }

    #[test]
    fn a_problem_names_its_line_and_what_to_write() {
        let problems = [
            ("fitting\npipe 0 1\n", 2, "`pipe A B LENGTH`"),
            ("\n\npipe 0 1 5mm", 3, "without a unit: `5`, not `5mm`"),
            ("pipe 0 1 5 mm", 1, "`mm` behind the length"),
            ("pipe 0 1 5 -", 1, "`-` behind the length"),
            (
                "pipe 0 1 5 7ml",
                1,
                "the volume is a number without a unit: `7`",
            ),
            ("pipe 0 1 5 7 ml", 1, "`ml` behind the volume"),
            (
                "pipe 0 1 5 4294967296",
                1,
                "the volume is at most 4294967295",
            ),
            ("pipe 0 70000 5", 1, "the second fitting is at most 65535"),
            (
                "pipe 0 1 4294967296",
                1,
                "the length is at most 4294967295, not",
            ),
            ("pipe 0 1 1,000", 1, "digits alone, not `1,000`"),
            ("pipe 0 1 +5", 1, "digits alone, not `+5`"),
            ("pipe a 1 5", 1, "the first fitting is a whole number"),
            ("fittings -1", 1, "the count of fittings is a whole number"),
            ("fittings", 1, "one number, how many"),
            ("fittings 2 3", 1, "one number, how many"),
            ("fitting 2", 1, "`fittings N`"),
            ("Pipe 0 1 5", 1, "small letters, `pipe`"),
            ("valve", 1, "`valve` is no word of a house"),
            ("PNL", 1, "a list and no text"),
            ("", 1, "empty"),
            ("fitting\r\n# a\rfitting\r\n", 2, "carriage return"),
        ];
        for (text, line, words) in problems {
            let told = words_of(text);
            assert!(told.0 == line && told.1.contains(words), "{told:?}");
        }
        let (line, words) = words_of(b"fitting\n# Gew\xE4chshaus\n");
        assert_eq!((line, words.contains("byte 0xE4")), (2, true), "{words}");
        let (line, words) = words_of(b"\xFF\xFEf\0i\0");
        assert_eq!((line, words.contains("UTF-16")), (1, true), "{words}");
    }

    #[test]
    fn a_line_is_shown_as_far_as_it_can_be() {
        assert_eq!(
            shown(b"fitting\n  pipe 0 \xE4 5\r\n", 2),
            "pipe 0 \u{fffd} 5"
        );
        assert_eq!(shown(b"\xEF\xBB\xBFfitting", 1), "fitting");
        assert_eq!(shown(b"fitting", 7), "");
    }
}

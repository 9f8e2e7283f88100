//! A house as text: written as a list, and asked for the line of a record.

use std::env;
use std::fs;
use std::io::{self, Read, Write};
use std::process::ExitCode;

use pnltext::records::{self, Record};
use pnltext::text;

const HELP: &str = "\
usage: pnltext [FILE] > LIST                 writes the list of a house as text (without FILE: of standard input)
       pnltext --stop RECORD REFUSAL FILE    says at which line of the text a list stopped, and why

A house as text has a record a line; numbers need only fit their places in a list, so that refused records can be written too:

    # three fittings, and the pipes between them of 1,000 mm and of 500 mm, the second with a volume of 157 ml
    fittings 2
    pipe 0 1 1000
    fitting
    pipe 1 2 500 157
";

fn main() -> ExitCode {
    let words: Vec<String> = env::args().skip(1).collect();
    let words: Vec<&str> = words.iter().map(String::as_str).collect();
    let done = match words[..] {
        ["--help" | "-h"] => write_out(HELP.as_bytes()),
        ["--stop", record, refusal, file] => tell_stop(record, refusal, file),
        [] => write_list(None),
        [file] if !file.starts_with("--") => write_list(Some(file)),
        _ => Err(HELP.to_string()),
    };
    match done {
        Ok(()) => ExitCode::SUCCESS,
        Err(words) => {
            eprint!("{words}");
            ExitCode::FAILURE
        }
    }
}

fn write_list(file: Option<&str>) -> Result<(), String> {
    let bytes = read_in(file)?;
    let records = text::read(&bytes).map_err(|problem| {
        let place = file.map_or(String::new(), |file| format!("{file}, "));
        let shown = text::shown(&bytes, problem.line);
        format!(
            "{place}line {}: {}\n    {shown}\n",
            problem.line, problem.words
        )
    })?;
    let records: Vec<Record> = records.into_iter().map(|(record, _)| record).collect();
    write_out(&records::write(version_for(&records), &records))
}

/// The second where a volume is given. The list of a text without volumes is one that every reader of lists knows.
fn version_for(records: &[Record]) -> u16 {
    let given = |record: &Record| matches!(record, Record::Pipe { volume, .. } if *volume > 0);
    if records.iter().any(given) {
        2
    } else {
        1
    }
}

/// The line of a record; a text's list has a good header, so a stop is always one of its records.
fn tell_stop(record: &str, refusal: &str, file: &str) -> Result<(), String> {
    let bytes = read_in(Some(file))?;
    let numbers = (record.parse::<usize>(), refusal.parse::<u8>());
    let (Ok(record), Ok(refusal)) = numbers else {
        return Err(HELP.to_string());
    };
    let records = text::read(&bytes).unwrap_or_default();
    let Some(&(_, line)) = records.get(record) else {
        return Err(format!("{file} has no record {record}\n"));
    };
    let shown = text::shown(&bytes, line);
    let why = words(refusal);
    let told = format!("stopped at line {line} of {file}: {shown}\n    refusal {refusal}: {why}\n");
    write_out(told.as_bytes())
}

/// The refusals that a record of a text can meet, as include/pnl.h words them.
fn words(refusal: u8) -> &'static str {
    match refusal {
        5 => "there is no fitting of that number yet",
        6 => "the pipe goes from a fitting to itself",
        7 => "the pipe's length is 0 or above 100,000 mm",
        31 => "the pipe's volume is above 1,000,000 ml",
        22 => "there are 4,096 fittings already",
        23 => "there are 4,096 pipes already",
        _ => "examples/README.md says which that is",
    }
}

fn read_in(file: Option<&str>) -> Result<Vec<u8>, String> {
    let mut bytes = Vec::new();
    let read = match file {
        Some(file) => fs::read(file).map(|read| bytes = read),
        None => io::stdin().read_to_end(&mut bytes).map(|_| ()),
    };
    let name = file.unwrap_or("standard input");
    read.map_err(|error| format!("cannot read {name}: {error}\n"))?;
    Ok(bytes)
}

fn write_out(bytes: &[u8]) -> Result<(), String> {
    let mut out = io::stdout();
    out.write_all(bytes)
        .and_then(|()| out.flush())
        .map_err(|error| format!("cannot write: {error}\n"))
}

//! `judge PROGRAM FOLDER [COUNT] [SEED]`: hands random lists, each with sheets made from its own, to
//! the program that judges, and compares what it writes with the other implementation's verdict. The
//! first lists are refused for each reason in turn.

use std::collections::BTreeSet;
use std::env;
use std::fs;
use std::path::Path;
use std::process::{Command, ExitCode, Stdio};

use reference::arguments::count_and_seed;
use reference::gen::{self, full, random::Random, stops, Maker};
use reference::judge::{one_byte_off, sheets, Verdict};
use reference::print::{Outcome, MOST_BYTES};

const DEFAULT_COUNT: usize = 60;
/// Of so many lists whose sheets are short, one byte is off at each place.
const EACH_BYTE_OF: usize = 3;
const SHORT: usize = 120;
/// One list for each refusal, one that is too long, and one of full size that is landed whole.
const FIRST: [Maker; 12] = [
    stops::no_mark,
    stops::version,
    stops::cut_record,
    stops::unknown_kind,
    stops::not_landed,
    stops::same_fitting,
    stops::wrong_length,
    stops::wrong_volume,
    stops::full_fittings,
    full::pipe_too_many,
    |_| vec![0; MOST_BYTES + 1],
    |random| full::list(random, 0),
];
const REFUSALS: usize = FIRST.len() - 2;

struct Order<'a> {
    program: &'a str,
    folder: &'a Path,
    count: usize,
    seed: u64,
}

/// How many sheets agreed, had a wrong line, or came with a list that was too long or refused, and
/// with which refusals.
#[derive(Default)]
struct Counts {
    agree: usize,
    wrong: usize,
    too_long: usize,
    stopped: usize,
    refusals: BTreeSet<i32>,
}

impl Counts {
    fn count(&mut self, verdict: Verdict) {
        match verdict {
            Verdict::Agrees => self.agree += 1,
            Verdict::WrongLine(_) => self.wrong += 1,
            Verdict::TooLong => self.too_long += 1,
            Verdict::Stopped(_, refusal) => {
                self.stopped += 1;
                self.refusals.insert(refusal);
            }
        }
    }
}

/// What the program writes, with the list on standard input and the sheet on descriptor 3.
fn ask(order: &Order, list: &[u8], sheet: &[u8]) -> std::io::Result<String> {
    let (pipes, text) = (
        order.folder.join("judged.pnl"),
        order.folder.join("judged.sheet"),
    );
    fs::write(&pipes, list)?;
    fs::write(&text, sheet)?;
    let output = Command::new("bash")
        .args(["-c", "exec \"$0\" < \"$1\" 3< \"$2\"", order.program])
        .args([&pipes, &text])
        .stderr(Stdio::inherit())
        .output()?;
    Ok(String::from_utf8_lossy(&output.stdout).into_owned())
}

fn list(order: &Order, index: usize) -> Vec<u8> {
    match FIRST.get(index) {
        Some(maker) => maker(&mut Random::of_list(order.seed, index)),
        None => gen::list(order.seed, index),
    }
}

fn compare(order: &Order) -> Result<Counts, String> {
    let mut counts = Counts::default();
    let mut each_byte = EACH_BYTE_OF;
    for index in 0..order.count {
        let list = list(order, index);
        let outcome = Outcome::of(&list);
        let right = outcome.to_string();
        let mut random = Random::of_list(!order.seed, index);
        let mut sheets = sheets(&mut random, right.as_bytes());
        if each_byte > 0 && right.len() <= SHORT && matches!(outcome, Outcome::Grown(_, Ok(()))) {
            each_byte -= 1;
            sheets.extend(one_byte_off(right.as_bytes()));
        }
        for (kind, sheet) in sheets.iter().enumerate() {
            let expected = Verdict::of(&list, sheet);
            match ask(order, &list, sheet) {
                Ok(said) if said == format!("{expected}\n") => counts.count(expected),
                other => {
                    return Err(format!(
                        "list {index} of seed {}, sheet {kind}: {other:?}, expected '{expected}'",
                        order.seed
                    ))
                }
            }
        }
    }
    Ok(counts)
}

fn order(words: &[String]) -> Option<Order<'_>> {
    let [program, folder, numbers @ ..] = words else {
        return None;
    };
    let (count, seed) = count_and_seed(numbers, DEFAULT_COUNT)?;
    Some(Order {
        program,
        folder: Path::new(folder),
        count,
        seed,
    })
}

fn main() -> ExitCode {
    let words: Vec<String> = env::args().skip(1).collect();
    let Some(order) = order(&words) else {
        eprintln!("usage: judge PROGRAM FOLDER [COUNT] [SEED]");
        return ExitCode::from(2);
    };
    match compare(&order) {
        Ok(counts) => {
            println!(
                "sheets judged alike: {} agree, {} have a wrong line, {} of lists that stop, {} of lists too long",
                counts.agree, counts.wrong, counts.stopped, counts.too_long
            );
            if order.count >= FIRST.len() && counts.refusals.len() < REFUSALS {
                eprintln!("refusals only {:?}", counts.refusals);
                return ExitCode::FAILURE;
            }
            ExitCode::SUCCESS
        }
        Err(difference) => {
            eprintln!("{difference}");
            ExitCode::FAILURE
        }
    }
}

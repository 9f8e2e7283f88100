//! `compare BINARY [COUNT] [SEED]`: hands lists to a printing program and compares what it prints,
//! byte for byte, with what document 01 says. A difference is written down and ends it with code 1.

use std::env;
use std::fs;
use std::path::{Path, PathBuf};
use std::process::ExitCode;
use std::sync::atomic::{AtomicBool, AtomicUsize, Ordering};

use reference::arguments::count_and_seed;
use reference::child;
use reference::gen;
use reference::print::Outcome;
use reference::tally::{verdict, Tally};
use reference::workers::together;

const DEFAULT_COUNT: usize = 20_000;
/// One list in so many is handed over in pieces.
const PIECEWISE_EVERY: usize = 16;
const PIECES: usize = 3;

struct Order {
    binary: PathBuf,
    count: usize,
    seed: u64,
}

/// A list on which the binary differs.
struct Difference {
    index: usize,
    list: Vec<u8>,
    expected: String,
    answer: Result<Vec<u8>, String>,
}

/// What the workers share: the next list to take, and whether to go on.
#[derive(Default)]
struct Progress {
    next: AtomicUsize,
    ended: AtomicBool,
}

fn main() -> ExitCode {
    let arguments: Vec<String> = env::args().skip(1).collect();
    let Some(order) = order(&arguments) else {
        eprintln!("usage: compare BINARY [COUNT] [SEED]");
        return ExitCode::from(2);
    };
    match compare(&order) {
        Ok(tally) => {
            println!(
                "{} lists alike, seed {}: {tally}",
                tally.lists(),
                order.seed
            );
            verdict(order.count >= DEFAULT_COUNT, &tally.missing())
        }
        Err(difference) => {
            report(&order, &difference);
            ExitCode::FAILURE
        }
    }
}

fn order(arguments: &[String]) -> Option<Order> {
    let (binary, numbers) = arguments.split_first()?;
    let (count, seed) = count_and_seed(numbers, DEFAULT_COUNT)?;
    Some(Order {
        binary: PathBuf::from(binary),
        count,
        seed,
    })
}

fn compare(order: &Order) -> Result<Tally, Difference> {
    let progress = Progress::default();
    let mut whole = Tally::default();
    for result in together(|| work(order, &progress)) {
        whole.add(result?);
    }
    Ok(whole)
}

/// Compares lists until there are no more, or until some worker has found a difference.
fn work(order: &Order, progress: &Progress) -> Result<Tally, Difference> {
    let mut tally = Tally::default();
    while !progress.ended.load(Ordering::Relaxed) {
        let index = progress.next.fetch_add(1, Ordering::Relaxed);
        if index >= order.count {
            break;
        }
        let compared = compare_one(order, index);
        if compared.is_err() {
            progress.ended.store(true, Ordering::Relaxed);
        }
        tally.count(&compared?);
    }
    Ok(tally)
}

fn compare_one(order: &Order, index: usize) -> Result<Outcome, Difference> {
    let list = gen::list(order.seed, index);
    let outcome = Outcome::of(&list);
    let expected = outcome.to_string();
    let pieces = if index.is_multiple_of(PIECEWISE_EVERY) {
        PIECES
    } else {
        1
    };
    match child::ask(&order.binary, &list, pieces) {
        Ok(bytes) if bytes == expected.as_bytes() => Ok(outcome),
        answer => Err(Difference {
            index,
            list,
            expected,
            answer,
        }),
    }
}

fn report(order: &Order, difference: &Difference) {
    let (seed, index) = (order.seed, difference.index);
    println!("--- expected\n{}", difference.expected);
    match &difference.answer {
        Ok(bytes) => {
            let printed = String::from_utf8_lossy(bytes);
            let line = lines_alike(&difference.expected, &printed) + 1;
            println!("--- printed\n{printed}");
            println!("--- first difference in line {line}");
        }
        Err(failure) => println!("--- failed\n{failure}"),
    }
    let path = PathBuf::from(format!("difference-{seed}-{index}.pnl"));
    println!(
        "--- seed {seed}, list {index}, {}",
        kept(&path, &difference.list)
    );
}

/// How many lines are the same before the first that differs.
fn lines_alike(expected: &str, printed: &str) -> usize {
    let pairs = expected.split('\n').zip(printed.split('\n'));
    pairs.take_while(|(one, other)| one == other).count()
}

fn kept(path: &Path, list: &[u8]) -> String {
    match fs::write(path, list) {
        Ok(()) => format!("kept in {}", path.display()),
        Err(error) => format!("not kept in {}: {error}", path.display()),
    }
}

//! `register-calls [COUNT] [SEED]`: every call of the archive on random lists, compared with the
//! other implementation: the value that is returned, every byte of the answer slice, and the bytes
//! behind the slice. A difference ends it with code 1.

mod archive;
mod compare;
mod questions;
#[path = "../../shared/stack.rs"]
mod stack;
mod tally;

use std::env;
use std::process::ExitCode;
use std::sync::atomic::{AtomicUsize, Ordering};

use compare::Difference;
use reference::arguments::count_and_seed;
use reference::tally::verdict;
use reference::workers::together;
use tally::Tally;

const DEFAULT_COUNT: usize = 8_000;

fn main() -> ExitCode {
    let arguments: Vec<String> = env::args().skip(1).collect();
    let Some((count, seed)) = count_and_seed(&arguments, DEFAULT_COUNT) else {
        eprintln!("usage: register-calls [COUNT] [SEED]");
        return ExitCode::from(2);
    };
    match compare::null_pointers().and_then(|()| compare_all(seed, count)) {
        Ok(tally) => {
            println!("{tally}, seed {seed}");
            verdict(count >= DEFAULT_COUNT, &tally.missing())
        }
        Err(difference) => {
            eprintln!("seed {seed}: {difference}");
            ExitCode::FAILURE
        }
    }
}

fn compare_all(seed: u64, count: usize) -> Result<Tally, Difference> {
    let next = AtomicUsize::new(0);
    let mut whole = Tally::default();
    for result in together(|| work(seed, count, &next)) {
        whole.add(result?);
    }
    Ok(whole)
}

/// Compares lists until there are no more, or until some worker has found a difference.
fn work(seed: u64, count: usize, next: &AtomicUsize) -> Result<Tally, Difference> {
    let mut tally = Tally::default();
    loop {
        let index = next.fetch_add(1, Ordering::Relaxed);
        if index >= count {
            return Ok(tally);
        }
        if let Err(difference) = compare::drawn(seed, index, &mut tally) {
            next.store(usize::MAX / 2, Ordering::Relaxed);
            return Err(format!("list {index}: {difference}"));
        }
    }
}

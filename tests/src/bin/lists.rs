//! `lists FOLDER [COUNT] [SEED]`: writes the lists that `compare` hands over, as FOLDER/0.pnl and so on.

use std::env;
use std::fs;
use std::path::Path;
use std::process::ExitCode;

use reference::arguments::count_and_seed;
use reference::gen;

const DEFAULT_COUNT: usize = 200;

fn main() -> ExitCode {
    let words: Vec<String> = env::args().skip(1).collect();
    let order = words.split_first().and_then(|(folder, numbers)| {
        let (count, seed) = count_and_seed(numbers, DEFAULT_COUNT)?;
        Some((Path::new(folder), count, seed))
    });
    let Some((folder, count, seed)) = order else {
        eprintln!("usage: lists FOLDER [COUNT] [SEED]");
        return ExitCode::from(2);
    };
    for index in 0..count {
        let path = folder.join(format!("{index}.pnl"));
        if let Err(error) = fs::write(&path, gen::list(seed, index)) {
            eprintln!("cannot write {}: {error}", path.display());
            return ExitCode::FAILURE;
        }
    }
    ExitCode::SUCCESS
}

//! `lent DIR [COUNT] [SEED]`: writes so many random series of calls for eight houses over lent tables to
//! DIR/0.stdin and so on, and what their calls are to answer to DIR/0.stdout and so on (tests/lent).

use std::collections::{BTreeMap, BTreeSet};
use std::env;
use std::fs;
use std::path::Path;
use std::process::ExitCode;

use reference::arguments::count_and_seed;
use reference::gen::random::Random;
use reference::gen::series::{self, Source};
use reference::lent::{self, Answer, Call, Command, Lent};
use reference::licence::HOUSES;
use reference::tally::{verdict, Cases, Quotes};

const DEFAULT_COUNT: usize = 9;
/// How often a series is led on, by some commands each time. Its calls have to be answered within the
/// time that a program has for one run.
const TURNS: usize = 120;

/// Calls by their kind and refusal, those that leave a ring of two or of more pipes standing in their house,
/// the cases of the pipes landed, and the quotes that were committed while they held.
#[derive(Default)]
struct Tally {
    calls: BTreeMap<(&'static str, u32), usize>,
    rings: BTreeMap<bool, usize>,
    cases: Cases,
    committed: Quotes,
    /// Quotes that name refusal 36.
    turned_away: usize,
    /// Removals that reported nothing, and something.
    reports: [usize; 2],
}

/// The refusals of each call, 0 for an answer.
const OUTCOMES: [(&str, &[u32]); 14] = [
    ("grow", &[0, 1, 3, 4, 5, 7, 21, 22, 23, 25, 31, 36, 37]),
    ("land", &[0, 1, 2, 3, 4, 5, 6, 7, 21, 25, 31, 36, 37]),
    ("find", &[0, 8, 21, 25, 37]),
    ("find_at", &[0, 8, 21, 25, 37]),
    ("distance", &[0, 5, 21, 25, 37]),
    ("sheet", &[0, 9, 21, 25, 37]),
    ("write", &[0, 9, 21, 25, 37]),
    ("quote", &[0, 21, 25, 37]),
    ("commit", &[0, 5, 6, 7, 21, 23, 25, 31, 32, 36, 37]),
    ("open", &[0, 21, 25, 37]),
    ("fetch", &[0, 21, 25, 33, 37, 39]),
    ("fetch done", &[0]),
    ("remove", &[0, 9, 21, 25, 37, 38]),
    ("shares", &[0, 21, 25, 37]),
];

impl Tally {
    fn count_call(&mut self, house: u32, call: &Call, answer: &Answer, lent: &mut Lent) {
        let name = match call {
            Call::Fetch(_) if lent::is_done(answer.first) => "fetch done",
            _ => name(call),
        };
        *self.calls.entry((name, answer.refusal)).or_default() += 1;
        match call {
            Call::Commit(quote) if ![21, 25, 32, 37].contains(&answer.refusal) => {
                self.committed.count(quote.terms);
            }
            Call::Quote(_) if answer.refusal == 0 && answer.first == 36 => self.turned_away += 1,
            Call::Remove(..) if answer.refusal == 0 => {
                let reports = if answer.first == 0 { 0 } else { 1 };
                self.reports[reports] += 1;
            }
            _ => {}
        }
        let held = lent.house(house as usize % HOUSES);
        let rings = held.iter().flat_map(|house| house.rings());
        let of_two = rings.map(|ring| ring.pipes().len() == 2);
        for of_two in of_two.collect::<BTreeSet<bool>>() {
            *self.rings.entry(of_two).or_default() += 1;
        }
    }

    /// Before a register is cleared, the cases of its pipes.
    fn count_cases(&mut self, house: usize, lent: &mut Lent) {
        if let Some(house) = lent.house(house) {
            self.cases.count(&house);
        }
    }

    fn missing(&self) -> Vec<String> {
        let outcomes = OUTCOMES.iter();
        let all = outcomes.flat_map(|(name, refusals)| refusals.iter().map(move |r| (*name, *r)));
        let unseen = all.filter(|outcome| !self.calls.contains_key(outcome));
        let mut missing: Vec<String> = unseen.map(|(name, r)| format!("{name} {r}")).collect();
        missing.extend(self.cases.missing());
        missing.extend(self.committed.missing());
        if self.rings.len() < 2 {
            missing.push("a standing ring of two, or of more".to_string());
        }
        if self.turned_away == 0 {
            missing.push("a quote that names 36".to_string());
        }
        if self.reports.contains(&0) {
            missing.push("a removal that reports nothing, or something".to_string());
        }
        missing
    }
}

fn name(call: &Call) -> &'static str {
    match call {
        Call::Grow(_) => "grow",
        Call::Land(_) => "land",
        Call::Find(_) => "find",
        Call::FindAt(_) => "find_at",
        Call::Distance(..) => "distance",
        Call::Sheet(_) => "sheet",
        Call::Write(_) => "write",
        Call::Quote(_) => "quote",
        Call::Commit(_) => "commit",
        Call::Open => "open",
        Call::Fetch(_) => "fetch",
        Call::Remove(..) => "remove",
        Call::Shares(_) => "shares",
    }
}

fn main() -> ExitCode {
    let arguments: Vec<String> = env::args().skip(1).collect();
    let order = arguments.split_first().and_then(|(folder, numbers)| {
        let (count, seed) = count_and_seed(numbers, DEFAULT_COUNT)?;
        Some((folder, count, seed))
    });
    let Some((folder, count, seed)) = order else {
        eprintln!("usage: lent DIR [COUNT] [SEED]");
        return ExitCode::from(2);
    };
    let mut tally = Tally::default();
    for number in 0..count {
        let mut random = Random::of_list(seed, number);
        let lists = random.draw();
        let source = Source {
            random,
            number,
            lists,
            busy: 0,
            sheets: Vec::new(),
        };
        let (asked, expected) = series(source, &mut tally);
        for (end, bytes) in [("stdin", asked), ("stdout", expected.into_bytes())] {
            let file = Path::new(folder).join(format!("{number}.{end}"));
            if let Err(error) = fs::write(&file, bytes) {
                eprintln!("lent: cannot write {}: {error}", file.display());
                return ExitCode::FAILURE;
            }
        }
    }
    let calls: usize = tally.calls.values().sum();
    print!("{calls} calls for eight houses in {count} series, seed {seed}:");
    for ((name, refusal), count) in &tally.calls {
        match refusal {
            0 => print!(" {name} answered {count}"),
            _ => print!(", {refusal}: {count}"),
        }
    }
    let [two, more] =
        [true, false].map(|of_two| tally.rings.get(&of_two).copied().unwrap_or_default());
    println!(", with a ring of two standing {two}, of more {more}");
    verdict(count >= DEFAULT_COUNT, &tally.missing())
}

/// The commands of a series, and the lines that its calls are to give.
fn series(mut source: Source, tally: &mut Tally) -> (Vec<u8>, String) {
    let (mut asked, mut expected) = (Vec::new(), String::new());
    let mut lent = Lent::default();
    for turn in 0..TURNS {
        for command in series::next(&mut source, turn, &mut lent) {
            asked.extend(command.bytes());
            match command {
                Command::Set(house, table, place, number) => {
                    lent.set(house, table, place, number);
                }
                Command::Lend(table, size) => lent.lend(table, size),
                Command::Call(house, call) => {
                    if matches!(call, Call::Grow(_)) && house < 8 {
                        tally.count_cases(house as usize, &mut lent);
                    }
                    let answer = lent.call(house, &call);
                    expected += &format!("{answer}\n");
                    tally.count_call(house, &call, &answer, &mut lent);
                }
            }
        }
    }
    for house in 0..HOUSES {
        tally.count_cases(house, &mut lent);
    }
    (asked, expected)
}

//! `register-valve [COUNT] [SEED]`: COUNT series of thousands of records, each through the archive and through the other
//! implementation, which works out every answer afresh: what is returned, both tables, the next slot and the sum after each call. Then
//! windows that no records leave, and tables of other sizes. A difference ends it with code 1.

use std::env;
use std::process::ExitCode;

use reference::arguments::count_and_seed;
use reference::gen::random::Random;
use reference::valve::{Mixer, Record, Window, MINUTES, MOST};

const DEFAULT_COUNT: usize = 10;

extern "C" {
    fn pnl_valve_arrive(
        recipes: *mut u16,
        recipes_len: usize,
        amounts: *mut u32,
        amounts_len: usize,
        next: *mut u16,
        sum: *mut u32,
        recipe: u16,
        amount: u32,
    ) -> i32;
    fn pnl_valve_recipe(
        recipes: *const u16,
        recipes_len: usize,
        amounts: *const u32,
        amounts_len: usize,
        next: u16,
        sum: u32,
        volume: u32,
    ) -> i32;
}

fn arrive(window: &mut Window, record: Record) -> i32 {
    let (recipes, amounts) = (&mut window.recipes, &mut window.amounts);
    unsafe {
        pnl_valve_arrive(
            recipes.as_mut_ptr(),
            recipes.len(),
            amounts.as_mut_ptr(),
            amounts.len(),
            &mut window.next,
            &mut window.sum,
            record.recipe,
            record.amount,
        )
    }
}

fn recipe(window: &Window, volume: u32) -> i32 {
    let (recipes, amounts) = (&window.recipes, &window.amounts);
    unsafe {
        pnl_valve_recipe(
            recipes.as_ptr(),
            recipes.len(),
            amounts.as_ptr(),
            amounts.len(),
            window.next,
            window.sum,
            volume,
        )
    }
}

/// What was compared.
#[derive(Default)]
struct Tally {
    taken: usize,
    /// By number.
    refused: std::collections::BTreeMap<i32, usize>,
    answered: usize,
    older: usize,
    /// How often a record came to a slot that had one.
    pushed_out: usize,
}

impl Tally {
    fn count(&mut self, returned: i32) {
        match returned {
            i32::MIN..0 => *self.refused.entry(-returned).or_default() += 1,
            reference::valve::OLDER => self.older += 1,
            _ => self.answered += 1,
        }
    }
}

fn same<T: PartialEq + std::fmt::Debug>(what: &str, found: &T, expected: &T) -> Result<(), String> {
    match found == expected {
        true => Ok(()),
        false => Err(format!("{what}: {found:?}, and not {expected:?}")),
    }
}

/// A record of a series: the recipe stays for a while, and much, little, nothing or too much passes.
fn draw_record(random: &mut Random, recipe: &mut u16, kind: usize) -> Record {
    if random.below(20) == 0 {
        *recipe = [0, 1, 65_535, random.below(65_536) as u16][random.below(4)];
    }
    let amount = match (kind, random.below(10)) {
        (_, 0) => 0,
        (0, _) => random.below(5),
        (1, 1) => MOST as usize + random.below(2),
        (1, _) => MOST as usize - random.below(2),
        (2, _) => 0,
        (_, 1) => [MOST as usize + 1, u32::MAX as usize][random.below(2)],
        _ => random.below(MOST as usize + 1),
    };
    Record {
        recipe: *recipe,
        amount: amount as u32,
    }
}

/// Some of the volumes at which answers change, and others; all of them now and then.
fn ask(
    random: &mut Random,
    mixer: &Mixer,
    window: &Window,
    tally: &mut Tally,
) -> Result<(), String> {
    let edges = mixer.edges();
    let all = random.below(500) == 0;
    for &edge in &edges {
        if !all && random.below(edges.len()) > 5 {
            continue;
        }
        for volume in [edge, random.below(1 << 32) as u32] {
            let returned = recipe(window, volume);
            same(
                &format!("the recipe at {volume}"),
                &returned,
                &mixer.recipe(volume),
            )?;
            tally.count(returned);
        }
    }
    Ok(())
}

/// One series from empty, past the end of the tables, and damaged windows on the way.
fn series(random: &mut Random, kind: usize, tally: &mut Tally) -> Result<(), String> {
    let mut mixer = Mixer::default();
    let mut window = mixer.window();
    let mut recipe_now = 0;
    let taken_before = tally.taken;
    for number in 0..3_000 + random.below(1_000) {
        let record = draw_record(random, &mut recipe_now, kind);
        let returned = arrive(&mut window, record);
        let taken = mixer.arrive(record);
        same("an arrival", &returned, &if taken { 0 } else { -40 })?;
        same("the window", &window, &mixer.window())
            .map_err(|words| format!("record {number}: {words}"))?;
        match taken {
            true => tally.taken += 1,
            false => tally.count(returned),
        }
        ask(random, &mixer, &window, tally)?;
        if random.below(100) == 0 {
            damaged(random, &window, tally)?;
        }
    }
    tally.pushed_out += (tally.taken - taken_before).saturating_sub(MINUTES);
    Ok(())
}

/// Windows with one part changed, each with a record that could be taken and one that could not: refused alike by both calls, and left
/// as they were; or still a window.
fn damaged(random: &mut Random, window: &Window, tally: &mut Tally) -> Result<(), String> {
    for damage in 0..9 {
        let mut changed = window.clone();
        let slot = random.below(MINUTES);
        match damage {
            0 => changed.next = [1_440, 1_441, 65_535][random.below(3)],
            1 => changed.sum = changed.sum.wrapping_add(1),
            2 => changed.sum = changed.sum.wrapping_sub(1),
            3 => changed.amounts[slot] = changed.amounts[slot].wrapping_add(1),
            4 => {
                (changed.sum, changed.amounts[slot]) =
                    (changed.sum - changed.amounts[slot] + MOST + 1, MOST + 1)
            }
            5 => changed.recipes.truncate([0, 1, 1_439][random.below(3)]),
            6 => changed.amounts.push(0),
            7 => (changed.next, changed.sum) = (random.below(MINUTES) as u16, changed.sum),
            _ => changed.recipes[slot] ^= 1,
        }
        let refusal = changed.refusal();
        for amount in [0, MOST, MOST + 1] {
            let mut lent = changed.clone();
            let returned = arrive(&mut lent, Record { recipe: 5, amount });
            let expected = refusal.map_or(if amount > MOST { -40 } else { 0 }, |number| -number);
            same(
                &format!("damage {damage}: an arrival"),
                &returned,
                &expected,
            )?;
            if returned < 0 {
                tally.count(returned);
                same(&format!("damage {damage}: the window"), &lent, &changed)?;
            }
        }
        let returned = recipe(&changed, random.below(1 << 32) as u32);
        match refusal {
            Some(number) => same(&format!("damage {damage}: a question"), &returned, &-number)?,
            None => same(
                &format!("damage {damage}: answered"),
                &(returned >= 0),
                &true,
            )?,
        }
        tally.count(returned);
    }
    Ok(())
}

fn main() -> ExitCode {
    let words: Vec<String> = env::args().skip(1).collect();
    let Some((count, seed)) = count_and_seed(&words, DEFAULT_COUNT) else {
        eprintln!("usage: register-valve [COUNT] [SEED]");
        return ExitCode::from(2);
    };
    let mut tally = Tally::default();
    for number in 0..count {
        let mut random = Random::of_list(seed, number);
        if let Err(difference) = series(&mut random, number % 5, &mut tally) {
            eprintln!("seed {seed}, series {number}: {difference}");
            return ExitCode::FAILURE;
        }
    }
    println!(
        "{} records taken in {count} series, {} of them past the 1,440th; answered {}, older {}, refused {:?}, seed {seed}",
        tally.taken, tally.pushed_out, tally.answered, tally.older, tally.refused
    );
    let all = [21, 25, 40]
        .iter()
        .all(|number| tally.refused.contains_key(number));
    if count >= DEFAULT_COUNT && !(all && tally.older > 0 && tally.answered > 0) {
        eprintln!("not every answer and refusal came up");
        return ExitCode::FAILURE;
    }
    ExitCode::SUCCESS
}

//! `register-plan [COUNT] [SEED]`: COUNT plans through the archive, over random windows, and through the other implementation, which tries
//! each minute. A difference ends it with code 1.

use std::collections::BTreeMap;
use std::env;
use std::process::ExitCode;

use reference::arguments::count_and_seed;
use reference::gen::random::Random;
use reference::plan::{plan, MOST_FLOW, NONE, UNKNOWN, WEEK, WINDOWS};

const DEFAULT_COUNT: usize = 40_000;

extern "C" {
    fn pnl_plan(
        windows: *const u16,
        windows_len: usize,
        volume: u32,
        flow: u32,
        minute: u32,
    ) -> i32;
}

fn call(windows: &[u16], volume: u32, flow: u32, minute: u32) -> i32 {
    unsafe { pnl_plan(windows.as_ptr(), windows.len(), volume, flow, minute) }
}

/// Windows in order, many of which touch; up to the week's end at times.
fn draw_windows(random: &mut Random) -> Vec<u16> {
    let count = match random.below(8) {
        0 => 0,
        1 => random.between(WINDOWS - 1, WINDOWS + 1),
        _ => random.between(1, 6),
    };
    let span = random.pick(&[2 * count + 2, 300, WEEK]).max(2 * count + 2);
    let mut edges: Vec<u16> = Vec::new();
    while edges.len() < 2 * count {
        let edge = random.below(span + 1).min(WEEK) as u16;
        if !edges.contains(&edge) {
            edges.push(edge);
        }
    }
    edges.sort_unstable();
    for start in (2..edges.len()).step_by(2) {
        if random.one_in(3) {
            edges[start] = edges[start - 1];
        }
    }
    edges
}

/// One number changed, one left out at the end, or one of another size.
fn damage(random: &mut Random, windows: &mut Vec<u16>) {
    if windows.is_empty() {
        return;
    }
    let place = random.below(windows.len());
    match random.below(6) {
        0 => windows.truncate(windows.len() - 1),
        1 => windows[place] = random.pick(&[10_079, 10_080, 10_081, 65_535]),
        2 => windows[place] = windows[place].saturating_sub(1),
        3 => windows[place] = windows[place].saturating_add(1),
        4 => windows[place | 1] = windows[place & !1],
        _ => windows.swap(place, 0),
    }
}

/// At, before or behind an edge of a window, or anywhere.
fn draw_minute(random: &mut Random, windows: &[u16]) -> u32 {
    if random.one_in(20) {
        return random.pick(&[10_080, 10_081, 65_536, 65_537, u32::MAX]);
    }
    if windows.is_empty() || random.one_in(4) {
        let any = random.below(WEEK) as u32;
        return random.pick(&[0, 10_078, 10_079, any]);
    }
    let edge = u32::from(random.pick(windows));
    random.pick(&[edge, edge.saturating_sub(1), edge + 1])
}

/// A volume about as large as what goes through a window, or any.
fn draw_volume(random: &mut Random, windows: &[u16], flow: u32) -> u32 {
    if random.one_in(10) {
        let any = random.u32();
        return random.pick(&[0, 1, u32::MAX, 4_096_000_000, any]);
    }
    let lengths: Vec<u32> = windows
        .chunks(2)
        .map(|window| u32::from(window.get(1).unwrap_or(&0).abs_diff(window[0])))
        .collect();
    let minutes = match lengths.is_empty() {
        true => random.below(WEEK) as u32,
        false => random.pick(&lengths).saturating_sub(random.below(3) as u32),
    };
    let whole = minutes.saturating_mul(flow);
    random.pick(&[whole, whole.saturating_add(1), whole.saturating_sub(1)])
}

fn draw_flow(random: &mut Random) -> u32 {
    match random.below(20) {
        0 => random.pick(&[0, MOST_FLOW + 1, u32::MAX]),
        1..4 => 1,
        4..6 => MOST_FLOW,
        _ => random.between(1, MOST_FLOW as usize) as u32,
    }
}

fn kind(returned: i32) -> &'static str {
    match returned {
        -34 => "34",
        -35 => "35",
        NONE => "none",
        UNKNOWN => "unknown",
        0..10_080 => "this week",
        _ => "next week",
    }
}

fn main() -> ExitCode {
    let words: Vec<String> = env::args().skip(1).collect();
    let Some((count, seed)) = count_and_seed(&words, DEFAULT_COUNT) else {
        eprintln!("usage: register-plan [COUNT] [SEED]");
        return ExitCode::from(2);
    };
    let mut tally: BTreeMap<&str, usize> = BTreeMap::new();
    for number in 0..count {
        let mut random = Random::of_list(seed, number);
        let mut windows = draw_windows(&mut random);
        if random.one_in(5) {
            damage(&mut random, &mut windows);
        }
        let flow = draw_flow(&mut random);
        let minute = draw_minute(&mut random, &windows);
        let volume = draw_volume(&mut random, &windows, flow);
        let returned = call(&windows, volume, flow, minute);
        let expected = plan(&windows, volume, flow, minute);
        if returned != expected {
            eprintln!("seed {seed}, plan {number}: {returned}, and not {expected}: {volume} ml, {flow} ml a minute, minute {minute}, {windows:?}");
            return ExitCode::FAILURE;
        }
        *tally.entry(kind(returned)).or_default() += 1;
    }
    println!("{count} plans: {tally:?}, seed {seed}");
    if count >= DEFAULT_COUNT && tally.len() < 6 {
        eprintln!("not every answer and refusal came up");
        return ExitCode::FAILURE;
    }
    ExitCode::SUCCESS
}

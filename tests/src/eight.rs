//! Values of document 02, S-10 and S-11, of calls for eight houses over lent tables.

use crate::gen::records;
use crate::house::{House, Pipe};
use crate::lent::{right_size, Answer, Call, Lent, LENT, NOT_CLEARED};
use crate::licence::HOUSES;
use crate::list::{self, Record};
use crate::opened::{self, OpenSheet};
use crate::queries;
use crate::quote;
use crate::values::{listing, pipes};

/// Eight cleared houses.
fn cleared() -> Lent {
    let mut lent = Lent::default();
    assert_eq!(lent.call(0, &Call::Open).refusal, 21);
    let house = u32::try_from(NOT_CLEARED).expect("below 8");
    answered(&mut lent, house, &Call::Grow(list::header(2)));
    lent
}

fn answered(lent: &mut Lent, house: u32, call: &Call) -> Answer {
    let answer = lent.call(house, call);
    assert_eq!(answer.refusal, 0, "{house} {call:?}");
    answer
}

fn refused(lent: &mut Lent, house: u32, call: &Call, refusal: u32) {
    let before = state(lent);
    assert_eq!(lent.call(house, call).refusal, refusal, "{house} {call:?}");
    assert_eq!(state(lent), before);
}

/// All that a call may leave otherwise: heads, shares and tables.
fn state(lent: &mut Lent) -> String {
    lent.lend(0, 1);
    let line = lent.call(0, &Call::Open).to_string();
    lent.lend(0, right_size(0));
    line
}

/// So many pipes between two fittings, which it brings if it is told so.
fn many(fittings: usize, count: usize) -> Vec<u8> {
    let mut records = vec![Record::Fitting; fittings];
    records.extend(vec![records::pipe(0, 1, 1); count]);
    list::write(1, &records)
}

fn one() -> Pipe {
    Pipe {
        first: 0,
        second: 1,
        length: 1,
        volume: 0,
    }
}

fn held(lent: &mut Lent, house: usize) -> House {
    (*lent.house(house).expect("a register")).clone()
}

/// Share 90, the others hold 4,000, 50 of its own: pipes up to the 96th land, and the 97th is 36.
#[test]
fn the_97th_pipe_is_turned_away() {
    let mut lent = cleared();
    let shares = [90, 0, 0, 0, 0, 0, 0, 0];
    answered(&mut lent, 0, &Call::Shares(shares.to_vec()));
    answered(&mut lent, 3, &Call::Grow(many(2, 4_000)));
    answered(&mut lent, 0, &Call::Grow(many(2, 50)));
    let stopped = lent.call(0, &Call::Land(many(0, 60)));
    assert_eq!((stopped.first, stopped.refusal), (46, 36));
    assert_eq!(held(&mut lent, 0).pipes().len(), 96);
    // Neither has another house a pipe more, and the house with the share stays at 96.
    for house in [0, 3] {
        let stopped = lent.call(house, &Call::Land(many(1, 2)));
        assert_eq!((stopped.first, stopped.refusal), (1, 36));
    }
    // A quote says so, and its commit too; a forged one is another.
    let made = quote::quote_on(&lent.licence(0), &held(&mut lent, 0), one());
    assert_eq!(made.terms, Err(36));
    assert_eq!(answered(&mut lent, 0, &Call::Quote(one())).first, 36);
    refused(&mut lent, 0, &Call::Commit(made), 36);
    let forged = quote::quote(&held(&mut lent, 0), one());
    refused(&mut lent, 0, &Call::Commit(forged), 32);
    // Without a pipe of the other house there is room again.
    answered(&mut lent, 3, &Call::Remove(7, 0));
    answered(&mut lent, 0, &Call::Land(many(0, 1)));
    refused(&mut lent, 0, &Call::Commit(made), 32);
}

/// A fault of the pipe comes before 36, and 23 does; a house with its whole share is full, not turned away.
#[test]
fn faults_and_23_before_36() {
    let mut lent = cleared();
    let shares = [0, 4_096, 0, 0, 0, 0, 0, 0];
    answered(&mut lent, 0, &Call::Shares(shares.to_vec()));
    answered(&mut lent, 1, &Call::Grow(many(2, 4_096)));
    assert_eq!(lent.call(1, &Call::Land(many(0, 1))).refusal, 23);
    answered(&mut lent, 6, &Call::Grow(pipes(2, &[])));
    for (pipe, refusal) in [
        (records::pipe(0, 2, 1), 5),
        (records::pipe(1, 1, 1), 6),
        (records::pipe(0, 1, 0), 7),
        (records::with_volume(0, 1, 1, 1_000_001), 31),
        (records::pipe(0, 1, 1), 36),
    ] {
        let list = list::write(2, &[pipe]);
        refused(&mut lent, 6, &Call::Land(list), refusal);
    }
    // Fittings are not shared.
    answered(&mut lent, 6, &Call::Grow(pipes(4_096, &[])));
    refused(&mut lent, 6, &Call::Land(pipes(1, &[])), 22);
}

/// 37: a sum above 4,096, or a house with a fitting, also one without pipes; what was set before does not matter.
#[test]
fn shares_are_set_on_empty_houses() {
    let mut lent = cleared();
    let over = [4_096, 0, 0, 0, 0, 0, 0, 1];
    let full = [512; HOUSES];
    refused(&mut lent, 0, &Call::Shares(over.to_vec()), 37);
    refused(&mut lent, 0, &Call::Shares(vec![u16::MAX; HOUSES]), 37);
    answered(&mut lent, 9, &Call::Shares(full.to_vec()));
    assert_eq!(lent.shares(), [512; HOUSES]);
    answered(
        &mut lent,
        0,
        &Call::Shares(vec![0, 0, 0, 0, 0, 0, 0, 4_096]),
    );
    for size in [0, 7, 9] {
        refused(&mut lent, 0, &Call::Shares(vec![0; size]), 25);
    }
    answered(&mut lent, 2, &Call::Land(pipes(1, &[])));
    refused(&mut lent, 0, &Call::Shares(full.to_vec()), 37);
    // A grow leaves the shares, and its header alone empties the house.
    answered(&mut lent, 2, &Call::Grow(list::header(1)));
    assert_eq!(lent.shares()[7], 4_096);
    answered(&mut lent, 0, &Call::Shares(full.to_vec()));
}

/// Damaged tables of house 5 give 21 to a find in house 2, and to a grow there, which clears nothing; a grow of
/// house 5 itself works, and looks at the other seven.
#[test]
fn a_damaged_house_stops_the_others() {
    let mut lent = cleared();
    answered(&mut lent, 2, &Call::Grow(listing()));
    answered(&mut lent, 5, &Call::Grow(listing()));
    lent.set(5, 5, 4_095, 1);
    for call in [Call::Find(8_192), Call::Open, Call::Grow(listing())] {
        refused(&mut lent, 2, &call, 21);
    }
    for call in [
        Call::Find(8_192),
        Call::Land(listing()),
        Call::Remove(0, 99),
    ] {
        refused(&mut lent, 5, &call, 21);
    }
    refused(&mut lent, 0, &Call::Shares(vec![0; HOUSES]), 21);
    // 37 comes after 21, and a grow of no house looks at all eight.
    for house in [8, 13, 65_536 + 5, u32::MAX] {
        refused(&mut lent, house, &Call::Grow(listing()), 21);
        refused(&mut lent, house, &Call::Open, 21);
    }
    lent.set(2, 0, 0, 4);
    refused(&mut lent, 5, &Call::Grow(listing()), 21);
    lent.set(2, 0, 0, 1);
    answered(&mut lent, 5, &Call::Grow(listing()));
    answered(&mut lent, 2, &Call::Find(8_192));
    for house in [8, 13, 65_536 + 5, u32::MAX] {
        refused(&mut lent, house, &Call::Grow(listing()), 37);
        refused(&mut lent, house, &Call::Open, 37);
    }
}

/// 21 holds too where the larger of share and pipes, summed over them, passes 4,096; a grow's own house is empty there.
#[test]
fn the_sum_gives_21() {
    let mut lent = cleared();
    answered(&mut lent, 0, &Call::Grow(many(2, 50)));
    answered(&mut lent, 1, &Call::Grow(many(2, 10)));
    lent.set(2, 7, 0, 4_036);
    answered(&mut lent, 0, &Call::Open);
    lent.set(2, 7, 0, 4_037);
    for house in [0, 1, 2, 7, 8] {
        refused(&mut lent, house, &Call::Open, 21);
    }
    // Its own 50 pipes do not count, but its share does.
    for house in [2, 7, 8] {
        refused(&mut lent, house, &Call::Grow(many(2, 1)), 21);
    }
    lent.set(0, 7, 0, 50);
    refused(&mut lent, 0, &Call::Grow(many(2, 1)), 21);
    lent.set(0, 7, 0, 49);
    let stopped = lent.call(0, &Call::Grow(many(2, 60)));
    assert_eq!((stopped.first, stopped.refusal), (51, 36));
}

/// 25 looks at every table, and at the shares; it comes before 21 and 37.
#[test]
fn every_size_is_looked_at() {
    let mut lent = cleared();
    lent.set(4, 0, 0, 1);
    for table in 0..LENT {
        let right = right_size(table);
        for size in [0, right / HOUSES, right - 1, right + 1] {
            lent.lend(table, size);
            for call in [Call::Grow(listing()), Call::Open, Call::Remove(0, 0)] {
                assert_eq!(lent.call(8, &call).refusal, 25);
            }
        }
        lent.lend(table, right);
    }
    refused(&mut lent, 8, &Call::Open, 21);
}

/// A removal ends the sheets that were opened before it, and so does a grow; equal again by chance, they go on.
#[test]
fn removals_are_counted() {
    let mut lent = cleared();
    answered(&mut lent, 4, &Call::Grow(listing()));
    let before = opened::open(&held(&mut lent, 4), 0);
    answered(&mut lent, 4, &Call::Fetch(before));
    refused(&mut lent, 4, &Call::Remove(4, 8), 9);
    refused(&mut lent, 4, &Call::Remove(6, 0), 38);
    // The number is one of 32 bits.
    refused(&mut lent, 4, &Call::Remove(65_536, 9), 38);
    assert_eq!(answered(&mut lent, 4, &Call::Remove(4, 9)).first, 3);
    assert_eq!(lent.removals(4), 1);
    refused(&mut lent, 4, &Call::Fetch(before), 39);
    let beyond = OpenSheet {
        removals: 1,
        ..before
    };
    refused(&mut lent, 4, &Call::Fetch(beyond), 33);
    // Another house counts its own.
    answered(&mut lent, 3, &Call::Grow(listing()));
    answered(&mut lent, 3, &Call::Fetch(before));
    refused(&mut lent, 3, &Call::Fetch(beyond), 39);
    // A landing leaves the count, and a grow clears it: a sheet of before goes on.
    answered(&mut lent, 4, &Call::Land(pipes(1, &[])));
    assert_eq!(lent.removals(4), 1);
    answered(&mut lent, 4, &Call::Grow(listing()));
    answered(&mut lent, 4, &Call::Fetch(before));
    refused(&mut lent, 4, &Call::Fetch(beyond), 39);
    // 21 does not see the count; at its largest there is no removal more.
    lent.set(4, 6, 4, u32::MAX);
    answered(&mut lent, 4, &Call::Open);
    refused(&mut lent, 4, &Call::Remove(4, 9), 38);
    // That is looked at before the room.
    refused(&mut lent, 4, &Call::Remove(4, 0), 38);
    lent.set(4, 6, 4, u32::MAX - 1);
    answered(&mut lent, 4, &Call::Remove(4, 9));
    assert_eq!(lent.removals(4), u32::MAX);
}

/// What is done in one house alters no sheet of another.
#[test]
fn other_houses_stay() {
    let mut lent = cleared();
    for house in 0..8 {
        answered(&mut lent, house, &Call::Grow(listing()));
    }
    let sheet = queries::sheet(&held(&mut lent, 0));
    answered(&mut lent, 3, &Call::Remove(4, 9));
    answered(&mut lent, 5, &Call::Land(pipes(2, &[(7, 8, 5)])));
    answered(&mut lent, 6, &Call::Grow(list::header(1)));
    for house in [0, 1, 2, 4, 7] {
        assert_eq!(queries::sheet(&held(&mut lent, house)), sheet);
    }
    let counts = [3, 5, 6].map(|house| held(&mut lent, house).pipes().len());
    assert_eq!(counts, [5, 7, 0]);
}

/// A quote knows neither house nor removals: one with equal parts commits.
#[test]
fn quotes_of_another_house() {
    let mut lent = cleared();
    answered(&mut lent, 1, &Call::Grow(listing()));
    answered(&mut lent, 2, &Call::Grow(listing()));
    let made = quote::quote(&held(&mut lent, 1), one());
    lent.set(2, 6, 4, 17);
    answered(&mut lent, 2, &Call::Commit(made));
    refused(&mut lent, 2, &Call::Commit(made), 32);
    refused(&mut lent, 8, &Call::Commit(made), 37);
    answered(&mut lent, 1, &Call::Commit(made));
}

/// What examples/houses.rattle prints.
#[test]
fn the_example_of_two_houses() {
    let line = |fittings: usize, from: usize, count: usize| {
        let mut records = vec![Record::Fitting; fittings];
        records.extend((from..from + count).map(|at| records::pipe(at, at + 1, 1_000)));
        list::write(2, &records)
    };
    let mut lent = cleared();
    let mut out = String::new();
    let landed = |lent: &mut Lent, out: &mut String, house: u32, list: Vec<u8>| {
        let refusal = lent.call(house, &Call::Land(list)).refusal;
        let at = house as usize;
        let counts = [0, 1].map(|place| lent.number(at, 6, place));
        *out += &format!("{house} {} {} {refusal}\n", counts[0], counts[1]);
    };
    answered(
        &mut lent,
        0,
        &Call::Shares(vec![2, 4_091, 0, 0, 0, 0, 0, 0]),
    );
    landed(&mut lent, &mut out, 0, line(6, 0, 5));
    landed(&mut lent, &mut out, 0, line(1, 5, 1));
    landed(&mut lent, &mut out, 1, line(4, 0, 3));
    let before = held(&mut lent, 0);
    answered(&mut lent, 0, &Call::Remove(2, 12_288));
    let after = held(&mut lent, 0);
    let tags = before.tags().iter().zip(after.tags()).enumerate();
    for (fitting, (old, new)) in tags.filter(|(_, (old, new))| old != new) {
        out += &format!("0 {fitting} {old} {new}\n");
    }
    landed(&mut lent, &mut out, 0, line(0, 5, 1));
    assert_eq!(out, include_str!("../../examples/houses.out"));
}

//! Random series of calls for eight houses over lent tables: refused calls, stopped lists, damaged tables,
//! what is lent in wrong sizes, short slices, numbers that are no house's, shares and removals included.

use std::collections::BTreeSet;
use std::rc::Rc;

use super::random::Random;
use super::shapes::{self, Shape};
use super::{full, list, pipes, version, whole_of};
use crate::house::{House, LARGEST_VOLUME};
use crate::lent::{right_size, Call, Command, Lent, BYTES, LENT, NOT_CLEARED, SIZES, SLICE};
use crate::licence::{overfull, Licence, HOUSES, LICENSED_PIPES};
use crate::list::{self as lists, Record};
use crate::opened::{self, OpenSheet};
use crate::queries;
use crate::quote::{self, Quote};
use crate::removal;

/// No longer list has room in the program that is asked.
const LONGEST_LIST: usize = 65_536;
/// A list of full size is grown then, of a kind that goes by the number of the series. The first six
/// series have three kinds of full rings, and lists that stop with 22 and 23.
const FULL_SIZE_TURN: usize = 30;
const FIRST_FULL_SIZE: usize = 12;
/// For so many turns it is the only house with pipes, or leaves only few of them to the others; then all are cleared.
const AFTER_FULL_SIZE: usize = 6;

/// Every call is made then with something lent in a wrong size, which goes by the number of the series; for a number
/// that is no house's; and while another house is damaged.
const WRONG_SIZE_TURN: usize = 10;
const NO_HOUSE_TURN: usize = 13;
const DAMAGED_TURN: usize = 16;
/// A house with more pipes in its head than there may be is grown then.
const FORGED_HEAD_TURN: usize = 19;

/// The most tags that are asked for in turn.
const MOST_TAGS: usize = 40;

/// The most sheets that are kept open, and the most lines that are fetched in one go.
const MOST_SHEETS: usize = 12;
const MOST_LINES: usize = 6;

/// Numbers that are no house's; in their low bits some of them name one.
const NO_HOUSE: &[u32] = &[8, 9, 15, 255, 256, 258, 65_536, 65_538, 1 << 31, u32::MAX];

/// Shapes that leave rings standing.
const WITH_RINGS: &[Shape] = &[
    shapes::rings,
    shapes::rings,
    shapes::ring_around,
    shapes::line_grown_and_closed,
    shapes::tapped_rings,
];

/// What a series is drawn from.
pub struct Source {
    pub random: Random,
    /// Its number among the series of a seed.
    pub number: usize,
    /// The seed of its lists.
    pub lists: u64,
    /// The house that most calls are for.
    pub busy: usize,
    /// Sheets that are open, some since long ago, and their houses.
    pub sheets: Vec<(usize, OpenSheet)>,
}

/// One of the eight as it is now.
struct Now {
    number: usize,
    /// Empty where the tables hold none.
    house: Rc<House>,
    removals: u32,
    licence: Licence,
}

impl Now {
    fn of(lent: &mut Lent, number: usize) -> Self {
        Now {
            number,
            house: lent.house(number).unwrap_or_default(),
            removals: lent.removals(number),
            licence: lent.licence(number),
        }
    }

    fn call(&self, call: Call) -> Command {
        command(self.number, call)
    }
}

fn command(house: usize, call: Call) -> Command {
    Command::Call(u32::try_from(house).expect("below 8"), call)
}

/// A few commands that go well with what the tables hold now.
pub fn next(source: &mut Source, turn: usize, lent: &mut Lent) -> Vec<Command> {
    let random = &mut source.random;
    if turn == 0 {
        return first_calls(random, lent);
    }
    let mut repairs = repairs(lent);
    if turn == FULL_SIZE_TURN {
        repairs.extend(full_size(source, lent));
        return repairs;
    }
    if random.one_in(10) {
        source.busy = random.below(HOUSES);
    }
    let number = some_house(random, source.busy, lent);
    let now = &Now::of(lent, number);
    if !repairs.is_empty() {
        repairs.insert(0, now.call(question(random, now)));
        return repairs;
    }
    if (FULL_SIZE_TURN..=FULL_SIZE_TURN + AFTER_FULL_SIZE).contains(&turn) {
        return beside_a_large_one(random, lent);
    }
    if turn == FULL_SIZE_TURN + AFTER_FULL_SIZE + 1 {
        // A large house makes every call slow.
        return shared_out(source, turn, lent);
    }
    match turn {
        WRONG_SIZE_TURN => {
            let table = (source.number + 12) % LENT;
            let right = right_size(table);
            let wrong = random.pick(&[0, right - 1, right + 1]);
            let mut commands = vec![Command::Lend(table, wrong)];
            commands.extend(
                each_call(random, now)
                    .into_iter()
                    .map(|call| now.call(call)),
            );
            commands.push(Command::Lend(table, right));
            return commands;
        }
        NO_HOUSE_TURN => {
            let calls = each_call(random, now).into_iter();
            let no_house = |call| Command::Call(random.pick(NO_HOUSE), call);
            return calls.map(no_house).collect();
        }
        DAMAGED_TURN => {
            let other = (now.number + random.between(1, HOUSES - 1)) % HOUSES;
            let (table, place) = (random.pick(&[0, 1, 5]), 4_095);
            let old = lent.number(other, table, place);
            let mut commands = vec![Command::Set(other, table, place, old + 1)];
            commands.extend(
                each_call(random, now)
                    .into_iter()
                    .map(|call| now.call(call)),
            );
            commands.push(Command::Set(other, table, place, old));
            return commands;
        }
        FORGED_HEAD_TURN => {
            // A grow counts its own house as empty in the sum, whatever its head says.
            return vec![
                Command::Set(now.number, 6, 1, random.pick(&[4_097, 65_535])),
                now.call(question(random, now)),
                now.call(grow(source, turn)),
            ];
        }
        _ => {}
    }
    if now.house.pipes().is_empty() && random.one_in(2) {
        return vec![now.call(grow(source, turn))];
    }
    match random.below(49) {
        0..=2 => vec![now.call(grow(source, turn)), now.call(Call::Sheet(SLICE))],
        3 => with_wrong_size(random, now),
        4..=7 => with_damage(random, lent, now),
        8 => written_back(source, turn, now),
        9..=13 => vec![now.call(land(random, now)), now.call(Call::Sheet(SLICE))],
        14..=19 => vec![now.call(land(random, now))],
        20 | 32 => one_by_one(random, now),
        21 => committed(random, now),
        22 => every_tag(now),
        23..=25 => fetches(source, now),
        26..=28 => removals(random, now),
        29 => shared_out(source, turn, lent),
        30 => vec![shares_refused(random)],
        31 => no_house(random, now),
        _ => vec![now.call(question(random, now))],
    }
}

/// Mostly the busy one, or one with pipes.
fn some_house(random: &mut Random, busy: usize, lent: &Lent) -> usize {
    let any = random.below(HOUSES);
    let pipes = lent.pipes();
    let around = (any..HOUSES).chain(0..any);
    let with_pipes = around.into_iter().find(|&house| pipes[house] > 1);
    let with_pipes = with_pipes.unwrap_or(busy);
    random.pick(&[busy, busy, with_pipes, with_pipes, any])
}

/// What ends 21, where something was damaged for good: the greatest share falls, and a house is cleared.
fn repairs(lent: &mut Lent) -> Vec<Command> {
    let mut repairs = Vec::new();
    if overfull(lent.shares(), lent.pipes()) {
        let greatest = (0..HOUSES).max_by_key(|&house| lent.shares()[house]);
        repairs.push(Command::Set(greatest.unwrap_or(0), 7, 0, 0));
    }
    for number in 0..HOUSES {
        if lent.house(number).is_none() {
            repairs.push(command(number, Call::Grow(lists::header(1))));
        }
    }
    repairs
}

/// One house is not cleared: 21 for every house but itself, and only a grow of it helps.
fn first_calls(random: &mut Random, lent: &mut Lent) -> Vec<Command> {
    let mut commands = Vec::new();
    for number in [0, NOT_CLEARED, HOUSES - 1] {
        let now = &Now::of(lent, number);
        commands.push(now.call(question(random, now)));
        if number != NOT_CLEARED {
            commands.push(now.call(Call::Grow(lists::header(2))));
        }
    }
    // In its low bits 13 is the house that is not cleared.
    for no_house in [8, 13] {
        commands.push(Command::Call(no_house, Call::Grow(lists::header(2))));
    }
    commands.push(command(0, Call::Shares(vec![0; HOUSES])));
    commands.push(command(NOT_CLEARED, Call::Grow(lists::header(2))));
    commands
}

/// Every house with fittings is cleared.
fn cleared(random: &mut Random, lent: &mut Lent) -> Vec<Command> {
    let mut commands = Vec::new();
    for number in 0..HOUSES {
        if lent.number(number, 6, 0) > 0 {
            commands.push(command(number, Call::Grow(lists::header(version(random)))));
        }
    }
    commands
}

/// Shares that leave only few pipes to houses without one, or all; or none are set.
fn drawn_shares(random: &mut Random) -> Vec<u16> {
    let mut shares = [0; HOUSES];
    if random.one_in(4) {
        return vec![0; HOUSES];
    }
    // What is guaranteed to nobody.
    let open = random.pick(&[0, 1, 3, 10, 40, 200, 4_000]);
    let mut left = LICENSED_PIPES - open;
    for _ in 0..random.between(1, 4) {
        let share = random.below(left.min(12) + 1);
        shares[random.below(HOUSES)] += share;
        left -= share;
    }
    shares[random.below(HOUSES)] += left;
    let narrow = |share| u16::try_from(share).expect("at most 4,096");
    shares.into_iter().map(narrow).collect()
}

/// All houses are cleared, the shares set, and small houses grown and landed on in turn.
fn shared_out(source: &mut Source, turn: usize, lent: &mut Lent) -> Vec<Command> {
    let random = &mut source.random;
    let mut commands = Vec::new();
    if random.one_in(2) {
        commands.push(shares_refused(random));
    }
    commands.extend(cleared(random, lent));
    let shares = drawn_shares(random);
    if random.one_in(2) {
        // A fitting is enough; and so is a sum of one too many.
        let any = random.below(HOUSES);
        let fitting = lists::write(version(random), &[Record::Fitting]);
        commands.push(command(any, Call::Land(fitting)));
        commands.push(command(any, Call::Shares(shares.clone())));
        commands.push(command(any, Call::Grow(lists::header(2))));
    }
    let mut over = shares.clone();
    let sum: usize = shares.iter().map(|&share| usize::from(share)).sum();
    over[random.below(HOUSES)] += u16::try_from(LICENSED_PIPES + 1 - sum).expect("16 bits");
    commands.push(command(0, Call::Shares(over)));
    // Mostly the house with the greatest share, which then has room.
    let greatest = (0..HOUSES).max_by_key(|&house| shares[house]);
    source.busy = random.pick(&[source.busy, greatest.unwrap_or(0), greatest.unwrap_or(0)]);
    commands.push(command(0, Call::Shares(shares)));
    for _ in 0..random.between(1, 4) {
        let any = source.random.below(HOUSES);
        let number = source.random.pick(&[any, any, source.busy]);
        commands.push(command(number, grow(source, turn)));
    }
    commands
}

/// A sum of 4,097 or far more, shares for another number of houses, or any where houses are not empty.
fn shares_refused(random: &mut Random) -> Command {
    let mut shares = drawn_shares(random);
    let place = random.below(HOUSES);
    match random.below(5) {
        0 => shares[place] += 4_097,
        1 => {
            shares = vec![0; HOUSES];
            shares[place] = 4_096;
            shares[(place + 1) % HOUSES] = 1;
        }
        2 => shares = vec![u16::MAX; HOUSES],
        3 => shares = vec![0; random.pick(&[0, 1, 7, 9, 16])],
        _ => {}
    }
    command(place, Call::Shares(shares))
}

/// Calls for numbers that are no house's.
fn no_house(random: &mut Random, now: &Now) -> Vec<Command> {
    let calls = (0..random.between(1, 4)).map(|_| {
        let call = any_call(random, now);
        Command::Call(random.pick(NO_HOUSE), call)
    });
    calls.collect()
}

/// One house alone has pipes, and no share is set, or it has a share: it is grown to full size.
fn full_size(source: &mut Source, lent: &mut Lent) -> Vec<Command> {
    let random = &mut source.random;
    let list = full::list(random, FIRST_FULL_SIZE + source.number);
    source.busy = source.number % HOUSES;
    let mut shares = vec![0; HOUSES];
    shares[source.busy] = random.pick(&[0, 100, 4_000, 4_096]);
    let house = lists::grow(&list).0;
    let mut commands = cleared(random, lent);
    commands.push(command(0, Call::Shares(shares)));
    commands.push(command(source.busy, Call::Grow(list)));
    let now = &Now {
        number: source.busy,
        house: Rc::new(house),
        removals: 0,
        licence: Licence::none(),
    };
    commands.extend(committed(random, now));
    commands
}

/// Few pipes are left to the other houses, or none: some are landed there and here; now and then a pipe is taken out.
fn beside_a_large_one(random: &mut Random, lent: &mut Lent) -> Vec<Command> {
    let mut commands = Vec::new();
    for _ in 0..2 {
        let now = &Now::of(lent, random.below(HOUSES));
        let call = match random.below(6) {
            0 => Call::Remove(number_of(random.below(4_096)), SLICE),
            1 => commit(random, now),
            2 => question(random, now),
            _ => land(random, now),
        };
        commands.push(now.call(call));
    }
    commands
}

/// Pipes are taken out: any, with as much room as the report needs, or less, or more; those behind the last;
/// a sheet that was opened before is fetched from, and the rest is asked about.
fn removals(random: &mut Random, now: &Now) -> Vec<Command> {
    let count = now.house.pipes().len();
    let mut commands = Vec::new();
    let opened = opened::open(&now.house, now.removals);
    if random.one_in(3) {
        commands.extend([now.call(Call::Open), now.call(Call::Fetch(opened))]);
    }
    if count > 0 && random.one_in(3) {
        // No removal more, or the last one.
        let counted = random.pick(&[u32::MAX, u32::MAX - 1]);
        commands.push(Command::Set(now.number, 6, 4, counted));
        commands.push(now.call(Call::Remove(0, SLICE)));
    }
    for _ in 0..random.between(1, 2) {
        commands.push(now.call(remove(random, now)));
    }
    match random.below(4) {
        0 => commands.push(now.call(Call::Fetch(opened))),
        1 => commands.push(now.call(Call::Remove(number_of(count), SLICE))),
        2 => commands.push(now.call(Call::Sheet(SLICE))),
        _ => commands.push(now.call(land(random, now))),
    }
    commands
}

fn remove(random: &mut Random, now: &Now) -> Call {
    let count = now.house.pipes().len();
    let any = random.below(count + 1);
    // The last two are a pipe's number where only 16 bits of them are looked at.
    let last = count.saturating_sub(1);
    let pipe = random.pick(&[
        any,
        any,
        any,
        any,
        any,
        0,
        last,
        65_536 + any,
        4_294_901_760,
    ]);
    let report = removal::remove(&now.house, 0, pipe, usize::MAX);
    let needs = report.map_or(0, |(_, report)| 3 * report.len());
    Call::Remove(number_of(pipe), room(random, needs, SLICE))
}

fn number_of(pipe: usize) -> u32 {
    u32::try_from(pipe).expect("32 bits")
}

/// A list of some kind, or of a house with rings.
fn grow(source: &mut Source, turn: usize) -> Call {
    let random = &mut source.random;
    let mut list = if random.one_in(2) {
        list(source.lists, turn)
    } else {
        let shape = random.pick(WITH_RINGS);
        let size = random.between(2, 24);
        let records = whole_of(random, shape, size);
        lists::write(version(random), &records)
    };
    list.truncate(LONGEST_LIST);
    if random.one_in(30) {
        damage_mark(random, &mut list);
    }
    Call::Grow(list)
}

/// A few records drawn from the fittings landed so far, by their degrees, and some that are refused; in
/// either version, so that pipes of both come to one register.
fn land(random: &mut Random, now: &Now) -> Call {
    let mut after = (*now.house).clone();
    let mut landed = Vec::new();
    for _ in 0..random.below(16) {
        let record = pipes::record(random, &after);
        // A refused record is not the last: nothing after it may be read.
        let _ = lists::land_record(&mut after, record);
        landed.push(record);
    }
    let mut list = lists::write(version(random), &landed);
    match random.below(20) {
        0 => list.truncate(random.below(list.len() + 1)),
        1 => list.push(random.byte()),
        // No version, or the other one.
        2 => list[3] ^= random.pick(&[2, 3, 4]),
        3 => damage_mark(random, &mut list),
        _ => {}
    }
    Call::Land(list)
}

/// One bit of a list's mark is another, if the byte is there.
fn damage_mark(random: &mut Random, list: &mut [u8]) {
    let (place, bit) = (random.below(3), random.below(8));
    if let Some(byte) = list.get_mut(place) {
        *byte ^= 1 << bit;
    }
}

/// A pipe is quoted and its quote committed: at once; after something was landed; twice; in another house; or
/// with one part forged.
fn committed(random: &mut Random, now: &Now) -> Vec<Command> {
    let made = quote::quote_on(&now.licence, &now.house, pipes::pipe(random, &now.house));
    let [quoted, commit] = pair(now, made);
    match random.below(9) {
        0 | 1 => vec![quoted, commit],
        2 => vec![quoted, commit.clone(), commit],
        3 => vec![quoted, now.call(land(random, now)), commit],
        4 => vec![
            quoted,
            command(random.below(HOUSES), Call::Commit(made)),
            commit,
        ],
        _ => vec![now.call(Call::Commit(forged_quote(random, made)))],
    }
}

/// A quote, and its commit.
fn pair(now: &Now, made: Quote) -> [Command; 2] {
    [Call::Quote(made.pipe), Call::Commit(made)].map(|call| now.call(call))
}

/// A house of lines and rings, and then some pipes, each quoted and committed, refused ones among them.
fn one_by_one(random: &mut Random, now: &Now) -> Vec<Command> {
    let size = random.between(8, 30);
    let records = whole_of(random, shapes::lines_and_rings, size);
    let list = lists::write(version(random), &records);
    let mut house = House::default();
    // It may stop for the limit.
    let _ = lists::land_on(&now.licence, &mut house, &list);
    let mut commands = vec![now.call(Call::Grow(list))];
    for _ in 0..random.between(4, 12) {
        let made = quote::quote_on(&now.licence, &house, pipes::pipe(random, &house));
        // What is declined changes nothing.
        let _ = quote::commit_on(&now.licence, &mut house, &made);
        commands.extend(pair(now, made));
    }
    commands
}

/// The commit of a quote made now, before the tables are damaged.
fn commit(random: &mut Random, now: &Now) -> Call {
    let pipe = pipes::pipe(random, &now.house);
    Call::Commit(quote::quote_on(&now.licence, &now.house, pipe))
}

/// One part is another.
fn forged_quote(random: &mut Random, quote: Quote) -> Quote {
    let mut forged = quote;
    let any = random.u32();
    match random.below(9) {
        0 => forged.pipe.first = random.pick(&[0, quote.pipe.first ^ 1, 65_535]),
        1 => forged.pipe.second = random.pick(&[0, quote.pipe.second ^ 1, 65_535]),
        2 => forged.pipe.length = random.pick(&[quote.pipe.length ^ 1, 0, any]),
        3 => forged.pipe.volume = random.pick(&[quote.pipe.volume ^ 1, 0, any]),
        4 => forged.fittings = (quote.fittings + 1) & 0xFFFF,
        5 => forged.pipes = (quote.pipes ^ 1) & 0xFFFF,
        6 => forged.terms = quote.terms.map(|(case, count)| (case % 7 + 1, count)),
        7 => forged.terms = quote.terms.map(|(case, count)| (case, count ^ 1)),
        _ => forged.terms = Err(random.pick(&[5, 6, 7, 9, 21, 23, 31, 32, 36])),
    }
    forged
}

/// Every question, also about numbers that are no fitting and tags that are not worn.
fn question(random: &mut Random, now: &Now) -> Call {
    let house = &*now.house;
    let fittings = house.fittings();
    match random.below(12) {
        10 => Call::Quote(pipes::pipe(random, house)),
        0 | 1 => Call::Find(tag(random, house)),
        2 | 3 => Call::FindAt(coupling(random, house)),
        4 | 5 => Call::Distance(fitting(random, fittings), fitting(random, fittings)),
        6 | 7 => {
            let needs = 6 * queries::sheet(house).len();
            Call::Sheet(room(random, needs, SLICE))
        }
        8 => Call::Open,
        9 => Call::Fetch(opened_before(random, now)),
        _ => {
            let needs = lists::written(house).len();
            Call::Write(room(random, needs, BYTES))
        }
    }
}

/// A sheet as it was opened at some pipe of this register, at one of its first lines.
fn opened_before(random: &mut Random, now: &Now) -> OpenSheet {
    let open = opened::open(&now.house, now.removals);
    let pipes = random.below(usize::from(open.pipes) + 1);
    let [pipes, place] = [pipes, random.below(4)].map(|n| u16::try_from(n).expect("16 bits"));
    OpenSheet {
        pipes: random.pick(&[pipes, open.pipes]),
        place,
        ..open
    }
}

/// Every tag that is worn, those beside them, 0 and the greatest number; of a large house some of them.
fn every_tag(now: &Now) -> Vec<Command> {
    let tags = now.house.tags();
    let worn = tags.iter().filter(|&&tag| tag != 0);
    let near = worn.flat_map(|&tag| [tag - 1, tag, tag + 1]);
    let asked: BTreeSet<u32> = near.chain([0, u32::MAX]).collect();
    let step = 1 + asked.len() / MOST_TAGS;
    let finds = asked.into_iter().step_by(step).map(Call::Find);
    finds.map(|find| now.call(find)).collect()
}

/// A worn tag or one beside it, or any.
fn tag(random: &mut Random, house: &House) -> u32 {
    let tags = house.tags().iter().copied();
    let worn: Vec<u32> = tags.filter(|&tag| tag != 0).collect();
    if worn.is_empty() || random.one_in(10) {
        return random.pick(&[0, 1, 8_192, u32::MAX]);
    }
    let tag = random.pick(&worn);
    random.pick(&[tag, tag, tag, tag - 1, tag + 1])
}

/// Mostly a coupling.
fn coupling(random: &mut Random, house: &House) -> u16 {
    let tags = house.tags();
    let worn: Vec<usize> = (0..tags.len()).filter(|&at| tags[at] != 0).collect();
    if worn.is_empty() || random.one_in(3) {
        return fitting(random, tags.len());
    }
    u16::try_from(random.pick(&worn)).expect("16 bits")
}

fn fitting(random: &mut Random, fittings: usize) -> u16 {
    let landed = random.below(fittings + 1);
    let number = if random.one_in(15) {
        random.pick(&[fittings, 4_095, 4_096, 65_535])
    } else {
        landed
    };
    u16::try_from(number).expect("16 bits")
}

/// As much as an answer needs, or less, or more.
fn room(random: &mut Random, needs: usize, most: usize) -> usize {
    let less = random.below(needs + 1);
    let more = random.between(needs, most);
    let near = [needs.saturating_sub(1), needs, needs, needs + 1];
    random.pick(&[near[0], near[1], near[2], near[3], less, more, most])
}

/// A sheet is opened, or one that is open is fetched from, with landings and removals between: from its place on,
/// near its end, or behind it; now and then in another house. Any number may be a sheet's.
fn fetches(source: &mut Source, now: &Now) -> Vec<Command> {
    let random = &mut source.random;
    let of_house = |(house, _): &(usize, OpenSheet)| *house == now.number;
    let own = source.sheets.iter().any(of_house);
    if !own || random.one_in(4) {
        if source.sheets.len() == MOST_SHEETS {
            source.sheets.swap_remove(random.below(MOST_SHEETS));
        }
        let open = opened::open(&now.house, now.removals);
        source.sheets.push((now.number, open));
        if own || random.one_in(2) {
            return vec![now.call(Call::Open)];
        }
    }
    let last = source.sheets.iter().rposition(of_house);
    let any = random.below(source.sheets.len());
    let last = last.unwrap_or(any);
    let kept = random.pick(&[any, last, last, last, last]);
    let mut sheet = source.sheets[kept].1;
    let lines = opened::lines(&now.house, sheet);
    let count = u16::try_from(lines.map_or(0, |lines| lines.len())).expect("at most 4,096");
    match random.below(12) {
        0 => sheet.place = count.saturating_sub(1),
        1 => sheet.place = random.pick(&[count, count + 1, u16::MAX]),
        2 => sheet = forged_sheet(random, sheet, now),
        _ => {}
    }
    let mut commands = Vec::new();
    for _ in 0..random.between(1, MOST_LINES) {
        commands.push(now.call(Call::Fetch(sheet)));
        if sheet.place < count {
            sheet.place += 1;
        }
        match random.below(20) {
            0..=3 => commands.push(now.call(land(random, now))),
            4 => commands.push(now.call(remove(random, now))),
            _ => {}
        }
    }
    source.sheets[kept].1 = sheet;
    commands
}

/// A sheet that no opening gave, or not of this register: a count is changed by a little, or for any.
fn forged_sheet(random: &mut Random, sheet: OpenSheet, now: &Now) -> OpenSheet {
    let open = opened::open(&now.house, now.removals);
    let near = |random: &mut Random, count: u16| {
        let any = u16::from_le_bytes([random.byte(), random.byte()]);
        random.pick(&[count, count.saturating_sub(1), count.saturating_add(1), any])
    };
    let any = |random: &mut Random, most: u16| {
        let most = usize::from(most);
        u16::try_from(random.below(most + 1)).expect("16 bits")
    };
    match random.below(5) {
        0 => OpenSheet {
            fittings: near(random, open.fittings),
            ..open
        },
        1 => OpenSheet {
            pipes: near(random, open.pipes),
            ..open
        },
        2 => OpenSheet {
            fittings: any(random, open.fittings),
            ..sheet
        },
        3 => OpenSheet {
            removals: random.pick(&[
                now.removals ^ 1,
                0,
                now.removals.wrapping_add(65_536),
                u32::MAX,
            ]),
            ..open
        },
        _ => OpenSheet {
            pipes: any(random, open.pipes),
            ..open
        },
    }
}

/// The list is written; another house is grown in its place, so that the tables hold something else; then the
/// list is grown whole, and in two parts, and written after each: one register reached by three lists. In
/// another house the list may meet the limit; in its own it does not.
fn written_back(source: &mut Source, turn: usize, now: &Now) -> Vec<Command> {
    let written = lists::written(&now.house);
    let of_pipe = 1 + lists::pipe_body(lists::WRITTEN);
    let pipes = now.house.pipes().len();
    let cut = 5 + now.house.fittings() + of_pipe * source.random.below(pipes + 1);
    let rest = [&lists::header(lists::WRITTEN)[..], &written[cut..]].concat();
    let other = source.random.below(HOUSES);
    let mut commands = vec![
        now.call(Call::Write(BYTES)),
        now.call(grow(source, turn)),
        now.call(Call::Grow(written.clone())),
        now.call(Call::Write(BYTES)),
        now.call(grow(source, turn + 1)),
        now.call(Call::Grow(written[..cut].to_vec())),
        now.call(Call::Land(rest)),
        now.call(Call::Write(BYTES)),
    ];
    if source.random.one_in(3) {
        commands.push(command(other, Call::Grow(written)));
    }
    commands
}

/// Every call.
fn each_call(random: &mut Random, now: &Now) -> Vec<Call> {
    vec![
        Call::Open,
        Call::Fetch(opened_before(random, now)),
        land(random, now),
        Call::Find(tag(random, &now.house)),
        Call::FindAt(coupling(random, &now.house)),
        Call::Distance(0, 1),
        Call::Sheet(SLICE),
        Call::Write(BYTES),
        Call::Quote(pipes::pipe(random, &now.house)),
        commit(random, now),
        Call::Remove(0, SLICE),
        Call::Shares(drawn_shares(random)),
        Call::Grow(lists::write(2, &[Record::Fitting; 3])),
    ]
}

/// One call of any kind.
fn any_call(random: &mut Random, now: &Now) -> Call {
    match random.below(8) {
        4 => commit(random, now),
        5 => remove(random, now),
        6 => Call::Shares(drawn_shares(random)),
        0 => land(random, now),
        1 => Call::Grow(lists::header(version(random))),
        _ => question(random, now),
    }
}

/// Calls with a table, or the shares, too short or too long, and then with the right sizes again.
fn with_wrong_size(random: &mut Random, now: &Now) -> Vec<Command> {
    let table = random.below(LENT);
    let right = right_size(table);
    let wrong = random.pick(&[0, 1, right / 8, right / 2, right - 1, right + 1]);
    let mut commands = vec![Command::Lend(table, wrong)];
    for _ in 0..random.between(1, 3) {
        commands.push(now.call(any_call(random, now)));
    }
    if random.one_in(3) {
        commands.push(now.call(Call::Write(BYTES)));
    }
    if random.one_in(3) {
        let call = any_call(random, now);
        commands.push(Command::Call(random.pick(NO_HOUSE), call));
    }
    commands.push(Command::Lend(table, right));
    commands.push(now.call(question(random, now)));
    commands
}

/// Calls with one number changed, in their own house or in another. Mostly it is put back then; not so before
/// a grow of that house, which clears. A grow of another house clears nothing.
fn with_damage(random: &mut Random, lent: &mut Lent, now: &Now) -> Vec<Command> {
    let other = random.below(HOUSES);
    let damaged = &Now::of(lent, random.pick(&[now.number, other, other]));
    let (table, place) = place(random, &damaged.house);
    let old = lent.number(damaged.number, table, place);
    let any = random.u32();
    let above = LARGEST_VOLUME + 1;
    let new = match table {
        7 => random.pick(&[old ^ 1, 0, 1, 4_000, 4_096, 4_097, any]),
        6 if place == 4 => random.pick(&[old.wrapping_add(1), 0, u32::MAX, u32::MAX - 1, any]),
        _ => random.pick(&[old ^ 1, old.wrapping_add(1), 0, 1, above, any]),
    };
    // The first three tables, the first three counts and the shares have 16 bits.
    let wide = [3, 4, 5].contains(&table) || (table == 6 && place >= 3);
    let new = if wide { new } else { new & 0xFFFF };
    let mut commands = vec![Command::Set(damaged.number, table, place, new)];
    for _ in 0..random.between(1, 3) {
        let call = match random.below(8) {
            0 => Call::Grow(lists::write(1, &[Record::Fitting; 2])),
            1 => Call::Shares(vec![0; HOUSES]),
            2 => remove(random, now),
            3 => commit(random, now),
            4 | 5 => land(random, now),
            _ => question(random, now),
        };
        // The own house of a grow may hold anything; here it is another.
        let number = match call {
            Call::Grow(_) if now.number == damaged.number => (now.number + 1) % HOUSES,
            _ => now.number,
        };
        let house = if random.one_in(12) {
            random.pick(NO_HOUSE)
        } else {
            u32::try_from(number).expect("below 8")
        };
        commands.push(Command::Call(house, call));
    }
    // A count of removals and a share may stay as they are; a number that is put back where a call wrote
    // meanwhile is damage again, until its house is grown.
    let grown = Call::Grow(lists::write(2, &[Record::Fitting; 3]));
    let put_back = Command::Set(damaged.number, table, place, old);
    match random.below(8) {
        0 => commands.push(damaged.call(grown)),
        1 => commands.extend([put_back, damaged.call(grown)]),
        _ => commands.push(put_back),
    }
    commands
}

/// A place in a table or in the head, mostly one that is in use or the next one; or the share.
fn place(random: &mut Random, house: &House) -> (usize, usize) {
    let table = random.below(SIZES.len() + 2);
    let Some(&size) = SIZES.get(table) else {
        return (table, if table == 6 { random.below(5) } else { 0 });
    };
    let counts = [house.fittings(), house.pipes().len()];
    let used = [
        counts[0],
        2 * counts[0],
        2 * counts[1],
        counts[1],
        counts[1],
        counts[0],
    ][table];
    let near = random.below(used + 1).min(size - 1);
    let far = random.below(size);
    (table, random.pick(&[near, near, near, far]))
}

//! Calls for eight houses over lent tables (document 01, "What may be called"; document 02, S-10 and S-11;
//! docs/TABLES.md).
//!
//! The tables are numbers in the caller's hands, which anyone may have written to. What they hold is
//! worked out afresh where they were written to: refusal 21 is decided by growing their own fittings and
//! pipes from empty and comparing, house by house, and by the sum.

use std::fmt;
use std::rc::Rc;

use crate::house::{Fitting, House, Pipe, PipeNumber, MOST_FITTINGS, MOST_PIPES};
use crate::licence::{overfull, Licence, HOUSES, LICENSED_PIPES};
use crate::list;
use crate::opened::{self, Fetched, OpenSheet};
use crate::queries::{self, Found};
use crate::quote::{self, Quote};
use crate::refusal::Refusal;
use crate::removal;

/// Numbers of degrees, sides, ends, lengths, volumes and labels, of one house.
pub const SIZES: [usize; 6] = [
    MOST_FITTINGS,
    2 * MOST_FITTINGS,
    2 * MOST_PIPES,
    MOST_PIPES,
    MOST_PIPES,
    MOST_FITTINGS,
];
/// What is lent, by number: the tables of all houses, those of the scratch, the shares.
pub const LENT: usize = 13;
/// The numbers of the slice that a sheet or a report is lent a part of, and the bytes of the one that a
/// list is written to.
pub const SLICE: usize = 24_586;
pub const BYTES: usize = 57_354;
/// What the slice holds before a call.
const SLICE_BEFORE: u32 = 77;
/// What the tables of one house hold at first, and always the number behind each table and behind the
/// shares, which is lent only where that is lent too large.
const BEFORE: u32 = 9;
pub const NOT_CLEARED: usize = 5;

const NOT_GROWN: u32 = 21;
const WRONG_SIZE: u32 = 25;
const OUT_OF_PLACE: u32 = 37;

/// Degrees, sides, ends, lengths, volumes and labels of one house, by their right sizes.
pub type Tables = [Vec<u32>; 6];

/// Fittings, pipes, births and the re-hung total.
pub type Head = [u32; 4];

/// The right size of what is lent.
pub fn right_size(lent: usize) -> usize {
    match lent {
        0..6 => HOUSES * SIZES[lent],
        6..12 => SIZES[lent - 6],
        _ => HOUSES,
    }
}

/// The tables and the head that a house leaves.
pub fn tables_of(house: &House) -> (Tables, Head) {
    let mut tables = SIZES.map(|size| vec![0; size]);
    for (number, pipe) in house.pipes().iter().enumerate() {
        tables[2][2 * number] = number_of(pipe.first);
        tables[2][2 * number + 1] = number_of(pipe.second);
        tables[3][number] = pipe.length;
        tables[4][number] = pipe.volume;
    }
    for fitting in 0..house.fittings() {
        tables[0][fitting] = number_of(house.degree(fitting));
        let [low, high] = sides(house, fitting);
        tables[1][2 * fitting] = number_of(low);
        tables[1][2 * fitting + 1] = number_of(high);
        tables[5][fitting] = house.tags()[fitting];
    }
    let counts = [house.fittings(), house.pipes().len()].map(number_of);
    let head = [counts[0], counts[1], house.births(), house.re_hung()];
    (tables, head)
}

/// The pipes on the low and the high side of a coupling; the pipe of a free end, then 0; else 0, 0.
fn sides(house: &House, fitting: Fitting) -> [PipeNumber; 2] {
    let on_run = || house.run_through(fitting)?.sides(fitting);
    let on_ring = || house.ring_through(fitting)?.sides(fitting);
    let of_end = || {
        let ends_here = |pipe: &Pipe| [pipe.first, pipe.second].contains(&fitting);
        Some([house.pipes().iter().position(ends_here)?, 0])
    };
    let sides = match house.degree(fitting) {
        1 => of_end(),
        2 => on_run().or_else(on_ring),
        _ => None,
    };
    sides.unwrap_or([0, 0])
}

/// The name and the coupling in one number, the two lengths in another.
fn packed(found: Found) -> (u64, u64) {
    let name = u64::from(number_of(found.name));
    let lengths = u64::from(found.low) << 32 | u64::from(found.high);
    (name << 16 | u64::from(number_of(found.coupling)), lengths)
}

/// An opened sheet in two numbers: below `kind`, which is 0 as it was opened, 1 with a line, 2 where it is
/// done; and its removals above the hash of a line.
fn packed_sheet(kind: u64, sheet: OpenSheet, line: u64) -> (u64, u64) {
    let numbers = [sheet.fittings, sheet.pipes, sheet.place];
    let one = |packed, number| packed << 16 | u64::from(number);
    let first = numbers.into_iter().fold(kind, one);
    (first, u64::from(sheet.removals) << 32 | line)
}

/// Whether this is the first number of an answer that a sheet is done.
pub fn is_done(first: u64) -> bool {
    first >> 48 == 2
}

/// A line by its hash.
fn packed_fetch(fetched: Fetched) -> (u64, u64) {
    match fetched {
        Fetched::Line(line, next) => packed_sheet(1, next, hash(&line)),
        Fetched::Done(sheet) => packed_sheet(2, sheet, 0),
    }
}

fn number_of(count: usize) -> u32 {
    u32::try_from(count).expect("at most 57,349")
}

/// A call by its arguments.
#[derive(Clone, Debug)]
pub enum Call {
    Grow(Vec<u8>),
    Land(Vec<u8>),
    Find(u32),
    FindAt(u16),
    Distance(u16, u16),
    /// Into so many numbers.
    Sheet(usize),
    /// Into so many bytes.
    Write(usize),
    Quote(Pipe),
    Commit(Quote),
    Open,
    Fetch(OpenSheet),
    /// The pipe of this number, into so many numbers.
    Remove(u32, usize),
    /// For all houses.
    Shares(Vec<u16>),
}

/// What is done to what is lent.
#[derive(Clone, Debug)]
pub enum Command {
    /// For the house of this number; nobody asks for it where shares are set.
    Call(u32, Call),
    /// Of this house, number `place` of a table becomes this; or of its head (6), where the count of
    /// removals is the fifth; or its share (7).
    Set(usize, usize, usize, u32),
    /// A table is lent with this size from now on; 6 and up are the scratch, 12 the shares.
    Lend(usize, usize),
}

impl Command {
    /// As tests/lent/main.rattle reads it.
    pub fn bytes(&self) -> Vec<u8> {
        let (kind, house, numbers, rest) = match self {
            Command::Set(house, table, place, number) => {
                let numbers = [*table, *place, *number as usize];
                (b'X', number_of(*house), numbers, vec![])
            }
            Command::Lend(table, size) => (b'Z', 0, [*table, *size, 0], vec![]),
            Command::Call(house, call) => {
                let (kind, numbers, rest) = call_bytes(call);
                (kind, *house, numbers, rest)
            }
        };
        let mut bytes = vec![kind, 0, 0, 0];
        bytes.extend(house.to_le_bytes());
        for number in numbers {
            let number = u32::try_from(number).expect("32 bits");
            bytes.extend(number.to_le_bytes());
        }
        bytes.extend(rest);
        bytes
    }
}

/// Its letter, three numbers, and what follows them.
fn call_bytes(call: &Call) -> (u8, [usize; 3], Vec<u8>) {
    match call {
        Call::Grow(list) => (b'G', [list.len(), 0, 0], list.clone()),
        Call::Land(list) => (b'L', [list.len(), 0, 0], list.clone()),
        Call::Find(tag) => (b'F', [*tag as usize, 0, 0], vec![]),
        Call::FindAt(fitting) => (b'A', [usize::from(*fitting), 0, 0], vec![]),
        Call::Distance(from, to) => (b'D', [*from, *to, 0].map(usize::from), vec![]),
        Call::Sheet(size) => (b'S', [*size, 0, 0], vec![]),
        Call::Write(size) => (b'W', [*size, 0, 0], vec![]),
        Call::Quote(pipe) => (b'Q', asked(pipe), vec![]),
        Call::Commit(quote) => (b'C', asked(&quote.pipe), parts(quote)),
        Call::Open => (b'O', [0; 3], vec![]),
        Call::Fetch(sheet) => {
            let [fittings, pipes, place] =
                [sheet.fittings, sheet.pipes, sheet.place].map(usize::from);
            let numbers = [fittings | pipes << 16, place, sheet.removals as usize];
            (b'N', numbers, vec![])
        }
        Call::Remove(pipe, size) => (b'R', [*pipe as usize, *size, 0], vec![]),
        Call::Shares(shares) => {
            let bytes = shares.iter().flat_map(|share| share.to_le_bytes());
            (b'H', [shares.len(), 0, 0], bytes.collect())
        }
    }
}

/// A pipe's fittings in one number, its length, its volume.
fn asked(pipe: &Pipe) -> [usize; 3] {
    let ends = pipe.first | pipe.second << 16;
    [ends, pipe.length as usize, pipe.volume as usize]
}

/// The parts of a quote behind its pipe: the case, 0 where it declines; the re-hangings, or the refusal;
/// the two counts.
fn parts(quote: &Quote) -> Vec<u8> {
    let (case, number) = quote.terms.unwrap_or_else(|refusal| (0, refusal));
    let parts = [case, number, quote.fittings, quote.pipes];
    parts.into_iter().flat_map(u32::to_le_bytes).collect()
}

/// What a call answers. Displayed, it is the line that tests/lent/main.rattle prints.
pub struct Answer {
    pub first: u64,
    pub second: u64,
    /// The refusal's number, or 0.
    pub refusal: u32,
    /// Numbers of the scratch that are not 0 after the call.
    pub scratch: usize,
    /// Of the house that the call was for, or of one of the eight.
    head: Head,
    removals: u32,
    heads: u64,
    shares: u64,
    tables: [u64; 6],
    slice: u64,
}

impl fmt::Display for Answer {
    fn fmt(&self, f: &mut fmt::Formatter) -> fmt::Result {
        write!(f, "{} {} {} ", self.first, self.second, self.refusal)?;
        write!(f, "{}", self.scratch)?;
        for number in self.head {
            write!(f, " {number}")?;
        }
        write!(f, " {} {} {}", self.removals, self.heads, self.shares)?;
        for hash in self.tables {
            write!(f, " {hash}")?;
        }
        write!(f, " {}", self.slice)
    }
}

/// The part of one house in what is lent.
struct Part {
    tables: Tables,
    head: Head,
    removals: u32,
    /// The house that the tables and the head hold, if any, once it was looked for.
    held: Option<Option<Rc<House>>>,
}

impl Part {
    fn filled(number: u32) -> Self {
        Part {
            tables: SIZES.map(|size| vec![number; size]),
            head: [0; 4],
            removals: 0,
            held: None,
        }
    }

    /// Where growing their own fittings and pipes from empty leaves the tables and the head.
    fn house(&mut self) -> Option<Rc<House>> {
        if self.held.is_none() {
            let house = self.grown_afresh();
            let same = |house: &House| tables_of(house) == (self.tables.clone(), self.head);
            self.held = Some(house.filter(same).map(Rc::new));
        }
        self.held.clone().flatten()
    }

    /// The tables' own fittings and pipes, grown from empty, if nothing of them is refused.
    fn grown_afresh(&self) -> Option<House> {
        let [fittings, pipes] = [self.head[0], self.head[1]].map(|count| count as usize);
        if fittings > MOST_FITTINGS || pipes > MOST_PIPES {
            return None;
        }
        let mut house = House::default();
        for _ in 0..fittings {
            house.land_fitting().ok()?;
        }
        for number in 0..pipes {
            let pipe = Pipe {
                first: self.tables[2][2 * number] as usize,
                second: self.tables[2][2 * number + 1] as usize,
                length: self.tables[3][number],
                volume: self.tables[4][number],
            };
            house.land_pipe(pipe).ok()?;
        }
        Some(house)
    }

    fn keep(&mut self, house: House) {
        (self.tables, self.head) = tables_of(&house);
        self.held = Some(Some(Rc::new(house)));
    }
}

/// What is lent, and what its caller knows.
pub struct Lent {
    parts: [Part; HOUSES],
    shares: [u32; HOUSES],
    sizes: [usize; LENT],
}

impl Default for Lent {
    /// Cleared, but for one house.
    fn default() -> Self {
        let of_house = |house| Part::filled(if house == NOT_CLEARED { BEFORE } else { 0 });
        Lent {
            parts: std::array::from_fn(of_house),
            shares: [0; HOUSES],
            sizes: std::array::from_fn(right_size),
        }
    }
}

/// What the numbers of an answer are, or the number that comes with a refusal, and the refusal.
type Answered = Result<(u64, u64), (u32, u32)>;

impl Lent {
    pub fn number(&self, house: usize, table: usize, place: usize) -> u32 {
        let part = &self.parts[house];
        match (table, place) {
            (7, _) => self.shares[house],
            (6, 4) => part.removals,
            (6, _) => part.head[place],
            _ => part.tables[table][place],
        }
    }

    pub fn set(&mut self, house: usize, table: usize, place: usize, number: u32) {
        let part = &mut self.parts[house];
        match (table, place) {
            (7, _) => self.shares[house] = number,
            (6, 4) => part.removals = number,
            (6, _) => part.head[place] = number,
            _ => part.tables[table][place] = number,
        }
        if table < 6 || (table == 6 && place < 4) {
            part.held = None;
        }
    }

    pub fn lend(&mut self, table: usize, size: usize) {
        self.sizes[table] = size;
    }

    /// The house that the part holds, if growing its own fittings and pipes from empty leaves it.
    pub fn house(&mut self, house: usize) -> Option<Rc<House>> {
        self.parts[house].house()
    }

    pub fn removals(&self, house: usize) -> u32 {
        self.parts[house].removals
    }

    pub fn shares(&self) -> [usize; HOUSES] {
        self.shares.map(|share| share as usize)
    }

    pub fn pipes(&self) -> [usize; HOUSES] {
        self.parts.each_ref().map(|part| part.head[1] as usize)
    }

    /// What a house may land by.
    pub fn licence(&self, house: usize) -> Licence {
        Licence::Of {
            house,
            shares: self.shares(),
            pipes: self.pipes(),
        }
    }

    /// 25 of any table, of the shares, or of the shares that are brought.
    fn has_wrong_size(&self, call: &Call) -> bool {
        let brought = match call {
            Call::Shares(shares) => shares.len(),
            _ => HOUSES,
        };
        let mut sizes = self.sizes.iter().enumerate();
        brought != HOUSES || sizes.any(|(lent, &size)| size != right_size(lent))
    }

    /// 21 of any house, and of the sum; "A grow counts its own house as empty there".
    fn is_not_grown(&mut self, own: Option<u32>) -> bool {
        let mut pipes = self.pipes();
        for (house, number) in (0..HOUSES).zip(0..) {
            if own == Some(number) {
                pipes[house] = 0;
            } else if self.house(house).is_none() {
                return true;
            }
        }
        overfull(self.shares(), pipes)
    }

    /// 37: a house number above 7; or the sum of the shares that are brought, or a house with fittings.
    fn is_out_of_place(&self, house: u32, call: &Call) -> bool {
        let Call::Shares(shares) = call else {
            return house > 7;
        };
        let sum: usize = shares.iter().map(|&share| usize::from(share)).sum();
        sum > LICENSED_PIPES || self.parts.iter().any(|part| part.head[0] > 0)
    }

    /// Makes a call: 25, then 21, then 37, then its own refusals.
    pub fn call(&mut self, house: u32, call: &Call) -> Answer {
        let own = match call {
            Call::Grow(_) => Some(house),
            _ => None,
        };
        let barred = if self.has_wrong_size(call) {
            Some(WRONG_SIZE)
        } else if self.is_not_grown(own) {
            Some(NOT_GROWN)
        } else if self.is_out_of_place(house, call) {
            Some(OUT_OF_PLACE)
        } else {
            None
        };
        let at = house as usize % HOUSES;
        match barred {
            Some(refusal) => self.answer(at, call, Err((0, refusal)), &[]),
            None => self.make(at, call),
        }
    }

    /// Makes a call for which neither 25 nor 21 nor 37 holds.
    fn make(&mut self, at: usize, call: &Call) -> Answer {
        match *call {
            Call::Grow(ref list) => {
                self.parts[at].removals = 0;
                return self.land(at, call, House::default(), list);
            }
            Call::Shares(ref shares) => {
                for (share, &asked) in self.shares.iter_mut().zip(shares) {
                    *share = asked.into();
                }
                return self.answer(at, call, Ok((0, 0)), &[]);
            }
            _ => {}
        }
        let house = self.house(at).expect("21 does not hold");
        let removals = self.parts[at].removals;
        let refused = |refusal: Refusal| (0, refusal.number().unsigned_abs());
        let mut numbers = Vec::new();
        let answered = match *call {
            Call::Grow(_) | Call::Shares(_) => unreachable!("answered above"),
            Call::Land(ref list) => return self.land(at, call, (*house).clone(), list),
            Call::Commit(ref quote) => return self.commit(at, call, (*house).clone(), quote),
            Call::Remove(pipe, size) => {
                let removed = removal::remove(&house, removals, pipe as usize, size);
                removed.map(|(left, report)| {
                    self.parts[at].keep(left);
                    self.parts[at].removals += 1;
                    numbers = report.concat();
                    (number_of(report.len()).into(), 0)
                })
            }
            Call::Quote(pipe) => {
                let quote = quote::quote_on(&self.licence(at), &house, pipe);
                let (case, number) = quote.terms.unwrap_or_else(|refusal| (0, refusal));
                numbers = [pipe.first, pipe.second].map(number_of).to_vec();
                numbers.extend([pipe.length, pipe.volume]);
                let terms = u64::from(case) << 32 | u64::from(number);
                Ok((
                    terms,
                    u64::from(quote.fittings) << 32 | u64::from(quote.pipes),
                ))
            }
            Call::Find(tag) => {
                let (name, taken) = queries::search(&house, tag);
                let found = queries::find(&house, tag);
                assert_eq!(
                    name.ok_or(Refusal::NoCoupling),
                    found.map(|found| found.name)
                );
                let Ok(found) = found else {
                    let refusal = Refusal::NoCoupling.number().unsigned_abs();
                    return self.answer(at, call, Err((number_of(taken), refusal)), &[]);
                };
                let (first, second) = packed(found);
                Ok((u64::from(number_of(taken)) << 32 | first, second))
            }
            Call::FindAt(fitting) => queries::find_at(&house, fitting.into()).map(packed),
            Call::Distance(from, to) => queries::distance(&house, from.into(), to.into())
                .map(|length| length.map_or((0, 0), |length| (1, length.into()))),
            Call::Sheet(size) => {
                let rows = queries::sheet(&house);
                numbers = rows.concat();
                fits(&mut numbers, size).map(|()| (number_of(rows.len()).into(), 0))
            }
            Call::Write(size) => {
                let bytes = list::written(&house);
                let count = number_of(bytes.len());
                numbers = bytes.into_iter().map(u32::from).collect();
                fits(&mut numbers, size).map(|()| (count.into(), 0))
            }
            Call::Open => Ok(packed_sheet(0, opened::open(&house, removals), 0)),
            Call::Fetch(sheet) => opened::fetch(&house, removals, sheet).map(packed_fetch),
        };
        self.answer(at, call, answered.map_err(refused), &numbers)
    }

    /// Lands a list and leaves the tables of what was landed.
    fn land(&mut self, at: usize, call: &Call, mut house: House, list: &[u8]) -> Answer {
        let result = list::land_on(&self.licence(at), &mut house, list);
        self.parts[at].keep(house);
        let stopped = |stop: list::Stop| {
            let refusal = stop.refusal().number().unsigned_abs();
            (number_of(stop.record()), refusal)
        };
        self.answer(at, call, result.map(|()| (0, 0)).map_err(stopped), &[])
    }

    /// Commits a quote and leaves the tables of what was landed.
    fn commit(&mut self, at: usize, call: &Call, mut house: House, quote: &Quote) -> Answer {
        let result = quote::commit_on(&self.licence(at), &mut house, quote);
        if result.is_ok() {
            self.parts[at].keep(house);
        }
        let answered = result.map(|()| (0, 0)).map_err(|number| (0, number));
        self.answer(at, call, answered, &[])
    }

    /// The answer to a call, with the state after it. 25 writes nothing, and no number of the scratch is
    /// 0 before; otherwise the scratch ends all zero. The slice begins with these numbers, and its rest
    /// is untouched.
    fn answer(&self, at: usize, call: &Call, result: Answered, slice: &[u32]) -> Answer {
        let (first, second, refusal) = match result {
            Ok((first, second)) => (first, second, 0),
            Err((first, refusal)) => (first.into(), 0, refusal),
        };
        let all: usize = SIZES.iter().sum();
        let room = match call {
            Call::Sheet(_) | Call::Remove(..) => SLICE,
            Call::Write(_) => BYTES,
            // What a quote has of its pipe stands for a slice.
            Call::Quote(_) => slice.len(),
            _ => 0,
        };
        let mut numbers = vec![SLICE_BEFORE; room];
        numbers[..slice.len()].copy_from_slice(slice);
        let heads = self.parts.iter();
        let heads = heads.flat_map(|part| part.head.iter().chain([&part.removals]));
        let table = |table: usize| {
            let parts = self.parts.iter().flat_map(|part| &part.tables[table]);
            sparse_hash(parts.chain(&[BEFORE]))
        };
        Answer {
            first,
            second,
            refusal,
            scratch: if refusal == WRONG_SIZE { all } else { 0 },
            head: self.parts[at].head,
            removals: self.parts[at].removals,
            heads: hash(heads),
            shares: hash(self.shares.iter().chain(&[BEFORE])),
            tables: [0, 1, 2, 3, 4, 5].map(table),
            slice: hash(&numbers),
        }
    }
}

/// Whether an answer has room in a slice of this size; if not, nothing of it is written.
fn fits(numbers: &mut Vec<u32>, size: usize) -> Result<(), Refusal> {
    if numbers.len() <= size {
        return Ok(());
    }
    numbers.clear();
    Err(Refusal::TooShort)
}

/// As tests/lent/main.rattle computes it: of the numbers that are not 0, each behind its place.
fn sparse_hash<'a>(numbers: impl IntoIterator<Item = &'a u32>) -> u64 {
    let placed = (0..).zip(numbers).filter(|(_, &number)| number != 0);
    let one = |hash, (place, &number): (u32, &u32)| step(step(hash, place), number);
    placed.fold(0, one)
}

fn step(hash: u64, number: u32) -> u64 {
    (hash * 2_147_483_629 + u64::from(number) + 1) % 4_294_967_291
}

/// As tests/lent/main.rattle computes it.
fn hash<'a>(numbers: impl IntoIterator<Item = &'a u32>) -> u64 {
    numbers
        .into_iter()
        .fold(0, |hash, &number| step(hash, number))
}

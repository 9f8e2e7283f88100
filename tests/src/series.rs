//! The series of tests/series/main.rattle, made here: what it prints is tests/series/stdout. Where the series
//! is changed, the test writes what it now prints to the file that SERIES_STDOUT names.

use std::fmt::Write;

use crate::gen::records;
use crate::house::{House, Pipe};
use crate::lent::{Answer, Call, Lent, NOT_CLEARED};
use crate::licence::HOUSES;
use crate::list::{self, Record};
use crate::opened::{self, OpenSheet};
use crate::queries;
use crate::quote::{Quote, Terms};
use crate::values::with_volumes;

const STDOUT: &str = include_str!("../series/stdout");
/// Tables of what is lent.
const SIDES: usize = 1;
const VOLUMES: usize = 4;
const LABELS: usize = 5;
const HEAD: usize = 6;
const SHARE: usize = 7;
const SCRATCH_VOLUMES: usize = 10;
const SCRATCH_LABELS: usize = 11;
const SHARES: usize = 12;

struct Series {
    lent: Lent,
    house: u32,
    out: String,
}

impl Series {
    /// Cleared, but for house 2.
    fn start() -> Self {
        let mut lent = Lent::default();
        let house = u32::try_from(NOT_CLEARED).expect("below 8");
        assert_eq!(lent.call(house, &Call::Grow(list::header(2))).refusal, 0);
        lent.set(2, 0, 0, 9);
        Series {
            lent,
            house: 3,
            out: String::new(),
        }
    }

    fn at(&self) -> usize {
        self.house as usize % HOUSES
    }

    fn held(&mut self) -> House {
        let at = self.at();
        self.lent
            .house(at)
            .map_or_else(House::default, |house| (*house).clone())
    }

    fn call(&mut self, call: &Call) -> Answer {
        self.lent.call(self.house, call)
    }

    fn line(&mut self, numbers: [u64; 4]) {
        let words = numbers.map(|number| number.to_string());
        writeln!(self.out, "{}", words.join(" ")).expect("a string");
    }

    fn put(&mut self, first: u64, second: u64, answer: &Answer) {
        let left = u64::try_from(answer.scratch).expect("64 bits");
        self.line([first, second, answer.refusal.into(), left]);
    }

    fn row(&mut self, row: queries::Line) {
        let mut words = row.map(|number| number.to_string());
        if row[5] == 0 {
            words[5] = "-".to_string();
        }
        writeln!(self.out, "{}", words.join(" ")).expect("a string");
    }

    fn labels(&mut self, first: usize) {
        let at = self.at();
        let tags = [0, 1, 2, 3].map(|more| self.lent.number(at, LABELS, first + more));
        self.line(tags.map(u64::from));
    }

    /// Pipes landed; then the re-hung total, or where the list stopped.
    fn landed(&mut self, call: &Call) {
        let answer = self.call(call);
        let [pipes, total] = [1, 3].map(|place| self.lent.number(self.at(), HEAD, place));
        let second = if answer.refusal == 0 {
            total.into()
        } else {
            answer.first
        };
        self.put(pipes.into(), second, &answer);
    }

    fn grow(&mut self, list: &[u8]) {
        self.landed(&Call::Grow(list.to_vec()));
    }

    fn land(&mut self, list: &[u8]) {
        self.landed(&Call::Land(list.to_vec()));
    }

    fn commit(&mut self, quote: Quote) {
        self.landed(&Call::Commit(quote));
    }

    fn found(&mut self, call: &Call) {
        let answer = self.call(call);
        if answer.refusal == 0 {
            let (first, second) = (answer.first, answer.second);
            let name = first >> 16 & 0xFFFF;
            self.line([name, first & 0xFFFF, second >> 32, second & 0xFFFF_FFFF]);
        }
        self.put(0, 0, &answer);
    }

    fn find(&mut self, tag: u32) {
        self.found(&Call::Find(tag));
    }

    fn find_at(&mut self, fitting: u16) {
        self.found(&Call::FindAt(fitting));
    }

    fn distance(&mut self, from: u16, to: u16) {
        let answer = self.call(&Call::Distance(from, to));
        self.put(answer.first, answer.second, &answer);
    }

    /// A number of the slice that the answer does not reach.
    fn sheet(&mut self, size: usize) {
        let answer = self.call(&Call::Sheet(size));
        self.put(answer.first, 77, &answer);
        if answer.refusal == 0 {
            let rows = queries::sheet(&self.held());
            rows.into_iter().for_each(|row| self.row(row));
        }
    }

    fn write(&mut self, size: usize) {
        let answer = self.call(&Call::Write(size));
        self.put(answer.first, 77, &answer);
        if answer.refusal == 0 {
            let written = list::written(&self.held());
            self.grow(&written);
        }
    }

    fn open(&mut self) -> OpenSheet {
        let answer = self.call(&Call::Open);
        let counts = [answer.first >> 32, answer.first >> 16 & 0xFFFF];
        self.put(counts[0], counts[1], &answer);
        if answer.refusal == 0 {
            opened::open(&self.held(), self.lent.removals(self.at()))
        } else {
            sheet(0, 0, 0, 0)
        }
    }

    fn fetch(&mut self, sheet: OpenSheet) -> OpenSheet {
        let answer = self.call(&Call::Fetch(sheet));
        if answer.refusal != 0 {
            self.put(0, 0, &answer);
            return sheet;
        }
        let place = u16::try_from(answer.first & 0xFFFF).expect("16 bits");
        let is_line = answer.first >> 48 == 1;
        self.put(is_line.into(), place.into(), &answer);
        if is_line {
            let lines = opened::lines(&self.held(), sheet).expect("a line");
            self.row(lines[usize::from(sheet.place)]);
        }
        OpenSheet { place, ..sheet }
    }

    fn quote(&mut self, first: usize, second: usize) {
        let answer = self.call(&Call::Quote(pipe(first, second)));
        self.put(answer.first >> 32, answer.first & 0xFFFF_FFFF, &answer);
    }

    fn remove(&mut self, pipe: u32, size: usize) {
        let before = self.held();
        let answer = self.call(&Call::Remove(pipe, size));
        self.put(answer.first, 77, &answer);
        if answer.refusal == 0 {
            let after = self.held();
            let removals = u64::from(self.lent.removals(self.at()));
            let tags = before.tags().iter().zip(after.tags());
            for (fitting, (&old, &new)) in (0..).zip(tags) {
                if old != new {
                    self.line([fitting, old.into(), new.into(), removals]);
                }
            }
        }
    }

    fn shares(&mut self, asked: &[u16]) {
        let answer = self.call(&Call::Shares(asked.to_vec()));
        let shares = self.lent.shares().map(|share| share as u64);
        self.put(shares[0], shares[7], &answer);
    }

    fn lend(&mut self, table: usize, size: usize) {
        self.lent.lend(table, size);
    }
}

fn sheet(fittings: u16, pipes: u16, place: u16, removals: u32) -> OpenSheet {
    OpenSheet {
        fittings,
        pipes,
        place,
        removals,
    }
}

fn pipe(first: usize, second: usize) -> Pipe {
    Pipe {
        first,
        second,
        length: 1_200,
        volume: 0,
    }
}

fn quote_at(first: usize, second: usize, terms: Terms, fittings: u32, pipes: u32) -> Quote {
    Quote {
        pipe: pipe(first, second),
        terms,
        fittings,
        pipes,
    }
}

fn quote_as_made(first: usize, second: usize, terms: Terms) -> Quote {
    quote_at(first, second, terms, 7, 6)
}

/// Document 01's house, with volumes; that of pipe 3 is unknown.
fn house() -> Vec<u8> {
    with_volumes(
        7,
        &[
            (0, 1, 1_000, 314),
            (1, 2, 2_000, 628),
            (3, 4, 500, 157),
            (4, 5, 700, 0),
            (2, 3, 300, 94),
            (3, 6, 900, 1_000_000),
        ],
    )
}

/// The pipes of a line of so many fittings.
fn line(fittings: usize) -> Vec<(usize, usize, u32, u32)> {
    (1..fittings).map(|next| (next - 1, next, 1, 0)).collect()
}

fn one_pipe(first: usize, second: usize, length: u32, volume: u32) -> Vec<u8> {
    with_volumes(0, &[(first, second, length, volume)])
}

fn many(fittings: usize, count: usize) -> Vec<u8> {
    with_volumes(fittings, &vec![(0, 1, 1, 0); count])
}

fn each_call(s: &mut Series) {
    let list = house();
    s.open();
    s.fetch(sheet(7, 6, 1, 0));
    s.land(&list);
    s.find(8_195);
    s.find_at(1);
    s.distance(1, 6);
    s.sheet(19);
    s.write(89);
    s.quote(0, 5);
    s.commit(quote_as_made(0, 5, Ok((3, 1))));
    s.remove(6, 0);
    s.shares(&[0; 8]);
    s.grow(&list);
}

/// What one house can be asked and refuse.
fn one_house(s: &mut Series) {
    s.grow(&house());
    s.house = 2;
    s.find(8_195);
    s.grow(&house());
    s.write(89);
    s.write(91);
    s.labels(1);
    for tag in [8_192, 8_195, 8_194] {
        s.find(tag);
    }
    for fitting in [1, 7, 3] {
        s.find_at(fitting);
    }
    s.distance(1, 6);
    s.distance(7, 1);
    s.distance(1, 7);
    s.sheet(17);
    s.sheet(19);
    s.quote(5, 6);
    s.quote(0, 5);
    s.quote(3, 7);
    s.commit(quote_as_made(3, 7, Err(5)));
    s.commit(quote_as_made(0, 5, Ok((3, 0))));
    for (table, wrong, right) in [
        (SIDES, 65_535, 65_536),
        (VOLUMES, 32_767, 32_768),
        (SHARES, 7, 8),
        (SCRATCH_VOLUMES, 4_095, 4_096),
        (SCRATCH_LABELS, 4_095, 4_096),
    ] {
        s.lend(table, wrong);
        each_call(s);
        s.lend(table, right);
    }
    s.find(8_195);
    for (table, place, wrong, right) in [
        (LABELS, 4_095, 1, 0),
        (VOLUMES, 6, 1, 0),
        (VOLUMES, 5, 1_000_001, 1_000_000),
    ] {
        s.lent.set(2, table, place, wrong);
        s.land(&house());
        s.lent.set(2, table, place, right);
    }
    s.find(8_195);
    s.lent.set(2, HEAD, 3, 2);
    each_call(s);
}

/// A sheet is fetched while more is landed.
fn opened_lines(s: &mut Series) -> OpenSheet {
    let opened = s.open();
    let second = s.fetch(opened);
    let mut records = vec![Record::Fitting; 2];
    records.push(records::with_volume(7, 8, 50, 16));
    s.land(&list::write(2, &records));
    s.distance(7, 8);
    s.distance(0, 8);
    s.land(&with_volumes(0, &[(5, 6, 100, 31), (0, 0, 1, 1)]));
    let third = s.fetch(second);
    let whole = one_pipe(0, 3, 1, 1);
    let end = whole.len();
    s.land(&whole[..2]);
    s.land(&whole[..4]);
    let mut other = whole.clone();
    other[3] = 3;
    s.land(&other);
    s.land(&whole[..end - 1]);
    s.land(&whole[..end - 4]);
    other.clone_from(&whole);
    other[5] = 0;
    s.land(&other);
    s.land(&one_pipe(0, 9, 1, 1_000_001));
    s.land(&one_pipe(0, 3, 0, 1_000_001));
    s.land(&one_pipe(0, 3, 1, 1_000_001));
    s.find(8_195);
    ring_lines(s);
    let last = s.fetch(third);
    s.fetch(last);
    for (fittings, pipes) in [(6, 4), (5, 4), (10, 4), (9, 11)] {
        s.fetch(sheet(fittings, pipes, 1, 0));
    }
    second
}

fn ring_lines(s: &mut Series) {
    s.land(&one_pipe(8, 7, 1, 1));
    s.labels(7);
    s.find(24_577);
    s.find_at(7);
    s.distance(7, 8);
    s.distance(0, 8);
    s.sheet(30);
    s.land(&list::write(1, &[records::pipe(0, 8, 20)]));
    s.labels(7);
    s.find(32_768);
    s.find_at(7);
    s.distance(7, 0);
    s.sheet(30);
}

fn full_and_tapped(s: &mut Series, second: OpenSheet) {
    s.land(&with_volumes(4_088, &[]));
    s.land(&with_volumes(0, &line(4_090)));
    s.land(&one_pipe(0, 3, 1, 1_000_001));
    let mut tapped = line(5);
    tapped.extend([(2, 5, 1, 1), (0, 6, 1, 1)]);
    let tapped = with_volumes(7, &tapped);
    s.grow(&tapped);
    s.labels(0);
    s.quote(4, 6);
    s.commit(quote_as_made(4, 6, Ok((3, 1))));
    s.labels(3);
    s.commit(quote_as_made(4, 6, Ok((3, 1))));
    s.fetch(second);
    s.grow(&tapped[..2]);
    s.find(8_192);
    s.fetch(second);
}

fn removal_lines(s: &mut Series) {
    s.grow(&house());
    let opened = s.open();
    s.remove(4, 8);
    s.remove(6, 9);
    let second = s.fetch(opened);
    s.remove(4, 9);
    s.labels(1);
    s.fetch(second);
    s.sheet(19);
    s.fetch(sheet(7, 6, 0, 1));
    let now = s.open();
    s.fetch(now);
    s.remove(4, 32);
    s.labels(1);
    s.lent.set(2, HEAD, 4, u32::MAX);
    s.remove(0, 32);
    s.open();
    s.grow(&house());
    s.fetch(second);
    s.fetch(now);
}

fn share_lines(s: &mut Series) {
    s.shares(&[90, 0, 0, 0, 0, 0, 0, 4_007]);
    s.shares(&[90, 0, 0, 0, 0, 0, 0]);
    s.shares(&[90, 0, 0, 0, 0, 0, 0, 0, 0]);
    s.shares(&[90, 0, 0, 0, 0, 0, 0, 4_006]);
    s.shares(&[90, 0, 0, 0, 0, 0, 0, 0]);
    s.house = 7;
    s.land(&with_volumes(1, &[]));
    s.shares(&[0; 8]);
    s.grow(&list::header(2));
}

fn licence_lines(s: &mut Series) {
    s.house = 6;
    s.grow(&with_volumes(4, &line(4)));
    s.house = 3;
    s.grow(&many(2, 3_997));
    s.house = 0;
    s.grow(&many(2, 50));
    s.land(&many(0, 60));
    s.quote(0, 1);
    s.commit(quote_at(0, 1, Err(36), 2, 96));
    s.commit(quote_at(0, 1, Ok((1, 0)), 2, 96));
    s.house = 3;
    s.land(&one_pipe(0, 1, 1, 1));
    s.land(&one_pipe(0, 1, 1, 1_000_001));
    let pipe = with_volumes(2, &[(0, 1, 1, 1)]);
    s.house = 2;
    s.grow(&pipe);
    s.house = 6;
    s.remove(1, 32);
    s.house = 0;
    s.land(&pipe);
    s.house = 2;
    s.grow(&pipe);
}

fn place_lines(s: &mut Series) {
    let list = house();
    s.house = 8;
    each_call(s);
    s.house = 65_538;
    s.find(8_195);
    s.lent.set(5, LABELS, 4_095, 1);
    s.lent.set(5, HEAD, 1, 4_000);
    s.find(8_195);
    s.grow(&list);
    s.house = 2;
    each_call(s);
    s.house = 5;
    s.find(8_195);
    s.grow(&list[..12]);
    s.house = 2;
    s.find(8_195);
    s.lent.set(7, SHARE, 0, 1);
    s.find(8_195);
    s.grow(&list[..12]);
    s.lent.set(7, SHARE, 0, 0);
    s.house = 6;
    s.sheet(30);
    s.labels(0);
}

#[test]
fn as_the_program_prints_it() {
    let s = &mut Series::start();
    one_house(s);
    let second = opened_lines(s);
    full_and_tapped(s, second);
    removal_lines(s);
    s.grow(&list::header(2));
    share_lines(s);
    licence_lines(s);
    place_lines(s);
    if let Some(file) = std::env::var_os("SERIES_STDOUT") {
        std::fs::write(file, &s.out).expect("a file");
    }
    for (number, (ours, theirs)) in (1..).zip(s.out.lines().zip(STDOUT.lines())) {
        assert_eq!(ours, theirs, "line {number}");
    }
    assert_eq!(s.out, STDOUT);
}

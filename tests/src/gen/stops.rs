//! Lists that stop with a refusal that is known beforehand.

use super::layout::Layout;
use super::random::Random;
use super::{records, shapes, small_size, whole, whole_list, Maker};
use crate::house::{LARGEST_VOLUME, LONGEST_PIPE, MOST_FITTINGS};
use crate::list::{self, Record};

pub fn any(random: &mut Random) -> Vec<u8> {
    let maker = random.pick(&[
        no_mark,
        version,
        cut_header,
        cut_record,
        unknown_kind,
        not_landed,
        same_fitting,
        wrong_length,
        wrong_length_of_ring,
        wrong_volume,
        wrong_volume_of_ring,
        cut_ring,
        full_fittings,
    ] as &[Maker]);
    maker(random)
}

pub fn no_mark(random: &mut Random) -> Vec<u8> {
    let mut list = whole_list(random);
    let at = random.below(list::MARK.len());
    if random.one_in(2) {
        list.truncate(at);
    } else {
        list[at] ^= 1 << random.below(8);
    }
    list
}

pub fn version(random: &mut Random) -> Vec<u8> {
    let any = match u16::from_le_bytes([random.byte(), random.byte()]) {
        1 | 2 => 0,
        other => other,
    };
    let of_one_byte = u16::from(random.byte().max(3));
    let version = random.pick(&[0, 3, 0x0100, 0x0101, 0x0102, 0x0200, of_one_byte, any]);
    let mut list = whole_list(random);
    list[3..5].copy_from_slice(&version.to_le_bytes());
    list
}

pub fn cut_header(random: &mut Random) -> Vec<u8> {
    let mut list = list::MARK.to_vec();
    if random.one_in(2) {
        list.push(random.byte() % 4);
    }
    list
}

pub fn cut_record(random: &mut Random) -> Vec<u8> {
    let records = whole(random);
    let (place, landed) = place(random, &records, 0);
    let pipe = if random.one_in(2) {
        records::pipe(0, 1, 1)
    } else {
        records::pipe(landed, landed, 0)
    };
    let version = super::version(random);
    let before = list::write(version, &records[..place]);
    [before, cut(random, version, &pipe)].concat()
}

/// The first bytes of a pipe, at least one and not all.
pub fn cut(random: &mut Random, version: u16, pipe: &Record) -> Vec<u8> {
    let mut bytes = list::record_bytes(version, pipe);
    bytes.truncate(random.between(1, list::pipe_body(version)));
    bytes
}

pub fn unknown_kind(random: &mut Random) -> Vec<u8> {
    let records = whole(random);
    let (place, _) = place(random, &records, 0);
    let kind = kind(random);
    let version = super::version(random);
    with_tail(random, version, (&records, place), &[kind])
}

/// A byte that is no record's kind.
pub fn kind(random: &mut Random) -> u8 {
    let near = random.pick(b"EGOQfp\x00\xFF");
    let any = random.byte();
    match random.pick(&[near, any]) {
        list::FITTING_KIND | list::PIPE_KIND => near,
        other => other,
    }
}

/// One or both fittings not landed, with any length and even the same one twice.
pub fn not_landed(random: &mut Random) -> Vec<u8> {
    let records = whole(random);
    let (place, landed) = place(random, &records, 0);
    let far = random.between(landed, usize::from(u16::MAX));
    let missing = random.pick(&[landed, landed, landed + 1, MOST_FITTINGS, far]);
    let other = random.below(landed + 1);
    let (first, second) = random.pick(&[(missing, other), (other, missing), (missing, missing)]);
    let length = random.pick(&[1, LONGEST_PIPE, 0, LONGEST_PIPE + 1]);
    with_bad_pipe(random, &records, place, (first, second, length))
}

/// The same fitting twice, with any length.
pub fn same_fitting(random: &mut Random) -> Vec<u8> {
    let records = whole(random);
    let (place, landed) = place(random, &records, 1);
    let fitting = random.below(landed);
    let length = random.pick(&[1, LONGEST_PIPE, 0, LONGEST_PIPE + 1]);
    with_bad_pipe(random, &records, place, (fitting, fitting, length))
}

/// A length of 0 or above 100,000.
pub fn wrong_length(random: &mut Random) -> Vec<u8> {
    let records = whole(random);
    let (place, landed) = place(random, &records, 2);
    let (first, second) = random.pair_below(landed);
    let length = no_length(random);
    with_bad_pipe(random, &records, place, (first, second, length))
}

fn no_length(random: &mut Random) -> u32 {
    let above = (LONGEST_PIPE + 1).max(random.u32());
    let with_good_low_half = 0x0002_0001;
    random.pick(&[0, LONGEST_PIPE + 1, with_good_low_half, u32::MAX, above])
}

/// The same of a pipe that would close a ring.
pub fn wrong_length_of_ring(random: &mut Random) -> Vec<u8> {
    let mut records = closing_a_ring(random);
    if let Some(Record::Pipe { length, .. }) = records.last_mut() {
        *length = no_length(random);
    }
    list::write(super::version(random), &records)
}

/// A volume above 1,000,000; only a list of version 2 has one.
pub fn wrong_volume(random: &mut Random) -> Vec<u8> {
    let records = whole(random);
    let (place, landed) = place(random, &records, 2);
    let (first, second) = random.pair_below(landed);
    let length = random.pick(&[1, LONGEST_PIPE]);
    let fault = records::with_volume(first, second, length, no_volume(random));
    let bytes = list::record_bytes(2, &fault);
    with_tail(random, 2, (&records, place), &bytes)
}

fn no_volume(random: &mut Random) -> u32 {
    let above = (LARGEST_VOLUME + 1).max(random.u32());
    let with_good_low_half = 0x0010_0001;
    random.pick(&[LARGEST_VOLUME + 1, with_good_low_half, u32::MAX, above])
}

/// The same of a pipe that would close a ring.
pub fn wrong_volume_of_ring(random: &mut Random) -> Vec<u8> {
    let mut records = closing_a_ring(random);
    if let Some(Record::Pipe { volume, .. }) = records.last_mut() {
        *volume = no_volume(random);
    }
    list::write(2, &records)
}

/// The pipe that would close a ring is cut.
pub fn cut_ring(random: &mut Random) -> Vec<u8> {
    let version = super::version(random);
    let mut list = list::write(version, &closing_a_ring(random));
    list.truncate(list.len() - random.between(1, list::pipe_body(version)));
    list
}

/// A line beside some other shape; the last pipe makes of it a ring of couplings only.
fn closing_a_ring(random: &mut Random) -> Vec<Record> {
    let size = small_size(random);
    let shape = shapes::any(random, size).landable();
    let fittings = random.between(2, 9);
    let mut layout = shapes::line_in_any_order(random, fittings).beside(random, shape);
    layout.join(0, fittings - 1);
    let mut records = records::of(random, &layout);
    // Fittings that no pipe names may stand behind it.
    let last_pipe = records
        .iter()
        .rposition(|&record| record != Record::Fitting);
    records.truncate(last_pipe.map_or(0, |at| at + 1));
    records
}

/// A 4,097th fitting, with a few pipes before it.
pub fn full_fittings(random: &mut Random) -> Vec<u8> {
    let size = small_size(random);
    let mut layout = shapes::any(random, size).landable();
    layout.fittings = MOST_FITTINGS;
    one_fitting_more(random, &layout)
}

/// The records of a layout of 4,096 fittings, and one fitting more.
pub fn one_fitting_more(random: &mut Random, layout: &Layout) -> Vec<u8> {
    let mut records = records::of(random, layout);
    let last_fitting = records
        .iter()
        .rposition(|&record| record == Record::Fitting);
    let earliest = last_fitting.map_or(0, |at| at + 1);
    records.insert(random.between(earliest, records.len()), Record::Fitting);
    list::write(super::version(random), &records)
}

/// A place before which at least so many fittings are landed, and how many are.
fn place(random: &mut Random, records: &[Record], least: usize) -> (usize, usize) {
    let landed_before = |place: usize| {
        let before = records[..place].iter();
        before.filter(|&&record| record == Record::Fitting).count()
    };
    let earliest = (0..records.len()).find(|&place| landed_before(place) >= least);
    let place = random.between(earliest.unwrap_or(records.len()), records.len());
    (place, landed_before(place))
}

/// The pipe is refused whatever its volume is.
fn with_bad_pipe(
    random: &mut Random,
    records: &[Record],
    place: usize,
    (first, second, length): (usize, usize, u32),
) -> Vec<u8> {
    let version = super::version(random);
    let volume = random.pick(&[0, 1, LARGEST_VOLUME, LARGEST_VOLUME + 1, u32::MAX]);
    let pipe = records::with_volume(first, second, length, volume);
    let bytes = list::record_bytes(version, &pipe);
    with_tail(random, version, (records, place), &bytes)
}

/// The records before a place, other bytes there, and perhaps the records after it.
fn with_tail(
    random: &mut Random,
    version: u16,
    (records, place): (&[Record], usize),
    bytes: &[u8],
) -> Vec<u8> {
    let (before, after) = records.split_at(place);
    let mut list = list::write(version, before);
    list.extend(bytes);
    if random.one_in(2) {
        let rest = after.iter();
        list.extend(rest.flat_map(|record| list::record_bytes(version, record)));
    }
    list
}

#[cfg(test)]
mod tests {
    use super::*;
    use crate::list::{grow, Stop};
    use crate::refusal::Refusal;

    fn stops_of(maker: Maker) -> Vec<Stop> {
        let random = &mut Random::new(5);
        let lists = (0..60).map(|_| maker(random));
        let stops = lists.map(|list| grow(&list).1.expect_err("a list that stops"));
        stops.collect()
    }

    #[test]
    fn headers_stop_as_named() {
        for (maker, refusal) in [
            (no_mark as Maker, Refusal::NoMark),
            (version, Refusal::Version),
            (cut_header, Refusal::Cut),
        ] {
            for stop in stops_of(maker) {
                assert_eq!(stop, Stop::Header(refusal));
            }
        }
    }

    #[test]
    fn records_stop_as_named() {
        for (maker, refusal) in [
            (cut_record as Maker, Refusal::Cut),
            (unknown_kind, Refusal::UnknownKind),
            (not_landed, Refusal::NotLanded),
            (same_fitting, Refusal::SameFitting),
            (wrong_length, Refusal::Length),
            (wrong_length_of_ring, Refusal::Length),
            (wrong_volume, Refusal::Volume),
            (wrong_volume_of_ring, Refusal::Volume),
            (cut_ring, Refusal::Cut),
            (full_fittings, Refusal::FullFittings),
        ] {
            for stop in stops_of(maker) {
                assert!(
                    matches!(stop, Stop::Record(_, r) if r == refusal),
                    "{stop:?}"
                );
            }
        }
    }
}

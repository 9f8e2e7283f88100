//! Damaged lists, bytes that are no list, and lists about as long as may be read.

use super::random::Random;
use super::{records, version, whole_list};
use crate::house::LARGEST_VOLUME;
use crate::list::{self, Record};
use crate::print::MOST_BYTES;

/// A good list with one to three faults in its bytes.
pub fn damaged(random: &mut Random) -> Vec<u8> {
    let mut list = whole_list(random);
    for _ in 0..random.between(1, 3) {
        damage(random, &mut list);
    }
    list
}

fn damage(random: &mut Random, list: &mut Vec<u8>) {
    let at = random.below(list.len() + 1);
    match random.below(6) {
        0 => list.truncate(at),
        // The records of one version, in a list of the other.
        1 if list.len() > 3 => list[3] ^= 3,
        2 => list.insert(at, random.byte()),
        3 => list.insert(at, random.pick(&[list::FITTING_KIND, list::PIPE_KIND])),
        4 if at < list.len() => list[at] ^= 1 << random.below(8),
        _ if at < list.len() => {
            list.remove(at);
        }
        _ => {}
    }
}

/// Random bytes, with or without a good header.
pub fn noise(random: &mut Random) -> Vec<u8> {
    let mut bytes = if random.one_in(3) {
        Vec::new()
    } else {
        list::header(version(random))
    };
    let kinds = [list::FITTING_KIND, list::PIPE_KIND, 0];
    for _ in 0..random.below(80) {
        let any = random.byte();
        let kind = random.pick(&kinds);
        bytes.push(random.pick(&[any, kind]));
    }
    bytes
}

/// Records with small numbers in no order at all.
pub fn record_soup(random: &mut Random) -> Vec<u8> {
    let fittings = random.between(2, 10);
    let mut records = vec![Record::Fitting; fittings];
    for _ in 0..random.below(60) {
        if random.one_in(8) {
            records.push(Record::Fitting);
        } else {
            let (mut first, second) = random.pair_below(fittings);
            if random.one_in(60) {
                first = second;
            }
            let above = u32::from(random.one_in(80)) * LARGEST_VOLUME;
            let (length, volume) = (random.u32() % 5_000, above + random.u32() % 5_000);
            records.push(records::with_volume(first, second, length, volume));
        }
    }
    if random.one_in(4) {
        random.shuffle(&mut records);
    }
    list::write(version(random), &records)
}

/// As many bytes as may be read, one fewer, one more, or many more.
pub fn about_the_longest(random: &mut Random) -> Vec<u8> {
    let many = random.between(MOST_BYTES, 2 * MOST_BYTES);
    let length = random.pick(&[MOST_BYTES - 1, MOST_BYTES, MOST_BYTES + 1, many]);
    let fill = random.pick(&[0, list::FITTING_KIND, list::PIPE_KIND]);
    let mut list = whole_list(random);
    list.resize(length, fill);
    list
}

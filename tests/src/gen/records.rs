//! From a layout to records: which fitting has which number, which is named first, the lengths and
//! volumes, and where between the pipes the fittings are landed.

use super::layout::Layout;
use super::random::Random;
use crate::house::{LARGEST_VOLUME, LONGEST_PIPE};
use crate::list::Record;

/// The records of a layout, in its order.
pub fn of(random: &mut Random, layout: &Layout) -> Vec<Record> {
    let numbers = numbering(random, layout);
    let name_in_any_order = !random.one_in(4);
    let lengths = Lengths::any(random);
    let volumes = Volumes::any(random);
    let mut pipes = Vec::new();
    for &(one, other) in &layout.joins {
        let (mut first, mut second) = (numbers[one], numbers[other]);
        if name_in_any_order && random.one_in(2) {
            (first, second) = (second, first);
        }
        let length = lengths.draw(random);
        pipes.push((first, second, length, volumes.draw(random)));
    }
    mixed(random, layout.fittings, &pipes)
}

/// A pipe record of fittings that have numbers of 16 bits; its volume is unknown.
pub fn pipe(first: usize, second: usize, length: u32) -> Record {
    with_volume(first, second, length, 0)
}

pub fn with_volume(first: usize, second: usize, length: u32, volume: u32) -> Record {
    Record::Pipe {
        first: u16::try_from(first).expect("16 bits"),
        second: u16::try_from(second).expect("16 bits"),
        length,
        volume,
    }
}

/// A number for each fitting: as the layout has it, any, or by first use.
fn numbering(random: &mut Random, layout: &Layout) -> Vec<usize> {
    let mut numbers: Vec<usize> = (0..layout.fittings).collect();
    match random.below(3) {
        0 => numbers,
        1 => {
            random.shuffle(&mut numbers);
            numbers
        }
        _ => numbers_by_first_use(layout),
    }
}

fn numbers_by_first_use(layout: &Layout) -> Vec<usize> {
    let used = layout.joins.iter().flat_map(|&(one, other)| [one, other]);
    let mut numbers = vec![None; layout.fittings];
    let mut next = 0..;
    for fitting in used.chain(0..layout.fittings) {
        if numbers[fitting].is_none() {
            numbers[fitting] = next.next();
        }
    }
    numbers.into_iter().flatten().collect()
}

/// How the lengths of a list are drawn.
enum Lengths {
    Any,
    Short,
    Longest,
    Extreme,
}

impl Lengths {
    fn any(random: &mut Random) -> Self {
        match random.below(6) {
            0 => Lengths::Short,
            1 => Lengths::Longest,
            2 => Lengths::Extreme,
            _ => Lengths::Any,
        }
    }

    fn draw(&self, random: &mut Random) -> u32 {
        match self {
            Lengths::Any => 1 + random.u32() % LONGEST_PIPE,
            Lengths::Short => 1 + random.u32() % 9,
            Lengths::Longest => LONGEST_PIPE,
            Lengths::Extreme => random.pick(&[1, LONGEST_PIPE]),
        }
    }
}

/// How the volumes of a list are drawn.
enum Volumes {
    Any,
    /// Now and then one that is unknown.
    Gaps,
    Unknown,
    Small,
    Largest,
    Extreme,
}

impl Volumes {
    fn any(random: &mut Random) -> Self {
        match random.below(8) {
            0 => Volumes::Unknown,
            1 => Volumes::Small,
            2 => Volumes::Largest,
            3 => Volumes::Extreme,
            4 | 5 => Volumes::Gaps,
            _ => Volumes::Any,
        }
    }

    fn draw(&self, random: &mut Random) -> u32 {
        match self {
            Volumes::Gaps if random.one_in(6) => 0,
            Volumes::Any | Volumes::Gaps => 1 + random.u32() % LARGEST_VOLUME,
            Volumes::Unknown => 0,
            Volumes::Small => 1 + random.u32() % 9,
            Volumes::Largest => LARGEST_VOLUME,
            Volumes::Extreme => random.pick(&[0, 1, LARGEST_VOLUME]),
        }
    }
}

/// Fittings landed before the pipes that name them: all at first, as late as can be, or in between.
fn mixed(random: &mut Random, fittings: usize, pipes: &[(usize, usize, u32, u32)]) -> Vec<Record> {
    let style = random.below(3);
    let mut records = Vec::new();
    let mut landed = if style == 0 { fittings } else { 0 };
    records.resize(landed, Record::Fitting);
    for &(first, second, length, volume) in pipes {
        let early = if style == 1 { 0 } else { random.below(3) };
        let wanted = fittings.min((landed + early).max(first.max(second) + 1));
        records.extend((landed..wanted).map(|_| Record::Fitting));
        landed = landed.max(wanted);
        records.push(with_volume(first, second, length, volume));
    }
    records.extend((landed..fittings).map(|_| Record::Fitting));
    records
}

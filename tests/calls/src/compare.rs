//! The calls on one list, compared.

use reference::calls::{self, Grown};
use reference::gen::random::Random;
use reference::gen::{self, records};
use reference::house::MOST_FITTINGS;
use reference::list::{self, Record};

use crate::archive::{Call, STACK_BOUND};
use crate::questions::{self, Question};
use crate::stack;
use crate::tally::Tally;

/// What stands in and behind the answer slice before a call.
const CANARY: u8 = 0xA5;
/// So many bytes behind the answer slice are looked at.
const BEHIND: usize = 32;
/// One list in so many is also cut at every byte, if it has no more bytes than this.
const CUT_EVERY: usize = 50;
const CUT_MOST: usize = 400;
/// The largest sheet.
const SHEET_MOST: usize = 98_304;
/// One call of each kind.
const CALLS: [Call; 5] = [
    Call::Sheet,
    Call::Find(8_192),
    Call::FindAt(1),
    Call::Distance(0, 1),
    Call::Quote([0, 1, 1, 0]),
];

/// What differs, in words.
pub type Difference = String;

/// Null pointers of length 0: no list is refused with 1; without an answer slice, the sheet of the
/// header alone is whole, the other calls have their own refusals there, and on a house all have 9.
pub fn null_pointers() -> Result<(), Difference> {
    let header = list::header(1);
    let joined = [records::pipe(0, 1, 1), records::pipe(1, 2, 1)];
    let house = list::write(2, &[&[Record::Fitting; 3][..], &joined].concat());
    let cases = [
        (None, [-1; 5]),
        (Some(&header[..]), [0, -8, -8, -5, -5]),
        (Some(&house), [-9; 5]),
    ];
    for (list, expected) in cases {
        let returned = CALLS.map(|call| call.make_at_null(list));
        if returned != expected {
            return Err(format!(
                "{CALLS:?} with null pointers and {list:?} return {returned:?}, expected {expected:?}"
            ));
        }
    }
    Ok(())
}

/// The list of this number, and some of the lists at every length up to their own.
pub fn drawn(seed: u64, index: usize, tally: &mut Tally) -> Result<(), Difference> {
    let list = gen::list(seed, index);
    let cut = index.is_multiple_of(CUT_EVERY) && list.len() <= CUT_MOST;
    let shortest = if cut { 0 } else { list.len() };
    let random = &mut Random::of_list(!seed, index);
    for length in shortest..=list.len() {
        // An allocation of its own, that ends where the list does: valgrind sees a read behind it.
        let list: Box<[u8]> = list[..length].into();
        one(&list, random, tally)
            .map_err(|difference| format!("its first {length} bytes: {difference}"))?;
    }
    Ok(())
}

/// All questions on one list.
fn one(list: &[u8], random: &mut Random, tally: &mut Tally) -> Result<(), Difference> {
    let grown = Grown::of(list);
    let house = grown.house().ok();
    tally.count_list(house);
    if house.is_some_and(|house| house.fittings() == MOST_FITTINGS) {
        tally.count_stack(measure_stack(list)?);
    }
    for question in questions::of(&grown, random) {
        for &room in &question.rooms {
            let returned = ask(list, &question, room)?;
            tally.count_call(question.call, &question.answer, returned);
            if matches!(question.call, Call::Quote(_)) && house.is_some() {
                tally.count_quote(&question.answer, returned);
            }
        }
    }
    Ok(())
}

/// What the archive returns into a slice of this length, if both answer alike.
fn ask(list: &[u8], question: &Question, room: usize) -> Result<i32, Difference> {
    let mut ours = vec![CANARY; room + BEHIND];
    let mut theirs = ours.clone();
    let returned = question.call.make(list, &mut ours[..room]);
    let expected = calls::returned(&question.answer, &mut theirs[..room]);
    let place = ours
        .iter()
        .zip(&theirs)
        .position(|(one, other)| one != other);
    if returned == expected && place.is_none() {
        return Ok(returned);
    }
    let call = question.call;
    let place = place.map_or("no byte".into(), |place| format!("byte {place}"));
    Err(format!(
        "{call:?} with a slice of {room} bytes returns {returned}, expected {expected}; {place} differs"
    ))
}

/// The most stack that a call on this list uses, if each stays below the bound.
fn measure_stack(list: &[u8]) -> Result<usize, Difference> {
    let mut answer = vec![0; SHEET_MOST];
    let mut most = 0;
    for call in CALLS {
        let used = stack::used(|| _ = call.make(list, &mut answer));
        if used >= STACK_BOUND {
            return Err(format!("{call:?} uses {used} bytes of stack"));
        }
        most = most.max(used);
    }
    Ok(most)
}

//! Quotes and commits (document 02, S-5).

use crate::house::{House, Pipe, Standing};
use crate::licence::Licence;
use crate::refusal::Refusal;

/// 32: a quote made now is another.
pub const OTHER_QUOTE: u32 = 32;

/// Its case, 1 to 6 or 7 for a ring, and its re-hangings; or the number of its refusal.
pub type Terms = Result<(u32, u32), u32>;

/// What a pipe would come to, with the fitting and pipe counts at which that was worked out.
#[derive(Clone, Copy, Debug, PartialEq, Eq)]
pub struct Quote {
    pub pipe: Pipe,
    pub terms: Terms,
    pub fittings: u32,
    pub pipes: u32,
}

/// The case of a pipe and its re-hangings, or its refusal, where there is no licence.
pub fn terms(house: &House, pipe: Pipe) -> Result<(u32, u32), Refusal> {
    terms_on(&Licence::none(), house, pipe)
}

/// The same on a licence: the pipe is landed on a copy.
fn terms_on(licence: &Licence, house: &House, pipe: Pipe) -> Result<(u32, u32), Refusal> {
    let mut after = house.clone();
    after.land_pipe_on(licence, pipe)?;
    Ok((case(house, &pipe), after.re_hung() - house.re_hung()))
}

/// The quote of a pipe, made now, where there is no licence.
pub fn quote(house: &House, pipe: Pipe) -> Quote {
    quote_on(&Licence::none(), house, pipe)
}

/// The same on a licence, which is no part of it.
pub fn quote_on(licence: &Licence, house: &House, pipe: Pipe) -> Quote {
    let counts = [house.fittings(), house.pipes().len()];
    let [fittings, pipes] = counts.map(|count| u32::try_from(count).expect("at most 4,096"));
    Quote {
        pipe,
        terms: terms_on(licence, house, pipe).map_err(number),
        fittings,
        pipes,
    }
}

fn number(refusal: Refusal) -> u32 {
    refusal.number().unsigned_abs()
}

/// By the degrees of both ends; a ring closes where both are free ends of one run.
fn case(house: &House, pipe: &Pipe) -> u32 {
    use Standing::{Coupling, Free, Settled};
    let first_run = || house.run_from(pipe.first);
    let closes = || first_run().is_some_and(|run| run.ends_at(pipe.second));
    match [pipe.first, pipe.second].map(|end| house.standing(end)) {
        [Settled, Settled] => 1,
        [Free, Settled] | [Settled, Free] => 2,
        [Free, Free] if closes() => 7,
        [Free, Free] => 3,
        [Coupling, Free] | [Free, Coupling] => 4,
        [Coupling, Settled] | [Settled, Coupling] => 5,
        [Coupling, Coupling] => 6,
    }
}

/// Commits where there is no licence.
pub fn commit(house: &mut House, quoted: &Quote) -> Result<(), u32> {
    commit_on(&Licence::none(), house, quoted)
}

/// Lands the pipe of a quote that equals one made now; otherwise, and where that declines, the refusal.
pub fn commit_on(licence: &Licence, house: &mut House, quoted: &Quote) -> Result<(), u32> {
    if quote_on(licence, house, quoted.pipe) != *quoted {
        return Err(OTHER_QUOTE);
    }
    house.land_pipe_on(licence, quoted.pipe).map_err(number)
}

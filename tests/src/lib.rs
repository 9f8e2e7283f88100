//! A second implementation of documents 01 and 02, for comparison.
//!
//! - [`house`], [`run`] and [`ring`]: fittings, pipes, runs, rings and tags;
//! - [`cases`]: what landing a pipe comes to, for counting;
//! - [`licence`]: which of eight houses may land a pipe;
//! - [`list`]: the list of records, read and written;
//! - [`queries`]: find, distance and sheet;
//! - [`quote`]: what a pipe would cost, and its commit;
//! - [`opened`]: a sheet that is fetched line by line while landing goes on;
//! - [`removal`]: a pipe taken out, and the report;
//! - [`calls`]: the same as calls from C answer them;
//! - [`lent`]: the same for eight houses over lent tables, and what the tables hold;
//! - [`print`]: what the printing program prints;
//! - [`judge`]: the verdict on a contractor's sheet;
//! - [`valve`]: which recipe is at the valve;
//! - [`plan`]: when a change of recipe can go through;
//! - [`gen`]: lists of every kind, drawn from a seed;
//! - [`times`]: how often each tag is re-hung;
//! - [`arguments`], [`child`], [`tally`] and [`workers`]: reading a command line, asking a binary,
//!   counting outcomes, and doing so on every core.

pub mod arguments;
pub mod calls;
pub mod cases;
pub mod child;
pub mod gen;
pub mod house;
pub mod judge;
pub mod lent;
pub mod licence;
pub mod list;
pub mod opened;
pub mod plan;
pub mod print;
pub mod queries;
pub mod quote;
pub mod refusal;
pub mod removal;
pub mod ring;
pub mod run;
pub mod tally;
pub mod times;
pub mod valve;
pub mod workers;

#[cfg(test)]
mod eight;
#[cfg(test)]
mod invariants;
#[cfg(test)]
mod series;
#[cfg(test)]
mod values;

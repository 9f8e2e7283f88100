//! A house as text, and the list of records that is written of it.

pub mod records;
pub mod text;

//! An assignment year: import capability on interties, assigned to load serving
//! entities (holders) in whole kW, by the rules of the year (docs/RULES.md). It was
//! written from the rules' text alone; READING.md says how the text was read.
//!
//! - [`share_out`]: a pool shared out over claims by weights.
//! - [`sheet`]: the year's sheet, read and checked.
//! - [`year`]: the year's state and when it is orderly.
//! - [`opening`]: Steps 1 to 7, from a sheet to the state.
//! - [`calls`]: trade, request, close, take, move and lock.
//! - [`beside`]: carry, same and post.
//! - [`journal`]: a journal of calls read from text, run and printed.
//! - [`table`]: a sheet as comma-separated text, and back.
#![forbid(unsafe_code)]

pub mod answer;
pub mod beside;
pub mod calls;
pub mod journal;
pub mod opening;
pub mod share_out;
pub mod sheet;
pub mod table;
pub mod year;

pub use answer::Answer;
pub use sheet::Sheet;
pub use year::Year;

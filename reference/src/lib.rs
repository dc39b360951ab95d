//! The playback scheduler a second time, written from documents 00 and 01 alone.
//!
//! It decides everything by the papers' definitions, recomputes whatever it needs and shares no code with the proved
//! crates, so that the two can be compared. [`cases`] writes the inputs and the expected outputs of the test programs.
#![forbid(unsafe_code)]

pub mod bounds;
pub mod cases;
pub mod console;
pub mod day;
pub mod desk;
pub mod exhaustive;
pub mod film_file;
pub mod loss;
pub mod plain_day;
pub mod refusal;
pub mod schedule;

//! The verified playback scheduler: what to read, send and hold in each round of a day of recorded films.
//!
//! [`FilmFile`] is an accepted film file: its entries, summaries, schedules and least reserves. [`Desk`] is a day: it takes
//! bookings under a disk and a memory limit, answers each with a start or a [`Refusal`], and plays the day round by round.
//! [`journal`] rebuilds a day from its calls. [`lent`] has the archive's calls one to one, over lists of any lengths.
//!
//! A round is the unit of time. Sizes, reserves and what is held are in bytes; the disk limit is in bytes per round. Every call is
//! proved to answer what the papers define for every input, and to end. The calls keep nothing between them, take at most 256 KiB
//! of stack and may run on any threads at once.
//!
//! The build links `liblent.a` from the folder that `PLAYBACK_LIB_DIR` names, or from `target/staticlib` of the repository, where
//! `make lib` writes it.
#![deny(unsafe_op_in_unsafe_fn)]
#![warn(missing_docs)]

mod data;
mod desk;
#[allow(missing_docs)]
pub mod ffi;
mod film_file;
#[allow(missing_docs)]
pub mod journal;
#[allow(missing_docs)]
pub mod lent;
pub mod limits;
mod refusal;

pub use data::{Booking, Day, Line, Request};
pub use desk::{Booked, Desk, Limits, Played, Sheet};
pub use film_file::{Entries, Entry, FilmFile, Summary};
pub use refusal::Refusal;

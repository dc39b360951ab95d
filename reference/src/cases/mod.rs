//! Inputs and expected outputs of the test programs.
//!
//! A test program reads a script, carries out its operations one by one and prints lines. Each family here has a
//! `script`, which draws the input, and a `run`, which is what the test program does, over this implementation; its
//! output is what the test program must print. The scripts' formats are in the folder's README.

pub mod checksum;
pub mod desk;
pub mod figures;
pub mod file_buffer;
pub mod films;
pub mod random;
pub mod schedules;
pub mod script;
pub mod sessions;

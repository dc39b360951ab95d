//! The papers' comparison on our desk: how many streams of one film are admitted under different ways of reserving disk and
//! memory. Every decision is the library's.

pub mod film;
pub mod policy;
pub mod report;
pub mod trial;

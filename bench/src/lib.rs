//! The scheduler measured over its C interface, the papers' comparison on it, and pictures of a day.

pub mod chart;
pub mod days;
pub mod document;
pub mod fast;
pub mod measure;
pub mod obvious;
pub mod picture;
pub mod scheduler;
pub mod speed;
pub mod stack;
pub mod study;
pub mod svg;
pub mod synthetic;

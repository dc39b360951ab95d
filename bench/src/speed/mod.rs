//! Speed: the library's calls beside the two versions in Rust, how times grow, stack, instructions.

pub mod cases;
pub mod ceilings;
pub mod console;
pub mod contest;
pub mod growth;
pub mod instructions;
pub mod stacks;
pub mod tables;

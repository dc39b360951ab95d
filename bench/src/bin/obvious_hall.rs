//! The program `hall` over the obvious version: `films.bin` and commands from standard input.

use bench::obvious::console::serve;
use std::fs;
use std::io::{stdin, stdout};

fn main() {
    let file = fs::read("films.bin").unwrap_or_default();
    serve(&file, stdin().lock(), stdout().lock());
}

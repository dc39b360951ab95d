//! The program `hall`: reads `films.bin`, then commands from standard input, each answered at once.
#![forbid(unsafe_code)]

use reference::console::Console;
use std::fs;
use std::io::{self, BufRead, Write};

fn main() -> io::Result<()> {
    let file = fs::read("films.bin").unwrap_or_default();
    let mut output = io::stdout();
    let mut console = match Console::start(&file) {
        Ok(console) => console,
        Err(refusal) => return writeln!(output, "NO {}", refusal.number()),
    };
    let mut input = io::stdin().lock();
    let mut line = Vec::new();
    while input.read_until(b'\n', &mut line)? > 0 {
        if line.last() == Some(&b'\n') {
            line.pop();
        }
        output.write_all(console.answer(&line).as_bytes())?;
        output.flush()?;
        line.clear();
    }
    Ok(())
}

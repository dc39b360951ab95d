//! A session of the program: what it prints, held against what the second implementation prints.

use crate::program::{write, Program};
use reference::console::{session, Console};
use std::path::Path;
use std::process::ChildStdin;
use std::time::Duration;
use std::{fs, mem, thread};

/// Time after which a piece that ends no line has mostly been read by itself.
const PAUSE: Duration = Duration::from_micros(100);

/// Bytes of an output that are shown where it is another than expected.
const SHOWN: usize = 200;

/// A film file, none if there is none, and an input in pieces.
#[derive(Clone, Debug)]
pub struct Session {
    pub file: Option<Vec<u8>>,
    pub pieces: Vec<Vec<u8>>,
    /// Whether a piece is sent only when every line that ended before it has been answered.
    pub answered: bool,
}

impl Session {
    /// Runs the program in an empty folder and gives what it printed, or how that differs from what it must print.
    pub fn run(&self, hall: &Path, folder: &Path) -> Result<Vec<u8>, String> {
        if let Some(file) = &self.file {
            fs::write(folder.join("films.bin"), file).map_err(|error| error.to_string())?;
        }
        let file = self.file.as_deref().unwrap_or(&[]);
        let expected = session(file, &self.pieces.concat());
        let mut program = Program::start(hall, folder).map_err(|error| error.to_string())?;
        let input = program.take_input();
        let sent = match Console::start(file) {
            Ok(console) if self.answered => self.send_answered(&mut program, input, console),
            _ => self.send(&mut program, input),
        };
        let printed = mem::take(&mut program.printed);
        if sent.is_ok() && printed == expected.as_bytes() {
            return Ok(printed);
        }
        let fault = sent.err().unwrap_or("it prints something else".into());
        Err(fault + &difference(expected.as_bytes(), &printed))
    }

    /// Sends one piece after the other, whatever the program has printed.
    fn send(&self, program: &mut Program, mut input: ChildStdin) -> Result<(), String> {
        thread::scope(|scope| {
            let writer = scope.spawn(move || {
                let mut pieces = self.pieces.iter();
                pieces.try_for_each(|piece| write(&mut input, piece))
            });
            let ended = program.wait_for_end();
            // The writer would wait for a program that reads no more.
            program.kill();
            let written = writer.join().expect("a writer that ends");
            ended.and(written)
        })
    }

    /// Sends each piece when every line that ended before it has been answered.
    fn send_answered(
        &self,
        program: &mut Program,
        mut input: ChildStdin,
        mut console: Console,
    ) -> Result<(), String> {
        let mut line = Vec::new();
        let mut answers = 0;
        for piece in &self.pieces {
            write(&mut input, piece)?;
            for &byte in piece {
                if byte == b'\n' {
                    answers += console.answer(&line).len();
                    line.clear();
                } else {
                    line.push(byte);
                }
            }
            if program.printed.len() < answers {
                program.wait_for(answers)?;
            } else {
                thread::sleep(PAUSE);
            }
        }
        drop(input);
        program.wait_for_end()
    }
}

/// Both outputs from the first line on that is not the same.
fn difference(expected: &[u8], printed: &[u8]) -> String {
    let pairs = expected.iter().zip(printed);
    let same = pairs.take_while(|(one, other)| one == other).count();
    let ends = |byte: &u8| *byte == b'\n';
    let line = expected[..same]
        .iter()
        .rposition(ends)
        .map_or(0, |end| end + 1);
    let shown = |text: &[u8]| {
        let rest = &text[line..];
        rest[..rest.len().min(SHOWN)].escape_ascii().to_string()
    };
    format!(
        "\nafter {line} bytes of output\nexpected: {}\nprinted:  {}",
        shown(expected),
        shown(printed)
    )
}

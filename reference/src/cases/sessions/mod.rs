//! Sessions of the program `hall`: what it prints for a film file and an input of any kind.

mod days;
pub mod draw;
mod drawn;
mod files;
mod lines;

pub use days::full_list;
pub use files::{longest_file, refused_files};

use super::file_buffer::FileBuffer;
use super::random::Random;
use super::script::{Cursor, Script};
use crate::console::session;
use crate::film_file::{encode, Film};

const BEGIN: u8 = 16;
const FEED: u8 = 17;
const REPEAT: u8 = 18;
const END: u8 = 19;

/// Bytes that are all the same from which on a script has them as one REPEAT.
const LONG_RUN: usize = 64;

/// The line that the test program prints at the end of a session.
const MARK: &str = "END\n";

/// What the test program does with a script.
pub fn run(script: &[u8]) -> Vec<u8> {
    let mut script = Cursor::new(script);
    let mut buffer = FileBuffer::new();
    let mut input = Vec::new();
    let mut output = String::new();
    while let Some(opcode) = script.opcode() {
        match opcode {
            BEGIN => input.clear(),
            FEED => {
                let count = usize::from(script.u16());
                input.extend(script.bytes(count));
            }
            REPEAT => {
                let count = script.u32() as usize;
                input.resize(input.len() + count, script.u8());
            }
            END => {
                output += &session(buffer.file(), &input);
                output += MARK;
            }
            _ => assert!(buffer.carry_out(opcode, &mut script), "opcode {opcode}"),
        }
    }
    output.into_bytes()
}

impl Script {
    fn begin(&mut self) -> &mut Script {
        self.u8(BEGIN)
    }

    /// FEED, and REPEAT for a long run of one byte.
    fn feed(&mut self, input: &[u8]) -> &mut Script {
        let mut short = Vec::new();
        for run in input.chunk_by(|byte, next| byte == next) {
            if run.len() < LONG_RUN {
                short.extend(run);
            } else {
                self.feed_short(&short).repeat(run.len() as u32, run[0]);
                short.clear();
            }
        }
        self.feed_short(&short)
    }

    fn feed_short(&mut self, input: &[u8]) -> &mut Script {
        for part in input.chunks(65_535) {
            self.u8(FEED).u16(part.len() as u16).text(part);
        }
        self
    }

    fn repeat(&mut self, count: u32, value: u8) -> &mut Script {
        self.u8(REPEAT).u32(count).u8(value)
    }

    fn end(&mut self) -> &mut Script {
        self.u8(END)
    }

    /// A session of one piece.
    fn session(&mut self, input: &str) -> &mut Script {
        self.begin().feed(input.as_bytes()).end()
    }
}

/// The session of document 01: its film file and its input.
pub fn document() -> (Vec<u8>, &'static str) {
    let input = "OPEN 20 141433 18\n\
                 BOOK 1 1 1 6 1 0 0\n\
                 BOOK 2 1 1 6 2 0 10\n\
                 BOOK 3 1 1 6 1 0 5\n\
                 PLAY\n\
                 PLAY\n";
    (encode(&[film(1, &[8, 8, 8, 2, 6, 4])]), input)
}

/// The script: the sessions of each group below.
pub fn script() -> Vec<u8> {
    let mut script = Script::default();
    let mut random = Random::new(0x68_61_6C_6C);
    let (file, input) = document();
    script.file(&file).session(input);
    lines::lines_of_every_kind(&mut script);
    lines::numbers_at_their_bounds(&mut script);
    days::days(&mut script);
    days::shift_changes(&mut script);
    script.session(&full_list());
    drawn::hostile_sessions(&mut script, &mut random);
    drawn::no_commands(&mut script, &mut random);
    drawn::drawn_sessions(&mut script, &mut random);
    drawn::sessions_in_pieces(&mut script, &mut random);
    files::files(&mut script);
    script.bytes
}

fn film(number: u16, sizes: &[u32]) -> Film {
    Film {
        number,
        sizes: sizes.to_vec(),
    }
}

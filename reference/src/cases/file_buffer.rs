//! The film file of a script: a buffer that operations write to, and the number of its first bytes that are the file.

use super::script::{Cursor, Script};

/// Bytes of the buffer: the largest legal film file and one byte more.
pub const BUFFER: usize = 1_048_839;

const LEN: u8 = 1;
const POKE: u8 = 2;
const FILL: u8 = 3;
const PUT: u8 = 4;
const COPY: u8 = 9;

/// The buffer, every byte 0 at first, and the file's length, 0 at first.
#[derive(Clone, Debug)]
pub struct FileBuffer {
    bytes: Vec<u8>,
    length: usize,
}

impl FileBuffer {
    pub fn new() -> FileBuffer {
        FileBuffer {
            bytes: vec![0; BUFFER],
            length: 0,
        }
    }

    /// The film file.
    pub fn file(&self) -> &[u8] {
        &self.bytes[..self.length]
    }

    /// Carries out the operation if it is one of the buffer's, and says whether it was.
    pub fn carry_out(&mut self, opcode: u8, arguments: &mut Cursor) -> bool {
        match opcode {
            LEN => self.length = arguments.u32() as usize,
            POKE => {
                let position = arguments.u32() as usize;
                self.bytes[position] = arguments.u8();
            }
            FILL => {
                let from = arguments.u32() as usize;
                let to = arguments.u32() as usize;
                self.bytes[from..to].fill(arguments.u8());
            }
            PUT => {
                let position = arguments.u32() as usize;
                let count = usize::from(arguments.u16());
                self.bytes[position..position + count].copy_from_slice(arguments.bytes(count));
            }
            COPY => {
                let from = arguments.u32() as usize;
                let to = arguments.u32() as usize;
                let count = arguments.u32() as usize;
                for index in 0..count {
                    self.bytes[to + index] = self.bytes[from + index];
                }
            }
            _ => return false,
        }
        true
    }
}

impl Default for FileBuffer {
    fn default() -> FileBuffer {
        FileBuffer::new()
    }
}

/// The buffer's operations, as a script has them.
impl Script {
    /// LEN: the file is the buffer's first `length` bytes.
    pub fn len(&mut self, length: usize) -> &mut Script {
        self.u8(LEN).u32(length as u32)
    }

    /// POKE: sets one byte.
    pub fn poke(&mut self, position: usize, value: u8) -> &mut Script {
        self.u8(POKE).u32(position as u32).u8(value)
    }

    /// FILL: sets the bytes from `from` to before `to`.
    pub fn fill(&mut self, from: usize, to: usize, value: u8) -> &mut Script {
        self.u8(FILL).u32(from as u32).u32(to as u32).u8(value)
    }

    /// PUT: sets the bytes from `position` on.
    pub fn put(&mut self, position: usize, bytes: &[u8]) -> &mut Script {
        self.u8(PUT)
            .u32(position as u32)
            .u16(bytes.len() as u16)
            .text(bytes)
    }

    /// COPY: byte after byte in rising order, so that a copy to a little further on repeats what stands there.
    pub fn copy(&mut self, from: usize, to: usize, count: usize) -> &mut Script {
        self.u8(COPY)
            .u32(from as u32)
            .u32(to as u32)
            .u32(count as u32)
    }

    /// Puts a whole file at the buffer's begin and sets the length.
    pub fn file(&mut self, file: &[u8]) -> &mut Script {
        for (index, part) in file.chunks(32_768).enumerate() {
            self.put(index * 32_768, part);
        }
        self.len(file.len())
    }
}

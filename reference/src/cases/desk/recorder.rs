//! A script that is carried out while it is written, so that what is drawn next can depend on the day as it stands.

use super::{
    Lent, BOOK, BOOK_NARROW, DAY, DROP, GARBAGE, MAX_PLACES, MAX_REPORT, MAX_SHEET, OPEN, PLACES,
    PLAY, RECORD, REPORT, SHEETS,
};
use crate::cases::script::{Cursor, Output, Script};
use crate::day::{Booking, Day, Request};
use crate::film_file::{encode, Film};

#[derive(Clone, Debug)]
pub struct Recorder {
    script: Script,
    lent: Lent,
}

impl Recorder {
    pub fn new() -> Recorder {
        Recorder {
            script: Script::default(),
            lent: Lent::new(),
        }
    }

    pub fn script(self) -> Vec<u8> {
        self.script.bytes
    }

    /// Everything lent, as the calls so far left it.
    pub fn lent(&self) -> &Lent {
        &self.lent
    }

    /// Writes operations and carries them out. The answer is what they print.
    fn write(&mut self, operations: impl FnOnce(&mut Script)) -> String {
        let begin = self.script.bytes.len();
        operations(&mut self.script);
        let mut cursor = Cursor::new(&self.script.bytes[begin..]);
        let mut output = Output::default();
        while let Some(opcode) = cursor.opcode() {
            self.lent.carry_out(opcode, &mut cursor, &mut output);
        }
        String::from_utf8(output.bytes).expect("text")
    }

    /// Any operations on the film file's buffer.
    pub fn buffer(&mut self, operations: impl FnOnce(&mut Script)) {
        self.write(operations);
    }

    pub fn films(&mut self, films: &[Film]) {
        let file = encode(films);
        if self.lent.file.file() != file {
            self.write(|script| {
                script.file(&file);
            });
        }
    }

    /// The day's fields, as far as they differ.
    pub fn day(&mut self, day: Day) {
        let fields = |day: &Day| [day.rounds, day.disk, day.memory, day.now, day.count];
        let before = fields(&self.lent.day);
        for (index, value) in fields(&day).into_iter().enumerate() {
            if value != before[index] {
                self.write(|script| {
                    script.u8(DAY).u8(index as u8).u64(value);
                });
            }
        }
    }

    /// A record, if it differs.
    pub fn record(&mut self, place: usize, record: Booking) {
        if self.lent.records[place] != record {
            self.write(|script| {
                script.u8(RECORD).u8(place as u8).u32(record.name);
                script.u16(record.film).u32(record.start);
                script.u16(record.prefetch).u32(record.reserve);
                script.u64(record.cabs);
            });
        }
    }

    pub fn places(&mut self, places: usize) {
        assert!(places <= MAX_PLACES);
        if self.lent.places != places {
            self.write(|script| {
                script.u8(PLACES).u16(places as u16);
            });
        }
    }

    pub fn sheets(&mut self, lengths: [usize; 3]) {
        assert!(lengths.iter().all(|&length| length <= MAX_SHEET));
        if self.lent.sheet_lengths != lengths {
            self.write(|script| {
                script.u8(SHEETS);
                for length in lengths {
                    script.u16(length as u16);
                }
            });
        }
    }

    pub fn garbage(&mut self, seed: u32) {
        self.write(|script| {
            script.u8(GARBAGE).u32(seed);
        });
    }

    pub fn report(&mut self, length: usize) {
        assert!(length <= MAX_REPORT);
        if self.lent.report_length != length {
            self.write(|script| {
                script.u8(REPORT).u16(length as u16);
            });
        }
    }

    pub fn open(&mut self, rounds: u64, disk: u64, memory: u64) {
        self.write(|script| {
            script.u8(OPEN).u64(rounds).u64(disk).u64(memory);
        });
    }

    /// A booking. The answer's number and start, or its refusal, come first in what is printed.
    pub fn book(&mut self, request: Request) -> String {
        let narrow = request.film <= u64::from(u16::MAX)
            && request.prefetch <= u64::from(u16::MAX)
            && [request.reserve, request.first, request.last]
                .iter()
                .all(|&number| number <= u64::from(u32::MAX));
        self.write(|script| {
            let opcode = if narrow { BOOK_NARROW } else { BOOK };
            script.u8(opcode).u32(request.name);
            if narrow {
                script.u16(request.film as u16);
                script.u16(request.prefetch as u16);
                script.u32(request.reserve as u32).u64(request.cabs);
                script.u32(request.first as u32).u32(request.last as u32);
            } else {
                script.u64(request.film).u64(request.prefetch);
                script.u64(request.reserve).u64(request.cabs);
                script.u64(request.first).u64(request.last);
            }
        })
    }

    pub fn drop_booking(&mut self, name: u32) {
        self.write(|script| {
            script.u8(DROP).u32(name);
        });
    }

    pub fn play(&mut self) {
        self.write(|script| {
            script.u8(PLAY);
        });
    }
}

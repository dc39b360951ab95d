//! The desk's cases: opening, booking, dropping and playing on days of every kind, each call followed by a checksum of
//! everything lent.

mod drawn;
mod limits;
mod long_days;
mod order;
mod recorder;
mod unsound;

use super::checksum::Checksum;
use super::file_buffer::FileBuffer;
use super::script::{Cursor, Output};
use crate::day::{Booking, Day, Line, Request, Sheet};
use crate::desk;
use crate::refusal::Refusal;
use recorder::Recorder;

const DAY: u8 = 16;
const RECORD: u8 = 17;
const PLACES: u8 = 18;
const SHEETS: u8 = 19;
const GARBAGE: u8 = 20;
const REPORT: u8 = 21;
const OPEN: u8 = 32;
const BOOK: u8 = 33;
const DROP: u8 = 34;
const PLAY: u8 = 35;
const BOOK_NARROW: u8 = 36;

/// Records that a script sets and a checksum takes in.
pub const RECORDS: usize = 256;
/// Places of the longest record list.
pub const MAX_PLACES: usize = 300;
/// Places of the longest sheet list.
pub const MAX_SHEET: usize = 10_240;
/// Lines of the longest report.
pub const MAX_REPORT: usize = 256;
/// Garbage is below this prime.
const GARBAGE_MODULUS: u64 = 65_521;

/// Everything that the calls are lent.
#[derive(Clone, Debug)]
pub struct Lent {
    pub file: FileBuffer,
    pub day: Day,
    pub records: Vec<Booking>,
    pub places: usize,
    pub sheet: Sheet,
    pub sheet_lengths: [usize; 3],
    pub report: Vec<Line>,
    pub report_length: usize,
}

/// What the test program does with a script.
pub fn run(script: &[u8]) -> Vec<u8> {
    let mut script = Cursor::new(script);
    let mut lent = Lent::new();
    let mut output = Output::default();
    while let Some(opcode) = script.opcode() {
        lent.carry_out(opcode, &mut script, &mut output);
    }
    output.bytes
}

/// The script: the cases of each module.
pub fn script() -> Vec<u8> {
    let mut recorder = Recorder::new();
    limits::figures(&mut recorder);
    limits::openings(&mut recorder);
    order::every_pair_of_questions(&mut recorder);
    unsound::damaged_records(&mut recorder);
    limits::shift_changes(&mut recorder);
    limits::full_lists(&mut recorder);
    drawn::days(&mut recorder);
    drawn::tiny_days(&mut recorder);
    long_days::all(&mut recorder);
    recorder.script()
}

impl Lent {
    fn new() -> Lent {
        Lent {
            file: FileBuffer::new(),
            day: Day::default(),
            records: vec![Booking::default(); MAX_PLACES],
            places: 0,
            sheet: Sheet {
                open: vec![0; MAX_SHEET],
                reserves: vec![0; MAX_SHEET],
                held: vec![0; MAX_SHEET],
            },
            sheet_lengths: [0; 3],
            report: vec![Line::default(); MAX_REPORT],
            report_length: 0,
        }
    }

    /// Carries out one operation.
    fn carry_out(&mut self, opcode: u8, script: &mut Cursor, output: &mut Output) {
        let answer = match opcode {
            OPEN => {
                let (rounds, disk, memory) = (script.u64(), script.u64(), script.u64());
                self.open(rounds, disk, memory)
            }
            BOOK | BOOK_NARROW => self.book(&request(opcode, script)),
            DROP => self.drop_booking(script.u32()),
            PLAY => self.play(),
            _ => return self.set(opcode, script),
        };
        let mut fields = answer.unwrap_or_else(|refusal| vec![refusal.number()]);
        fields.push(self.checksum());
        output.line(&fields);
    }

    /// The operations that write what is lent.
    fn set(&mut self, opcode: u8, script: &mut Cursor) {
        match opcode {
            DAY => {
                let fields = [
                    &mut self.day.rounds,
                    &mut self.day.disk,
                    &mut self.day.memory,
                    &mut self.day.now,
                    &mut self.day.count,
                ];
                let index = usize::from(script.u8());
                *fields.into_iter().nth(index).expect("a field") = script.u64();
            }
            RECORD => {
                let place = usize::from(script.u8());
                self.records[place] = Booking {
                    name: script.u32(),
                    film: script.u16(),
                    start: script.u32(),
                    prefetch: script.u16(),
                    reserve: script.u32(),
                    cabs: script.u64(),
                };
            }
            PLACES => self.places = usize::from(script.u16()),
            SHEETS => self.sheet_lengths = [0; 3].map(|_| usize::from(script.u16())),
            GARBAGE => self.garbage(u64::from(script.u32())),
            REPORT => self.report_length = usize::from(script.u16()),
            _ => assert!(self.file.carry_out(opcode, script), "opcode {opcode}"),
        }
    }

    fn garbage(&mut self, seed: u64) {
        let value =
            |list: u64, place: usize| (seed + 31 * place as u64 + 7 * list) % GARBAGE_MODULUS;
        for place in 0..MAX_SHEET {
            self.sheet.open[place] = value(0, place);
            self.sheet.reserves[place] = value(1, place);
            self.sheet.held[place] = value(2, place);
        }
        for (place, line) in self.report.iter_mut().enumerate() {
            *line = Line {
                name: value(3, place) as u32,
                read: value(4, place),
                send: value(5, place),
                held: value(6, place),
            };
        }
    }

    /// The sheet's lists as they are lent.
    fn lent_sheet(&self) -> Sheet {
        Sheet {
            open: self.sheet.open[..self.sheet_lengths[0]].to_vec(),
            reserves: self.sheet.reserves[..self.sheet_lengths[1]].to_vec(),
            held: self.sheet.held[..self.sheet_lengths[2]].to_vec(),
        }
    }

    /// The lent lists come back.
    fn take_back(&mut self, sheet: &Sheet) {
        self.sheet.open[..self.sheet_lengths[0]].copy_from_slice(&sheet.open);
        self.sheet.reserves[..self.sheet_lengths[1]].copy_from_slice(&sheet.reserves);
        self.sheet.held[..self.sheet_lengths[2]].copy_from_slice(&sheet.held);
    }

    fn open(&mut self, rounds: u64, disk: u64, memory: u64) -> Result<Vec<u64>, Refusal> {
        let mut sheet = self.lent_sheet();
        let answer = desk::open(&mut self.day, &mut sheet, rounds, disk, memory);
        self.take_back(&sheet);
        answer.map(|()| vec![0])
    }

    fn book(&mut self, request: &Request) -> Result<Vec<u64>, Refusal> {
        let mut sheet = self.lent_sheet();
        let records = &mut self.records[..self.places];
        let answer = desk::book(
            self.file.file(),
            &mut self.day,
            records,
            &mut sheet,
            request,
        );
        self.take_back(&sheet);
        answer.map(|start| vec![0, start])
    }

    fn drop_booking(&mut self, name: u32) -> Result<Vec<u64>, Refusal> {
        let mut sheet = self.lent_sheet();
        let records = &mut self.records[..self.places];
        let answer = desk::drop_booking(self.file.file(), &mut self.day, records, &mut sheet, name);
        self.take_back(&sheet);
        answer.map(|()| vec![0])
    }

    fn play(&mut self) -> Result<Vec<u64>, Refusal> {
        let records = &self.records[..self.places];
        let report = &mut self.report[..self.report_length];
        let played = desk::play(self.file.file(), &mut self.day, records, report)?;
        Ok(vec![0, played.open, played.cabs])
    }

    /// The checksum of the day's fields, every record, every lent place of the sheet's lists and every lent report line.
    fn checksum(&self) -> u64 {
        let mut checksum = Checksum::default();
        let day = &self.day;
        checksum.add_all(&[day.rounds, day.disk, day.memory, day.now, day.count]);
        for record in &self.records[..RECORDS] {
            checksum.add_all(&[
                u64::from(record.name),
                u64::from(record.film),
                u64::from(record.start),
                u64::from(record.prefetch),
                u64::from(record.reserve),
                record.cabs,
            ]);
        }
        let sheet = self.lent_sheet();
        checksum.add_all(&sheet.open);
        checksum.add_all(&sheet.reserves);
        checksum.add_all(&sheet.held);
        for line in &self.report[..self.report_length] {
            checksum.add_all(&[u64::from(line.name), line.read, line.send, line.held]);
        }
        checksum.0
    }
}

/// The arguments of a booking, all of 64 bits or as narrow as a request within the bounds.
fn request(opcode: u8, script: &mut Cursor) -> Request {
    let name = script.u32();
    if opcode == BOOK {
        Request {
            name,
            film: script.u64(),
            prefetch: script.u64(),
            reserve: script.u64(),
            cabs: script.u64(),
            first: script.u64(),
            last: script.u64(),
        }
    } else {
        Request {
            name,
            film: u64::from(script.u16()),
            prefetch: u64::from(script.u16()),
            reserve: u64::from(script.u32()),
            cabs: script.u64(),
            first: u64::from(script.u32()),
            last: u64::from(script.u32()),
        }
    }
}

#[cfg(test)]
mod tests {
    use super::*;
    use std::collections::BTreeSet;

    #[test]
    fn every_refusal_of_the_desk_is_reached() {
        let output = String::from_utf8(run(&script())).expect("text");
        let answers: BTreeSet<&str> = output
            .lines()
            .filter_map(|line| line.split(' ').next())
            .collect();
        let of_schedules_only = 13;
        for refusal in (0..=23).filter(|&refusal| refusal != of_schedules_only) {
            assert!(answers.contains(refusal.to_string().as_str()), "{refusal}");
        }
    }
}

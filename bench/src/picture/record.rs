//! A day run through the library, call by call, and what became of each call.

use super::refused::{blocked, Blocked};
use crate::scheduler::Sheet;
use playback::journal::{Call, BOOK, DROP, ENTRY, PLAY};
use playback::limits::{MAX_BOOKINGS, MAX_DAY};
use playback::{lent, Booking, Day, Line, Refusal, Request};
use reference::console::{command, lines, Command, LIST_PLACES, SHEET_ROUNDS};

/// A booking that was accepted.
#[derive(Clone, Debug)]
pub struct Accepted {
    pub booking: Booking,
    /// The first start that was asked for.
    pub first: u64,
    /// The film's rounds n.
    pub rounds: u64,
    pub dropped: bool,
}

/// A booking that was refused.
#[derive(Clone, Debug)]
pub struct Refused {
    pub request: Request,
    /// The film's rounds n; 0 where it is not in the file.
    pub rounds: u64,
    pub number: u32,
    /// For 22, what refuses each start of the window.
    pub blocked: Option<Blocked>,
}

/// A day and its history.
pub struct Record {
    pub file: Vec<u8>,
    pub day: Day,
    pub sheet: Sheet,
    records: Vec<Booking>,
    pub accepted: Vec<Accepted>,
    pub refused: Vec<Refused>,
    /// Calls other than bookings that were refused, and lines or entries that are no call.
    pub other_refusals: u64,
}

impl Record {
    /// Nothing is open. The sheet has that many rounds and the list that many places.
    fn new(file: &[u8], rounds: usize, places: usize) -> Record {
        Record {
            file: file.to_vec(),
            day: Day::default(),
            sheet: Sheet::new(rounds),
            records: vec![Booking::default(); places],
            accepted: Vec::new(),
            refused: Vec::new(),
            other_refusals: 0,
        }
    }

    /// A session of the program `hall`: its film file and its commands. The picture is of the day opened last.
    pub fn of_session(file: &[u8], commands: &[u8]) -> Record {
        let mut record = Record::new(file, SHEET_ROUNDS, LIST_PLACES);
        for line in lines(commands) {
            match command(line) {
                Ok(Command::Open {
                    rounds,
                    disk,
                    memory,
                }) => record.open(rounds, disk, memory),
                Ok(Command::Book(request)) => record.book(Request {
                    name: request.name,
                    film: request.film,
                    prefetch: request.prefetch,
                    reserve: request.reserve,
                    cabs: request.cabs,
                    first: request.first,
                    last: request.last,
                }),
                Ok(Command::Drop { name }) => record.drop_booking(name),
                Ok(Command::Play) => record.play(LIST_PLACES as u64),
                Err(_) => record.other_refusals += 1,
            }
        }
        record
    }

    /// A journal's calls on a day opened with these limits.
    pub fn of_journal(file: &[u8], rounds: u64, disk: u64, memory: u64, journal: &[u64]) -> Record {
        let places = rounds.min(MAX_DAY) as usize;
        let mut record = Record::new(file, places, MAX_BOOKINGS);
        record.open(rounds, disk, memory);
        for entry in journal.chunks_exact(ENTRY) {
            match (entry[0], u32::try_from(entry[1])) {
                (BOOK, Ok(name)) => record.book(Request {
                    name,
                    film: entry[2],
                    prefetch: entry[3],
                    reserve: entry[4],
                    cabs: entry[5],
                    first: entry[6],
                    last: entry[7],
                }),
                (DROP, Ok(name)) => record.drop_booking(name),
                (PLAY, _) => record.play(entry[1]),
                _ => record.other_refusals += 1,
            }
        }
        record
    }

    /// The session's or journal's calls since the day was opened, as a journal.
    pub fn journal_of(commands: &[u8]) -> Vec<u64> {
        let mut journal = Vec::new();
        for line in lines(commands) {
            match command(line) {
                Ok(Command::Open { .. }) => journal.clear(),
                Ok(Command::Book(request)) => journal.extend(
                    Call::Book(Request {
                        name: request.name,
                        film: request.film,
                        prefetch: request.prefetch,
                        reserve: request.reserve,
                        cabs: request.cabs,
                        first: request.first,
                        last: request.last,
                    })
                    .words(),
                ),
                Ok(Command::Drop { name }) => journal.extend(Call::Drop(name).words()),
                Ok(Command::Play) => journal.extend(Call::Play(LIST_PLACES as u64).words()),
                Err(_) => {}
            }
        }
        journal
    }

    fn open(&mut self, rounds: u64, disk: u64, memory: u64) {
        let reply = lent::open(
            self.day,
            rounds,
            disk,
            memory,
            &mut self.sheet.opens,
            &mut self.sheet.reserves,
            &mut self.sheet.helds,
        );
        self.day = reply.day;
        if reply.refusal == 0 {
            self.accepted.clear();
            self.refused.clear();
            self.other_refusals = 0;
        } else {
            self.other_refusals += 1;
        }
    }

    fn book(&mut self, request: Request) {
        let reply = lent::book(
            &self.file,
            self.day,
            &mut self.records,
            request,
            &mut self.sheet.opens,
            &mut self.sheet.reserves,
            &mut self.sheet.helds,
        );
        let rounds = film_rounds(&self.file, request.film);
        if reply.refusal == 0 {
            self.accepted.push(Accepted {
                booking: self.records[self.day.count as usize],
                first: request.first,
                rounds,
                dropped: false,
            });
        } else {
            let no_start = reply.refusal == Refusal::NoStart.number();
            let standing = &self.records[..self.day.count as usize];
            let blocked =
                no_start.then(|| blocked(&self.file, &self.day, standing, &self.sheet, &request));
            self.refused.push(Refused {
                request,
                rounds,
                number: reply.refusal,
                blocked,
            });
        }
        self.day = reply.day;
    }

    fn drop_booking(&mut self, name: u32) {
        let reply = lent::drop_booking(
            &self.file,
            self.day,
            &mut self.records,
            name,
            &mut self.sheet.opens,
            &mut self.sheet.reserves,
            &mut self.sheet.helds,
        );
        self.day = reply.day;
        if reply.refusal != 0 {
            self.other_refusals += 1;
            return;
        }
        let mut standing = self.accepted.iter_mut().filter(|other| !other.dropped);
        if let Some(gone) = standing.find(|other| other.booking.name == name) {
            gone.dropped = true;
        }
    }

    fn play(&mut self, report: u64) {
        let mut lines = vec![Line::default(); report.min(MAX_BOOKINGS as u64) as usize];
        let reply = lent::play(&self.file, self.day, &self.records, &mut lines);
        self.day = reply.day;
        self.other_refusals += u64::from(reply.refusal != 0);
    }
}

/// The film's rounds n; 0 where it is not in the file.
pub fn film_rounds(file: &[u8], number: u64) -> u64 {
    let entries = (0..).map(|position| lent::film(file, position));
    let mut entries = entries.take_while(|entry| entry.refusal == 0 && entry.more == 1);
    let entry = entries.find(|entry| u64::from(entry.number) == number);
    entry.map_or(0, |entry| entry.rounds.into())
}

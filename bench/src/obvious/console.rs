//! The program `hall` over the obvious version: a line is read, carried out by one call that works everything out anew, and its
//! answer written.

use super::Obvious;
use crate::scheduler::{Opening, Scheduler, Sheet};
use playback::{Booking, Day, Line, Request};
use reference::console::{command, Command, LIST_PLACES, MAX_FILE, SHEET_ROUNDS};
use std::io::{BufRead, Write};

/// The number of a film file that is too long.
const FILE_TOO_LONG: u32 = 25;

/// The program's state.
struct Console<'a> {
    file: &'a [u8],
    day: Day,
    records: Vec<Booking>,
    sheet: Sheet,
}

impl Console<'_> {
    fn answer(&mut self, line: &[u8]) -> String {
        match command(line) {
            Ok(command) => self.carry_out(command),
            Err(refusal) => refused(refusal.number()),
        }
    }

    fn carry_out(&mut self, command: Command) -> String {
        let version = Obvious::default();
        let round = self.day.now;
        let mut report = [Line::default(); LIST_PLACES];
        let reply = match command {
            Command::Open {
                rounds,
                disk,
                memory,
            } => {
                let opening = Opening {
                    rounds,
                    disk,
                    memory,
                };
                version.open(self.day, opening, &mut self.sheet)
            }
            Command::Book(wish) => {
                let request = Request {
                    name: wish.name,
                    film: wish.film,
                    prefetch: wish.prefetch,
                    reserve: wish.reserve,
                    cabs: wish.cabs,
                    first: wish.first,
                    last: wish.last,
                };
                let (records, sheet) = (&mut self.records, &mut self.sheet);
                version.book(self.file, self.day, records, request, sheet)
            }
            Command::Drop { name } => {
                let (records, sheet) = (&mut self.records, &mut self.sheet);
                version.drop_booking(self.file, self.day, records, name, sheet)
            }
            Command::Play => version.play(self.file, self.day, &self.records, &mut report),
        };
        if reply.refusal != 0 {
            return refused(reply.refusal.into());
        }
        self.day = reply.day;
        match command {
            Command::Open { .. } => "OPENED\n".to_string(),
            Command::Book(wish) => format!("BOOKED {} {}\n", wish.name, reply.start),
            Command::Drop { name } => format!("DROPPED {name}\n"),
            Command::Play => {
                let mut text = format!("ROUND {round} {} {}\n", reply.films, reply.cabs);
                for line in &report[..reply.films as usize] {
                    text += &format!("{} {} {} {}\n", line.name, line.read, line.send, line.held);
                }
                text
            }
        }
    }
}

fn refused(number: u64) -> String {
    format!("NO {number}\n")
}

/// Serves an input to its end.
pub fn serve(file: &[u8], mut input: impl BufRead, mut output: impl Write) {
    let verdict = if file.len() > MAX_FILE {
        FILE_TOO_LONG
    } else {
        Obvious::default().verdict(file)
    };
    if verdict != 0 {
        let _ = output.write_all(refused(verdict.into()).as_bytes());
        return;
    }
    let mut console = Console {
        file,
        day: Day::default(),
        records: vec![Booking::default(); LIST_PLACES],
        sheet: Sheet::new(SHEET_ROUNDS),
    };
    let mut line = Vec::new();
    while input
        .read_until(b'\n', &mut line)
        .is_ok_and(|read| read > 0)
    {
        let text = console.answer(line.strip_suffix(b"\n").unwrap_or(&line));
        let _ = output.write_all(text.as_bytes());
        line.clear();
    }
}

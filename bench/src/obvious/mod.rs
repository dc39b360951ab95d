//! The scheduler as one would first write it: every call works everything out anew, and a booking tries start after start, each
//! time with the schedules and the load of all bookings.

pub mod console;
mod desk;
mod films;

use crate::measure::thread_time;
use crate::scheduler::{Opening, Scheduler, Sheet};
use desk::{
    ask_day, ask_list, ask_sheet, ask_stream, fits, load_of, record_of, reply, try_drop, try_play,
    write,
};
use films::{ask, films_of, find, serves, totals};
use playback::journal::{ANSWER, BOOK, DROP, ENTRY, LINE, PLAY};
use playback::lent::{Replayed, Reply, Reserve};
use playback::limits::{MAX_BOOKINGS, MAX_PREFETCH, MAX_RESERVE};
use playback::{Booking, Day, Line, Refusal, Request};
use std::cell::Cell;

/// The version that gives up on a search when its processor time is over, since some would take hours.
#[derive(Default)]
pub struct Obvious {
    pub until: Cell<Option<f64>>,
    pub gave_up: Cell<bool>,
}

impl Obvious {
    fn time_is_over(&self) -> bool {
        let over = self.until.get().is_some_and(|until| thread_time() > until);
        self.gave_up.set(self.gave_up.get() || over);
        over
    }

    fn try_book(
        &self,
        file: &[u8],
        day: Day,
        records: &mut [Booking],
        request: Request,
        sheet: &mut Sheet,
    ) -> Result<Reply, Refusal> {
        let films = films_of(file)?;
        ask_day(&day)?;
        ask_sheet(&day, sheet)?;
        let standing = ask_list(&films, &day, records)?;
        let new = standing.iter().all(|record| record.name != request.name);
        ask(new, Refusal::NameTaken)?;
        let film = ask_stream(
            &films,
            request.film,
            request.prefetch,
            request.reserve,
            request.cabs,
        )?;
        let rounds = request.prefetch + film.sizes.len() as u64;
        let end = request.last.checked_add(rounds);
        let window = day.now <= request.first
            && request.first <= request.last
            && end.is_some_and(|end| end <= day.rounds);
        ask(window, Refusal::Window)?;
        let place = standing.len();
        let free = place < MAX_BOOKINGS && place < records.len();
        ask(free, Refusal::ListFull)?;
        let mut bookings = standing.to_vec();
        for start in request.first..=request.last {
            let record = record_of(&request, start);
            bookings.push(record);
            if fits(&films, &day, &bookings) {
                write(&load_of(&films, &day, &bookings), sheet);
                records[place] = record;
                let count = day.count + 1;
                return Ok(Reply {
                    start,
                    day: Day { count, ..day },
                    ..Reply::default()
                });
            }
            bookings.pop();
            if self.time_is_over() {
                break;
            }
        }
        write(&load_of(&films, &day, &bookings), sheet);
        Err(Refusal::NoStart)
    }
}

impl Scheduler for Obvious {
    fn name(&self) -> &'static str {
        "obvious Rust"
    }

    fn verdict(&self, file: &[u8]) -> u32 {
        films_of(file).map_or_else(Refusal::number, |_| 0)
    }

    fn schedule(
        &self,
        file: &[u8],
        film: u64,
        prefetch: u64,
        reserve: u64,
        output: &mut [u64],
    ) -> u32 {
        let mut go = || {
            let films = films_of(file)?;
            let film = find(&films, film)?;
            ask(prefetch <= MAX_PREFETCH, Refusal::Prefetch)?;
            ask(reserve <= MAX_RESERVE, Refusal::Reserve)?;
            let rounds = prefetch as usize + film.sizes.len();
            ask(output.len() >= rounds, Refusal::NoRoom)?;
            let (read, _) = totals(&film.sizes, prefetch, reserve);
            ask(read[0] <= reserve, Refusal::NoSchedule)?;
            output[..rounds].copy_from_slice(&read);
            Ok(())
        };
        go().map_or_else(Refusal::number, |()| 0)
    }

    fn least_reserve(&self, file: &[u8], film: u64, prefetch: u64, cap: u64) -> Reserve {
        let go = || {
            let films = films_of(file)?;
            let film = find(&films, film)?;
            ask(prefetch <= MAX_PREFETCH, Refusal::Prefetch)?;
            let largest = film.sizes.iter().copied().max().unwrap_or(0);
            ask(cap >= largest, Refusal::Cap)?;
            let (mut below, mut enough) = (0, largest);
            while below < enough {
                let middle = (below + enough) / 2;
                if serves(&film.sizes, prefetch, middle, cap) {
                    enough = middle;
                } else {
                    below = middle + 1;
                }
            }
            Ok(enough)
        };
        match go() {
            Ok(bytes) => Reserve { refusal: 0, bytes },
            Err(refusal) => Reserve {
                refusal: Refusal::number(refusal),
                bytes: 0,
            },
        }
    }

    fn open(&self, day: Day, opening: Opening, sheet: &mut Sheet) -> Reply {
        let opened = Day {
            rounds: opening.rounds,
            disk: opening.disk,
            memory: opening.memory,
            now: 0,
            count: 0,
        };
        let mut go = || {
            ask_day(&opened)?;
            ask_sheet(&opened, sheet)?;
            write(&load_of(&[], &opened, &[]), sheet);
            Ok(Reply {
                day: opened,
                ..Reply::default()
            })
        };
        reply(day, go())
    }

    fn book(
        &self,
        file: &[u8],
        day: Day,
        records: &mut [Booking],
        request: Request,
        sheet: &mut Sheet,
    ) -> Reply {
        reply(day, self.try_book(file, day, records, request, sheet))
    }

    fn drop_booking(
        &self,
        file: &[u8],
        day: Day,
        records: &mut [Booking],
        name: u32,
        sheet: &mut Sheet,
    ) -> Reply {
        reply(day, try_drop(file, day, records, name, sheet))
    }

    fn play(&self, file: &[u8], day: Day, records: &[Booking], report: &mut [Line]) -> Reply {
        reply(day, try_play(file, day, records, report))
    }

    fn replay(
        &self,
        file: &[u8],
        opening: Opening,
        records: &mut [Booking],
        journal: &[u64],
        log: &mut [u64],
        sheet: &mut Sheet,
    ) -> Replayed {
        let opened = self.open(Day::default(), opening, sheet);
        if opened.refusal != 0 {
            return Replayed {
                refusal: opened.refusal,
                ..Replayed::default()
            };
        }
        let mut day = opened.day;
        let mut entries = 0;
        let mut words = 0;
        for entry in journal.chunks_exact(ENTRY) {
            if log.len() - words < ANSWER || self.time_is_over() {
                break;
            }
            let mut report = Vec::new();
            let answer = match (entry[0], u32::try_from(entry[1])) {
                (BOOK, Ok(name)) => {
                    let request = Request {
                        name,
                        film: entry[2],
                        prefetch: entry[3],
                        reserve: entry[4],
                        cabs: entry[5],
                        first: entry[6],
                        last: entry[7],
                    };
                    self.book(file, day, records, request, sheet)
                }
                (DROP, Ok(name)) => self.drop_booking(file, day, records, name, sheet),
                (PLAY, _) => {
                    report = vec![Line::default(); entry[1].min(MAX_BOOKINGS as u64) as usize];
                    let answer = self.play(file, day, records, &mut report);
                    report.truncate(answer.films as usize);
                    answer
                }
                _ => Reply {
                    refusal: Refusal::Command.number(),
                    day,
                    ..Reply::default()
                },
            };
            let needed = ANSWER + LINE * report.len();
            if log.len() - words < needed {
                break;
            }
            let (first, second) = if answer.films > 0 || answer.cabs > 0 {
                (answer.films, answer.cabs)
            } else {
                (answer.start, 0)
            };
            log[words..words + ANSWER].copy_from_slice(&[answer.refusal.into(), first, second]);
            for (place, line) in report.iter().enumerate() {
                let at = words + ANSWER + LINE * place;
                log[at..at + LINE].copy_from_slice(&[
                    line.name.into(),
                    line.read,
                    line.send,
                    line.held,
                ]);
            }
            words += needed;
            entries += 1;
            day = answer.day;
        }
        Replayed {
            refusal: 0,
            entries,
            words: words as u64,
            day,
        }
    }
}

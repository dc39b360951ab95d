//! The second implementation behind the same calls.

use bench::scheduler::{Opening, Scheduler, Sheet};
use playback::journal::{ANSWER, BOOK, DROP, ENTRY, LINE, PLAY};
use playback::lent::{Replayed, Reply, Reserve};
use playback::{Booking, Day, Line, Request};
use reference::refusal::Refusal;
use reference::{day, desk, film_file, schedule};

pub struct Second;

fn number(refusal: Refusal) -> u32 {
    refusal.number() as u32
}

fn day_of(day: Day) -> day::Day {
    day::Day {
        rounds: day.rounds,
        disk: day.disk,
        memory: day.memory,
        now: day.now,
        count: day.count,
    }
}

fn records_of(records: &[Booking]) -> Vec<day::Booking> {
    let one = |record: &Booking| day::Booking {
        name: record.name,
        film: record.film,
        start: record.start,
        prefetch: record.prefetch,
        reserve: record.reserve,
        cabs: record.cabs,
    };
    records.iter().map(one).collect()
}

fn write_records(records: &mut [Booking], from: &[day::Booking]) {
    for (record, from) in records.iter_mut().zip(from) {
        *record = Booking {
            name: from.name,
            film: from.film,
            start: from.start,
            prefetch: from.prefetch,
            reserve: from.reserve,
            cabs: from.cabs,
        };
    }
}

/// Runs a call on copies of what is lent, and gives back what it left.
fn on_sheet<T>(
    day: Day,
    sheet: &mut Sheet,
    call: impl FnOnce(&mut day::Day, &mut day::Sheet) -> Result<T, Refusal>,
    answer: impl FnOnce(T) -> Reply,
) -> Reply {
    let mut after = day_of(day);
    let mut lists = day::Sheet {
        open: std::mem::take(&mut sheet.opens),
        reserves: std::mem::take(&mut sheet.reserves),
        held: std::mem::take(&mut sheet.helds),
    };
    let result = call(&mut after, &mut lists);
    *sheet = Sheet {
        opens: lists.open,
        reserves: lists.reserves,
        helds: lists.held,
    };
    let day = Day {
        rounds: after.rounds,
        disk: after.disk,
        memory: after.memory,
        now: after.now,
        count: after.count,
    };
    let answer = result.map_or_else(
        |refusal| Reply {
            refusal: number(refusal),
            ..Reply::default()
        },
        answer,
    );
    Reply { day, ..answer }
}

impl Scheduler for Second {
    fn name(&self) -> &'static str {
        "second implementation"
    }

    fn verdict(&self, file: &[u8]) -> u32 {
        film_file::verdict(file).map_or_else(number, |()| 0)
    }

    fn schedule(
        &self,
        file: &[u8],
        film: u64,
        prefetch: u64,
        reserve: u64,
        totals: &mut [u64],
    ) -> u32 {
        schedule::schedule(file, film, prefetch, reserve, totals).map_or_else(number, |()| 0)
    }

    fn least_reserve(&self, file: &[u8], film: u64, prefetch: u64, cap: u64) -> Reserve {
        match schedule::least_reserve(file, film, prefetch, cap) {
            Ok(bytes) => Reserve { refusal: 0, bytes },
            Err(refusal) => Reserve {
                refusal: number(refusal),
                bytes: 0,
            },
        }
    }

    fn open(&self, day: Day, opening: Opening, sheet: &mut Sheet) -> Reply {
        let Opening {
            rounds,
            disk,
            memory,
        } = opening;
        on_sheet(
            day,
            sheet,
            |day, sheet| desk::open(day, sheet, rounds, disk, memory),
            |()| Reply::default(),
        )
    }

    fn book(
        &self,
        file: &[u8],
        day: Day,
        records: &mut [Booking],
        request: Request,
        sheet: &mut Sheet,
    ) -> Reply {
        let request = day::Request {
            name: request.name,
            film: request.film,
            prefetch: request.prefetch,
            reserve: request.reserve,
            cabs: request.cabs,
            first: request.first,
            last: request.last,
        };
        let mut after = records_of(records);
        let reply = on_sheet(
            day,
            sheet,
            |day, sheet| desk::book(file, day, &mut after, sheet, &request),
            |start| Reply {
                start,
                ..Reply::default()
            },
        );
        write_records(records, &after);
        reply
    }

    fn drop_booking(
        &self,
        file: &[u8],
        day: Day,
        records: &mut [Booking],
        name: u32,
        sheet: &mut Sheet,
    ) -> Reply {
        let mut after = records_of(records);
        let reply = on_sheet(
            day,
            sheet,
            |day, sheet| desk::drop_booking(file, day, &mut after, sheet, name),
            |()| Reply::default(),
        );
        write_records(records, &after);
        reply
    }

    fn play(&self, file: &[u8], day: Day, records: &[Booking], report: &mut [Line]) -> Reply {
        let mut lines: Vec<day::Line> = report
            .iter()
            .map(|line| day::Line {
                name: line.name,
                read: line.read,
                send: line.send,
                held: line.held,
            })
            .collect();
        let records = records_of(records);
        let reply = on_sheet(
            day,
            &mut Sheet::default(),
            |day, _| desk::play(file, day, &records, &mut lines),
            |played| Reply {
                films: played.open,
                cabs: played.cabs,
                ..Reply::default()
            },
        );
        for (line, from) in report.iter_mut().zip(&lines) {
            *line = Line {
                name: from.name,
                read: from.read,
                send: from.send,
                held: from.held,
            };
        }
        reply
    }

    fn replay(
        &self,
        file: &[u8],
        opening: Opening,
        records: &mut [Booking],
        journal: &[u64],
        log: &mut [u64],
        sheet: &mut Sheet,
    ) -> Replayed {
        let opened = self.open(Day::default(), opening, sheet);
        if opened.refusal != 0 {
            return Replayed {
                refusal: opened.refusal,
                ..Replayed::default()
            };
        }
        let mut day = opened.day;
        let mut entries = 0;
        let mut words = 0;
        for entry in journal.chunks_exact(ENTRY) {
            if log.len() - words < ANSWER {
                break;
            }
            let (next, answer) = self.entry(file, day, records, entry, sheet);
            if log.len() - words < answer.len() {
                break;
            }
            log[words..words + answer.len()].copy_from_slice(&answer);
            words += answer.len();
            entries += 1;
            day = next;
        }
        Replayed {
            refusal: 0,
            entries,
            words: words as u64,
            day,
        }
    }
}

impl Second {
    /// The day after an entry of a journal, and the words of its answer. A played round changes only the day.
    fn entry(
        &self,
        file: &[u8],
        day: Day,
        records: &mut [Booking],
        entry: &[u64],
        sheet: &mut Sheet,
    ) -> (Day, Vec<u64>) {
        match (entry[0], u32::try_from(entry[1])) {
            (BOOK, Ok(name)) => {
                let request = Request {
                    name,
                    film: entry[2],
                    prefetch: entry[3],
                    reserve: entry[4],
                    cabs: entry[5],
                    first: entry[6],
                    last: entry[7],
                };
                let reply = self.book(file, day, records, request, sheet);
                (reply.day, vec![reply.refusal.into(), reply.start, 0])
            }
            (DROP, Ok(name)) => {
                let reply = self.drop_booking(file, day, records, name, sheet);
                (reply.day, vec![reply.refusal.into(), 0, 0])
            }
            (PLAY, _) => {
                let mut report = vec![Line::default(); entry[1].min(256) as usize];
                let reply = self.play(file, day, records, &mut report);
                let mut words = vec![reply.refusal.into(), reply.films, reply.cabs];
                for line in &report[..reply.films as usize] {
                    let line: [u64; LINE] = [line.name.into(), line.read, line.send, line.held];
                    words.extend(line);
                }
                (reply.day, words)
            }
            _ => (day, vec![24, 0, 0]),
        }
    }
}

//! A day at the desk: opening, booking, dropping and playing, each on a day that anybody may have written.

use crate::bounds::{
    MAX_BOOKINGS, MAX_DAY_ROUNDS, MAX_DISK, MAX_MEMORY, MAX_PREFETCH, MAX_RESERVE,
};
use crate::day::{Booking, Day, Line, Played, Request, Sheet};
use crate::film_file::{decode, find, Film};
use crate::loss::loss;
use crate::refusal::{ask, Refusal};
use crate::schedule::{before, exists, held, just_in_time, sends};

/// A booking that has passed 8, 9, 10, 20 and 12, with what it reads, sends and holds in each of its rounds.
#[derive(Clone, Debug)]
struct Stream {
    prefetch: u64,
    reserve: u64,
    cabs: u64,
    reads: Vec<u64>,
    sends: Vec<u64>,
    held: Vec<u64>,
}

impl Stream {
    /// The questions of a record and of a request: 8, 9, 10, 20, 12.
    fn new(
        films: &[Film],
        film: u64,
        prefetch: u64,
        reserve: u64,
        cabs: u64,
    ) -> Result<Stream, Refusal> {
        let film = find(films, film)?;
        ask(prefetch <= MAX_PREFETCH, Refusal::PrefetchTooLong)?;
        ask(reserve <= MAX_RESERVE, Refusal::ReserveTooLarge)?;
        ask(cabs != 0, Refusal::NoCab)?;
        let sends = sends(prefetch, &film.sizes);
        ask(exists(&sends, reserve), Refusal::NoSchedule)?;
        let reads = just_in_time(&sends, reserve);
        let held = held(&sends, &reads);
        Ok(Stream {
            prefetch,
            reserve,
            cabs,
            reads,
            sends,
            held,
        })
    }

    /// Its report line in round t from its start.
    fn line(&self, name: u32, t: usize) -> Line {
        Line {
            name,
            read: self.reads[t] - before(&self.reads, t),
            send: self.sends[t],
            held: self.held[t],
        }
    }

    /// Its number of rounds, p+n.
    fn rounds(&self) -> u64 {
        self.sends.len() as u64
    }
}

/// The day sheet as worked out from bookings, and which cabs are busy in each round.
#[derive(Clone, Debug)]
struct Load {
    open: Vec<u64>,
    reserves: Vec<u64>,
    held: Vec<u64>,
    cabs: Vec<u64>,
    cab_shows_two: bool,
}

impl Load {
    /// The load of no booking.
    fn empty(rounds: u64) -> Load {
        let zeros = vec![0; rounds as usize];
        Load {
            open: zeros.clone(),
            reserves: zeros.clone(),
            held: zeros.clone(),
            cabs: zeros,
            cab_shows_two: false,
        }
    }

    /// "A booking is open in rounds s to s+p+n-1. It shows in rounds s+p to s+p+n-1, and only there are its cabs busy."
    fn add(&mut self, start: u64, stream: &Stream) {
        for t in 0..stream.rounds() {
            let round = (start + t) as usize;
            self.open[round] += 1;
            self.reserves[round] += stream.reserve;
            self.held[round] += stream.held[t as usize];
            if t >= stream.prefetch {
                self.cab_shows_two |= self.cabs[round] & stream.cabs != 0;
                self.cabs[round] |= stream.cabs;
            }
        }
    }

    /// "In each round reserves + loss(films open) ≤ D and held ≤ M, and no cab shows two films."
    fn keeps_limits_and_cabs(&self, day: &Day) -> bool {
        let limits = (0..self.open.len()).all(|round| {
            self.reserves[round] + loss(self.open[round]) <= day.disk
                && self.held[round] <= day.memory
        });
        limits && !self.cab_shows_two
    }

    /// Whether limits and cabs are kept with one more booking, in the rounds in which it is open. In all others the load
    /// stays as it is.
    fn takes(&self, day: &Day, start: u64, stream: &Stream) -> bool {
        (0..stream.rounds()).all(|t| {
            let round = (start + t) as usize;
            let shows = t >= stream.prefetch;
            self.reserves[round] + stream.reserve + loss(self.open[round] + 1) <= day.disk
                && self.held[round] + stream.held[t as usize] <= day.memory
                && !(shows && self.cabs[round] & stream.cabs != 0)
        })
    }

    /// "works the sheet out from the bookings ... What stood there before counts for nothing. Places from T on are untouched."
    fn write_to(&self, sheet: &mut Sheet) {
        let rounds = self.open.len();
        sheet.open[..rounds].copy_from_slice(&self.open);
        sheet.reserves[..rounds].copy_from_slice(&self.reserves);
        sheet.held[..rounds].copy_from_slice(&self.held);
    }
}

/// The standing bookings of a sound list, and their load.
#[derive(Clone, Debug)]
struct Standing {
    bookings: Vec<(Booking, Stream)>,
    load: Load,
}

/// 14 and 15: "is T in range and `now` at most T?", "Is D at most 4,294,967,295 and M at most 1,099,511,627,776?"
fn ask_day(day: &Day) -> Result<(), Refusal> {
    let rounds = (1..=MAX_DAY_ROUNDS).contains(&day.rounds);
    ask(rounds && day.now <= day.rounds, Refusal::DayOutOfRange)?;
    let limits = day.disk <= MAX_DISK && day.memory <= MAX_MEMORY;
    ask(limits, Refusal::LimitTooLarge)
}

/// 11: "Has every sheet list T places?"
fn ask_sheet(day: &Day, sheet: &Sheet) -> Result<(), Refusal> {
    let lists = [&sheet.open, &sheet.reserves, &sheet.held];
    let long_enough = lists.iter().all(|list| list.len() as u64 >= day.rounds);
    ask(long_enough, Refusal::ListTooShort)
}

/// 16: "Is the list sound? (at most 256 records, within the list; names differ; each passes 8, 9, 10, 20 and 12; s+p+n ≤ T;
/// limits and cabs kept in every round)". The day has passed 14.
fn ask_list(films: &[Film], day: &Day, records: &[Booking]) -> Result<Standing, Refusal> {
    let within = day.count <= MAX_BOOKINGS && day.count <= records.len() as u64;
    ask(within, Refusal::UnsoundList)?;
    let records = &records[..day.count as usize];
    let names_differ =
        (0..records.len()).all(|i| (0..i).all(|earlier| records[earlier].name != records[i].name));
    ask(names_differ, Refusal::UnsoundList)?;
    let mut standing = Standing {
        bookings: Vec::new(),
        load: Load::empty(day.rounds),
    };
    for booking in records {
        let stream = Stream::new(
            films,
            u64::from(booking.film),
            u64::from(booking.prefetch),
            u64::from(booking.reserve),
            booking.cabs,
        )
        .map_err(|_| Refusal::UnsoundList)?;
        let start = u64::from(booking.start);
        ask(start + stream.rounds() <= day.rounds, Refusal::UnsoundList)?;
        standing.load.add(start, &stream);
        standing.bookings.push((*booking, stream));
    }
    let kept = standing.load.keeps_limits_and_cabs(day);
    ask(kept, Refusal::UnsoundList)?;
    Ok(standing)
}

/// Opening: 14, 15, 11. "The record count and `now` become 0; the records' places are untouched." The sheet is that of no
/// booking.
pub fn open(
    day: &mut Day,
    sheet: &mut Sheet,
    rounds: u64,
    disk: u64,
    memory: u64,
) -> Result<(), Refusal> {
    let opened = Day {
        rounds,
        disk,
        memory,
        now: 0,
        count: 0,
    };
    ask_day(&opened)?;
    ask_sheet(&opened, sheet)?;
    Load::empty(rounds).write_to(sheet);
    *day = opened;
    Ok(())
}

/// A booking's own questions: 18, 8, 9, 10, 20, 12, 21, 17.
fn ask_request(
    films: &[Film],
    day: &Day,
    records: &[Booking],
    request: &Request,
) -> Result<Stream, Refusal> {
    // Is the name new?
    let mut standing = records[..day.count as usize].iter();
    let new = standing.all(|booking| booking.name != request.name);
    ask(new, Refusal::NameTaken)?;
    let stream = Stream::new(
        films,
        request.film,
        request.prefetch,
        request.reserve,
        request.cabs,
    )?;
    // Is now ≤ first ≤ last and last+p+n ≤ T?
    let end = u128::from(request.last) + u128::from(stream.rounds());
    let window =
        day.now <= request.first && request.first <= request.last && end <= u128::from(day.rounds);
    ask(window, Refusal::WindowOutOfRange)?;
    // Is there a place below both 256 and the list's length?
    let place = day.count < MAX_BOOKINGS && day.count < records.len() as u64;
    ask(place, Refusal::NoPlace)?;
    Ok(stream)
}

/// Booking: the file's questions, 14, 15, 11, 16, 18, 8, 9, 10, 20, 12, 21, 17, 22. The answer is the start.
pub fn book(
    file: &[u8],
    day: &mut Day,
    records: &mut [Booking],
    sheet: &mut Sheet,
    request: &Request,
) -> Result<u64, Refusal> {
    let films = decode(file)?;
    ask_day(day)?;
    ask_sheet(day, sheet)?;
    let standing = ask_list(&films, day, records)?;
    let stream = ask_request(&films, day, records, request)?;
    // Does a start in the window fit?
    let found =
        (request.first..=request.last).find(|&start| standing.load.takes(day, start, &stream));
    let Some(start) = found else {
        // "22 leaves the sheet of the bookings as they stand."
        standing.load.write_to(sheet);
        return Err(Refusal::NoFit);
    };
    let mut load = standing.load;
    load.add(start, &stream);
    records[day.count as usize] = Booking {
        name: request.name,
        film: request.film as u16,
        start: start as u32,
        prefetch: request.prefetch as u16,
        reserve: request.reserve as u32,
        cabs: request.cabs,
    };
    day.count += 1;
    load.write_to(sheet);
    Ok(start)
}

/// Dropping: the file's questions, 14, 15, 11, 16, 19. "A drop removes its record, closes the gap, and zeroes the place freed."
pub fn drop_booking(
    file: &[u8],
    day: &mut Day,
    records: &mut [Booking],
    sheet: &mut Sheet,
    name: u32,
) -> Result<(), Refusal> {
    let films = decode(file)?;
    ask_day(day)?;
    ask_sheet(day, sheet)?;
    let standing = ask_list(&films, day, records)?;
    // Is the name in the list?
    let place = standing
        .bookings
        .iter()
        .position(|(booking, _)| booking.name == name)
        .ok_or(Refusal::UnknownName)?;
    let mut load = Load::empty(day.rounds);
    for (index, (booking, stream)) in standing.bookings.iter().enumerate() {
        if index != place {
            load.add(u64::from(booking.start), stream);
        }
    }
    let count = standing.bookings.len();
    records.copy_within(place + 1..count, place);
    records[count - 1] = Booking::default();
    day.count -= 1;
    load.write_to(sheet);
    Ok(())
}

/// Playing: the file's questions, 14, 15, 16, 23, 11. It "writes one report line per open film in list order (name, read,
/// send, held) and gives the films open and the number of cabs served, which is the count of cab bits of the films showing.
/// Then `now` rises by one."
pub fn play(
    file: &[u8],
    day: &mut Day,
    records: &[Booking],
    report: &mut [Line],
) -> Result<Played, Refusal> {
    let films = decode(file)?;
    ask_day(day)?;
    let standing = ask_list(&films, day, records)?;
    // Is `now` below T?
    ask(day.now < day.rounds, Refusal::DayOver)?;
    let mut lines = Vec::new();
    let mut cabs = 0;
    for (booking, stream) in &standing.bookings {
        let start = u64::from(booking.start);
        if start <= day.now && day.now < start + stream.rounds() {
            let t = day.now - start;
            lines.push(stream.line(booking.name, t as usize));
            cabs |= if t >= stream.prefetch { stream.cabs } else { 0 };
        }
    }
    // Does the report take every open film?
    ask(report.len() >= lines.len(), Refusal::ListTooShort)?;
    report[..lines.len()].copy_from_slice(&lines);
    day.now += 1;
    Ok(Played {
        open: lines.len() as u64,
        cabs: u64::from(cabs.count_ones()),
    })
}

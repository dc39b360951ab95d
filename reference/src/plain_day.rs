//! The plain day: what every list of calls on a day opened empty must answer.

use crate::bounds::{MAX_BOOKINGS, MAX_PREFETCH, MAX_RESERVE};
use crate::day::{Booking, Line, Request, Sheet};
use crate::film_file::{decode, find, Film};
use crate::loss::loss;
use crate::refusal::{ask, Refusal};
use crate::schedule::{before, exists, held, just_in_time, sends, totals};

/// What an accepted opening was given: T, D and M.
#[derive(Clone, Copy, Debug, PartialEq, Eq)]
pub struct Opening {
    pub rounds: u64,
    pub disk: u64,
    pub memory: u64,
}

/// A booking at its start, each with its own film, p and b.
#[derive(Clone, Debug, PartialEq, Eq)]
pub struct Placed {
    pub name: u32,
    pub film: Film,
    pub start: u64,
    pub prefetch: u64,
    pub reserve: u64,
    pub cabs: u64,
}

impl Placed {
    /// The bytes sent in each round from the start.
    pub fn sends(&self) -> Vec<u64> {
        sends(self.prefetch, &self.film.sizes)
    }

    /// "A booking is open in rounds s to s+p+n-1."
    pub fn open_in(&self, round: u64) -> bool {
        self.start <= round && round < self.start + self.prefetch + self.film.sizes.len() as u64
    }

    /// "It shows in rounds s+p to s+p+n-1."
    pub fn shows_in(&self, round: u64) -> bool {
        self.open_in(round) && self.start + self.prefetch <= round
    }

    /// Whether the cab, 0 to 63, is one of its own.
    pub fn serves(&self, cab: u32) -> bool {
        (self.cabs >> cab) & 1 == 1
    }
}

/// Decides whether there are schedules, one for each booking, with which limits and cabs are kept in every round.
pub type Decider = fn(&Opening, &[Placed]) -> bool;

/// "in every round of the day the b of the open bookings plus loss(their number) are at most D", "and no cab shows two
/// films".
pub fn disk_and_cabs_kept(opening: &Opening, bookings: &[Placed]) -> bool {
    (0..opening.rounds).all(|round| {
        let open = || bookings.iter().filter(|booking| booking.open_in(round));
        let reserves: u64 = open().map(|booking| booking.reserve).sum();
        let one_film_a_cab = (0..64).all(|cab| {
            let busy = |booking: &&Placed| booking.shows_in(round) && booking.serves(cab);
            bookings.iter().filter(busy).count() <= 1
        });
        reserves + loss(open().count() as u64) <= opening.disk && one_film_a_cab
    })
}

/// Decides by the just-in-time schedules, which hold no more than any others in each round.
pub fn fit_just_in_time(opening: &Opening, bookings: &[Placed]) -> bool {
    bookings
        .iter()
        .all(|booking| exists(&booking.sends(), booking.reserve))
        && disk_and_cabs_kept(opening, bookings)
        && held_by_round(opening.rounds, bookings)
            .iter()
            .all(|&held| held <= opening.memory)
}

/// The bytes that the bookings' just-in-time schedules hold, for each round of the day.
fn held_by_round(rounds: u64, bookings: &[Placed]) -> Vec<u64> {
    let mut sums = vec![0; rounds as usize];
    for booking in bookings {
        let sends = booking.sends();
        let held = held(&sends, &just_in_time(&sends, booking.reserve));
        for (t, bytes) in held.iter().enumerate() {
            sums[booking.start as usize + t] += bytes;
        }
    }
    sums
}

/// A call's arguments; for play the report's length.
#[derive(Clone, Copy, Debug, PartialEq, Eq)]
pub enum Call {
    Book(Request),
    Drop(u32),
    Play(usize),
}

/// A call's answer.
#[derive(Clone, Debug, PartialEq, Eq)]
pub enum Answer {
    Refused(Refusal),
    Booked(u64),
    Dropped,
    Played { lines: Vec<Line>, cabs: u64 },
}

/// "It keeps the standing bookings in order, none at first, and a round r, 0 at first."
#[derive(Clone, Debug)]
pub struct PlainDay<'a> {
    opening: Opening,
    file: &'a [u8],
    places: u64,
    fit: Decider,
    bookings: Vec<Placed>,
    round: u64,
    most: usize,
}

impl<'a> PlainDay<'a> {
    /// "It is fed what an accepted opening was given, the film file, the record list's length".
    pub fn new(opening: Opening, file: &'a [u8], places: u64, fit: Decider) -> PlainDay<'a> {
        PlainDay {
            opening,
            file,
            places,
            fit,
            bookings: Vec::new(),
            round: 0,
            most: 0,
        }
    }

    /// "A refused call answers its number and changes nothing."
    pub fn call(&mut self, call: &Call) -> Answer {
        let answer = match call {
            Call::Book(request) => self.book(request),
            Call::Drop(name) => self.drop_booking(*name),
            Call::Play(report) => self.play(*report),
        };
        answer.unwrap_or_else(Answer::Refused)
    }

    /// "A booking takes the first start from its first to its last that fits, joins the end and answers that start."
    fn book(&mut self, request: &Request) -> Result<Answer, Refusal> {
        let films = decode(self.file)?;
        let taken = self.bookings.iter().any(|other| other.name == request.name);
        ask(!taken, Refusal::NameTaken)?;
        let film = find(&films, request.film)?;
        ask(request.prefetch <= MAX_PREFETCH, Refusal::PrefetchTooLong)?;
        ask(request.reserve <= MAX_RESERVE, Refusal::ReserveTooLarge)?;
        ask(request.cabs != 0, Refusal::NoCab)?;
        let sends = sends(request.prefetch, &film.sizes);
        ask(exists(&sends, request.reserve), Refusal::NoSchedule)?;
        let end = request.last.checked_add(sends.len() as u64);
        let in_day = end.is_some_and(|end| end <= self.opening.rounds);
        let window = self.round <= request.first && request.first <= request.last && in_day;
        ask(window, Refusal::WindowOutOfRange)?;
        let count = self.bookings.len() as u64;
        ask(count < MAX_BOOKINGS.min(self.places), Refusal::NoPlace)?;
        for start in request.first..=request.last {
            let mut bookings = self.bookings.clone();
            bookings.push(Placed {
                name: request.name,
                film: film.clone(),
                start,
                prefetch: request.prefetch,
                reserve: request.reserve,
                cabs: request.cabs,
            });
            if (self.fit)(&self.opening, &bookings) {
                self.bookings = bookings;
                self.most = self.most.max(self.bookings.len());
                return Ok(Answer::Booked(start));
            }
        }
        Err(Refusal::NoFit)
    }

    /// "A drop takes the name out; the rest keep their order."
    fn drop_booking(&mut self, name: u32) -> Result<Answer, Refusal> {
        decode(self.file)?;
        let known = self.bookings.iter().any(|booking| booking.name == name);
        ask(known, Refusal::UnknownName)?;
        self.bookings.retain(|booking| booking.name != name);
        Ok(Answer::Dropped)
    }

    /// "Play writes for each booking open in r, in order, with t = r - s and A its schedule by the rule above: name,
    /// A(t) - A(t-1), C(t) - C(t-1), A(t) - C(t-1)."
    fn play(&mut self, report: usize) -> Result<Answer, Refusal> {
        decode(self.file)?;
        ask(self.round < self.opening.rounds, Refusal::DayOver)?;
        let mut lines = Vec::new();
        for booking in self.bookings.iter().filter(|b| b.open_in(self.round)) {
            let t = (self.round - booking.start) as usize;
            let sent = totals(&booking.sends());
            let reads = just_in_time(&booking.sends(), booking.reserve);
            lines.push(Line {
                name: booking.name,
                read: reads[t] - before(&reads, t),
                send: sent[t] - before(&sent, t),
                held: reads[t] - before(&sent, t),
            });
        }
        ask(lines.len() <= report, Refusal::ListTooShort)?;
        let cabs = (0..64).filter(|&cab| {
            let busy = |booking: &Placed| booking.shows_in(self.round) && booking.serves(cab);
            self.bookings.iter().any(busy)
        });
        let cabs = cabs.count() as u64;
        self.round += 1;
        Ok(Answer::Played { lines, cabs })
    }

    /// "`now` is r."
    pub fn round(&self) -> u64 {
        self.round
    }

    /// The standing bookings, in order.
    pub fn bookings(&self) -> &[Placed] {
        &self.bookings
    }

    /// "At the end the first record places hold the standing bookings in order ... Other record places are zero if ever
    /// taken, else as lent."
    pub fn records(&self, lent: &[Booking]) -> Vec<Booking> {
        let mut records = lent.to_vec();
        records[..self.most].fill(Booking::default());
        for (place, booking) in self.bookings.iter().enumerate() {
            records[place] = Booking {
                name: booking.name,
                film: booking.film.number,
                start: booking.start as u32,
                prefetch: booking.prefetch as u16,
                reserve: booking.reserve as u32,
                cabs: booking.cabs,
            };
        }
        records
    }

    /// "The sheet gives for each of the T rounds how many of them are open, and the sums of their b and of the bytes their
    /// schedules hold."
    pub fn sheet(&self) -> Sheet {
        let by_round = |value: fn(&Placed) -> u64| -> Vec<u64> {
            (0..self.opening.rounds)
                .map(|round| {
                    let open = self.bookings.iter().filter(|b| b.open_in(round));
                    open.map(value).sum()
                })
                .collect()
        };
        Sheet {
            open: by_round(|_| 1),
            reserves: by_round(|booking| booking.reserve),
            held: held_by_round(self.opening.rounds, &self.bookings),
        }
    }
}

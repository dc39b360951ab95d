//! A day of bookings.

use crate::data::{Booking, Day, Line, Request};
use crate::film_file::FilmFile;
use crate::journal::{self, Answer};
use crate::lent;
use crate::limits::{MAX_BOOKINGS, MAX_DAY};
use crate::refusal::Refusal;

/// A day and everything that its calls are lent: 256 places for bookings, a sheet of the day's rounds, a report of 256 lines.
///
/// ```
/// use playback::{Desk, FilmFile, Limits, Refusal, Request};
///
/// # let bytes = [
/// #     1, 0, 1, 0, 6, 0, 6, 0, 0, 0, 8, 0, 0, 0, 8, 0, 0, 0, 8, 0, 0, 0, 2, 0, 0, 0, 6, 0, 0, 0, 4, 0, 0, 0,
/// # ];
/// let films = FilmFile::new(&bytes)?;
/// let mut desk = Desk::open(films, Limits { rounds: 20, disk: 141_433, memory: 18 })?;
/// let request = Request { name: 1, film: 1, prefetch: 1, reserve: 6, cabs: 0b01, first: 0, last: 0 };
/// assert_eq!(desk.book(request)?.start, 0);
/// let request = Request { name: 2, cabs: 0b10, last: 10, ..request };
/// assert_eq!(desk.book(request)?.start, 3);
/// let request = Request { name: 3, cabs: 0b01, last: 5, ..request };
/// assert_eq!(desk.book(request), Err(Refusal::NoStart));
///
/// let played = desk.play()?;
/// assert_eq!((played.round, played.films, played.cabs), (0, 1, 0));
/// assert_eq!((played.lines[0].name, played.lines[0].read), (1, 6));
///
/// desk.drop_booking(2)?;
/// assert_eq!(desk.bookings().len(), 1);
/// # Ok::<(), Refusal>(())
/// ```
#[derive(Clone, Debug)]
pub struct Desk<'f> {
    films: FilmFile<'f>,
    day: Day,
    records: Vec<Booking>,
    opens: Vec<u64>,
    reserves: Vec<u64>,
    helds: Vec<u64>,
    report: Vec<Line>,
}

/// What a day is opened with.
#[derive(Clone, Copy, Debug, Default, PartialEq, Eq)]
pub struct Limits {
    /// Rounds of the day.
    pub rounds: u64,
    /// Bytes of the disk per round.
    pub disk: u64,
    /// Bytes of memory.
    pub memory: u64,
}

/// An accepted booking.
#[derive(Clone, Copy, Debug, PartialEq, Eq)]
pub struct Booked {
    /// The round in which it starts.
    pub start: u64,
}

/// A played round.
#[derive(Clone, Copy, Debug, PartialEq, Eq)]
pub struct Played<'d> {
    /// The round.
    pub round: u64,
    /// How many bookings are open in it.
    pub films: u64,
    /// How many cabs it shows on.
    pub cabs: u64,
    /// A line for each open booking, in list order.
    pub lines: &'d [Line],
}

/// The day sheet by round, as the last accepted call worked it out.
#[derive(Clone, Copy, Debug, PartialEq, Eq)]
pub struct Sheet<'d> {
    /// Films open.
    pub opens: &'d [u64],
    /// Sum of the reserves, in bytes.
    pub reserves: &'d [u64],
    /// Sum of the bytes held.
    pub helds: &'d [u64],
}

impl<'f> Desk<'f> {
    /// A day with no bookings; refusals 14, 15.
    pub fn open(films: FilmFile<'f>, limits: Limits) -> Result<Desk<'f>, Refusal> {
        let mut desk = Desk::resume(films, Day::default(), Vec::new());
        desk.lay_out(limits.rounds);
        let reply = lent::open(
            desk.day,
            limits.rounds,
            limits.disk,
            limits.memory,
            &mut desk.opens,
            &mut desk.reserves,
            &mut desk.helds,
        );
        desk.take(reply)?;
        Ok(desk)
    }

    /// A day that was kept elsewhere. Nothing is asked here: each call asks whether the day and its list are sound. The sheet is
    /// zero until a booking or a drop is accepted.
    pub fn resume(films: FilmFile<'f>, day: Day, mut records: Vec<Booking>) -> Desk<'f> {
        if records.len() < MAX_BOOKINGS {
            records.resize(MAX_BOOKINGS, Booking::default());
        }
        let mut desk = Desk {
            films,
            day,
            records,
            opens: Vec::new(),
            reserves: Vec::new(),
            helds: Vec::new(),
            report: vec![Line::default(); MAX_BOOKINGS],
        };
        desk.lay_out(day.rounds);
        desk
    }

    /// A day rebuilt from its journal, and what each entry answered; refusals 14, 15. [`journal`] has the layout.
    pub fn replay(
        films: FilmFile<'f>,
        limits: Limits,
        entries: &[u64],
    ) -> Result<(Desk<'f>, Vec<Answer>), Refusal> {
        let mut log = vec![0; journal::first_log_length(entries)];
        loop {
            let mut desk = Desk::resume(films, Day::default(), Vec::new());
            desk.lay_out(limits.rounds);
            let replayed = lent::replay(
                films.bytes(),
                limits.rounds,
                limits.disk,
                limits.memory,
                &mut desk.records,
                entries,
                &mut log,
                &mut desk.opens,
                &mut desk.reserves,
                &mut desk.helds,
            );
            Refusal::check(replayed.refusal)?;
            if replayed.entries == journal::entry_count(entries) {
                desk.day = replayed.day;
                log.truncate(replayed.words as usize);
                return Ok((desk, journal::answers(entries, &log)));
            }
            log.resize(2 * log.len(), 0);
        }
    }

    /// Appends a booking at the first start of its window that fits; refusals 14, 15, 16, 18, 8, 9, 10, 20, 12, 21, 17, 22. After
    /// [`open`](Desk::open) never 14 to 16.
    pub fn book(&mut self, request: Request) -> Result<Booked, Refusal> {
        let reply = lent::book(
            self.films.bytes(),
            self.day,
            &mut self.records,
            request,
            &mut self.opens,
            &mut self.reserves,
            &mut self.helds,
        );
        let reply = self.take(reply)?;
        Ok(Booked { start: reply.start })
    }

    /// Takes a booking out of the list; refusals 14, 15, 16, 19. After [`open`](Desk::open) only 19.
    pub fn drop_booking(&mut self, name: u32) -> Result<(), Refusal> {
        let reply = lent::drop_booking(
            self.films.bytes(),
            self.day,
            &mut self.records,
            name,
            &mut self.opens,
            &mut self.reserves,
            &mut self.helds,
        );
        self.take(reply)?;
        Ok(())
    }

    /// Plays the current round; refusals 14, 15, 16, 23. After [`open`](Desk::open) only 23.
    pub fn play(&mut self) -> Result<Played<'_>, Refusal> {
        let round = self.day.now;
        let reply = lent::play(
            self.films.bytes(),
            self.day,
            &self.records,
            &mut self.report,
        );
        let reply = self.take(reply)?;
        Ok(Played {
            round,
            films: reply.films,
            cabs: reply.cabs,
            lines: &self.report[..reply.films as usize],
        })
    }

    /// The day: limits, current round, number of bookings.
    pub fn day(&self) -> Day {
        self.day
    }

    /// The film file.
    pub fn films(&self) -> FilmFile<'f> {
        self.films
    }

    /// The bookings that stand, in order.
    pub fn bookings(&self) -> &[Booking] {
        let count = usize::try_from(self.day.count).unwrap_or(usize::MAX);
        &self.records[..count.min(self.records.len())]
    }

    /// The sheet's lists over the day's rounds.
    pub fn sheet(&self) -> Sheet<'_> {
        Sheet {
            opens: &self.opens,
            reserves: &self.reserves,
            helds: &self.helds,
        }
    }

    /// Sheet lists of a day's rounds. A day past the bound is refused whatever they are.
    fn lay_out(&mut self, rounds: u64) {
        let places = rounds.min(MAX_DAY) as usize;
        for list in [&mut self.opens, &mut self.reserves, &mut self.helds] {
            list.clear();
            list.resize(places, 0);
        }
    }

    /// The day after a call, or the call's refusal.
    fn take(&mut self, reply: lent::Reply) -> Result<lent::Reply, Refusal> {
        Refusal::check(reply.refusal)?;
        self.day = reply.day;
        Ok(reply)
    }
}

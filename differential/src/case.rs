//! Drawn days with standing bookings, and everything that a call is lent.

use crate::draw::{films, streams, Scale, Stream};
use crate::standing::{busiest, standing, Busiest};
use reference::bounds::{MAX_BOOKINGS, MAX_DISK, MAX_MEMORY};
use reference::cases::random::Random;
use reference::day::{Booking, Day, Line, Request, Sheet};
use reference::film_file::{encode, Film};
use std::ops::Range;

/// Everything that the calls of a day are lent, and the films and streams that it was drawn from.
#[derive(Clone, Debug)]
pub struct Case {
    pub films: Vec<Film>,
    pub streams: Vec<Stream>,
    pub file: Vec<u8>,
    pub day: Day,
    pub records: Vec<Booking>,
    pub sheet: Sheet,
    pub report: Vec<Line>,
    /// A booking that would fit beside 256 others.
    pub one_more: Option<Booking>,
}

impl Case {
    /// A day whose list is sound, on lists full of garbage.
    pub fn draw(random: &mut Random, scale: Scale) -> Case {
        let (films, streams) = loop {
            let films = films(random, scale.films, scale.film_rounds.min(scale.rounds));
            let streams = streams(random, &films, 10, scale.rounds, scale.prefetches);
            if !streams.is_empty() {
                break (films, streams);
            }
        };
        let mut standing = standing(random, &streams, scale);
        let mut busiest = busiest(&streams, &standing, scale.rounds);
        while busiest.disk > MAX_DISK {
            standing.truncate(standing.len() / 2);
            busiest = self::busiest(&streams, &standing, scale.rounds);
        }
        let one_more = standing.get(MAX_BOOKINGS as usize).copied();
        standing.truncate(MAX_BOOKINGS as usize);
        let largest = streams
            .iter()
            .map(|stream| stream.reserve)
            .max()
            .unwrap_or(0);
        let slack = [0, 1, largest + 50_000, 4 * (largest + 100_000), MAX_MEMORY];
        let count = standing.len() as u64;
        let mut case = Case {
            file: encode(&films),
            films,
            streams,
            day: Day {
                rounds: scale.rounds,
                disk: (busiest.disk + random.pick(&slack)).min(MAX_DISK),
                memory: (busiest.memory + random.pick(&slack)).min(MAX_MEMORY),
                now: 0,
                count,
            },
            records: standing,
            sheet: Sheet::default(),
            report: Vec::new(),
            one_more,
        };
        case.set_lists(random);
        case.move_to(random);
        case
    }

    /// Lists of new lengths, with garbage wherever nothing stands.
    pub fn set_lists(&mut self, random: &mut Random) {
        let count = self.day.count as usize;
        self.records.truncate(count);
        let places = match random.below(12) {
            0 => count as u64,
            1..=3 => count as u64 + 1 + random.below(3),
            4..=6 => 300,
            _ => MAX_BOOKINGS,
        };
        while (self.records.len() as u64) < places {
            let garbage = self.garbage_record(random);
            self.records.push(garbage);
        }
        let rounds = self.day.rounds as usize;
        for list in [
            &mut self.sheet.open,
            &mut self.sheet.reserves,
            &mut self.sheet.held,
        ] {
            let places = rounds + random.pick(&[0, 0, 1, 2, 1_000]);
            *list = lent_list(random, list, places);
        }
        let lines = random.below(4) as usize;
        self.set_report(random, self.open_films() + lines);
    }

    /// A record that was left where nothing stands: noise, or the copy of one that stands.
    fn garbage_record(&self, random: &mut Random) -> Booking {
        if self.day.count > 0 && random.once_in(3) {
            return self.records[random.below(self.day.count) as usize];
        }
        if random.once_in(3) {
            return Booking::default();
        }
        Booking {
            name: random.bits() as u32,
            film: random.bits() as u16,
            start: random.bits() as u32,
            prefetch: random.bits() as u16,
            reserve: random.bits() as u32,
            cabs: random.bits(),
        }
    }

    /// A report of so many lines of garbage.
    pub fn set_report(&mut self, random: &mut Random, lines: usize) {
        let line = |random: &mut Random| Line {
            name: random.bits() as u32,
            read: random.bits(),
            send: random.bits(),
            held: random.bits(),
        };
        self.report = (0..lines).map(|_| line(random)).collect();
    }

    /// Sets the current round: any round, one beside a booking's first, last or first shown round, or the day's end.
    pub fn move_to(&mut self, random: &mut Random) {
        let rounds = self.day.rounds;
        let any = random.below(rounds.saturating_add(1));
        let now = match self.standing_one(random) {
            Some(booking) if random.below(8) > 1 => {
                let start = u64::from(booking.start);
                let shows = start + u64::from(booking.prefetch);
                let end = self.end_of(&booking);
                let inside = start + random.below(end - start);
                random.pick(&[start, shows, end - 1, end, inside])
            }
            _ => random.pick(&[0, 0, any, rounds - 1, rounds]),
        };
        self.day.now = now.min(rounds);
    }

    /// One of the standing bookings.
    pub fn standing_one(&self, random: &mut Random) -> Option<Booking> {
        let count = self.day.count.min(self.records.len() as u64);
        (count > 0).then(|| self.records[random.below(count) as usize])
    }

    /// The rounds of one of the films with its pre-fetch rounds.
    pub fn rounds_of(&self, film: u64, prefetch: u64) -> u64 {
        let film = self
            .films
            .iter()
            .find(|other| u64::from(other.number) == film);
        prefetch + film.map_or(1, |film| film.sizes.len() as u64)
    }

    /// The round after a booking's last.
    fn end_of(&self, booking: &Booking) -> u64 {
        u64::from(booking.start) + self.rounds_of(booking.film.into(), booking.prefetch.into())
    }

    /// How many bookings are open in the current round.
    pub fn open_films(&self) -> usize {
        let now = self.day.now;
        let standing = self.records.iter().take(self.day.count as usize);
        standing
            .filter(|booking| u64::from(booking.start) <= now && now < self.end_of(booking))
            .count()
    }

    /// The busiest rounds of the standing bookings.
    pub fn busiest(&self) -> Busiest {
        let standing = &self.records[..self.day.count as usize];
        busiest(&self.streams, standing, self.day.rounds)
    }

    /// A request whose first start lies in the busiest rounds, on a free cab if there is one, and limits that the standing
    /// bookings and the request at that start just keep, or miss by one byte.
    pub fn tighten(&mut self, random: &mut Random, request: &mut Request) {
        let before = self.busiest();
        let rounds = self.rounds_of(request.film, request.prefetch);
        let latest = self.day.rounds - rounds;
        if self.day.now <= latest {
            let start = before.round.saturating_sub(random.below(rounds));
            request.first = start.clamp(self.day.now, latest);
            request.last = request.last.max(request.first);
            let shows = request.first + request.prefetch..request.first + rounds;
            let free = !self.cabs_shown(shows);
            request.cabs = if free == 0 {
                1
            } else {
                1 << free.trailing_zeros()
            };
        }
        let mut bookings = self.records[..self.day.count as usize].to_vec();
        bookings.push(Booking {
            name: request.name,
            film: request.film as u16,
            start: request.first as u32,
            prefetch: request.prefetch as u16,
            reserve: request.reserve as u32,
            cabs: request.cabs,
        });
        let after = busiest(&self.streams, &bookings, self.day.rounds);
        let day = &mut self.day;
        let disk = random.pick(&[day.disk, after.disk, after.disk.saturating_sub(1)]);
        let memory = random.pick(&[day.memory, after.memory, after.memory.saturating_sub(1)]);
        day.disk = disk.clamp(before.disk, MAX_DISK);
        day.memory = memory.clamp(before.memory, MAX_MEMORY);
    }

    /// The cabs of the standing bookings that show in some of the rounds.
    fn cabs_shown(&self, rounds: Range<u64>) -> u64 {
        let standing = self.records.iter().take(self.day.count as usize);
        let shown = standing.filter(|booking| {
            let shows = u64::from(booking.start) + u64::from(booking.prefetch);
            shows < rounds.end && rounds.start < self.end_of(booking)
        });
        shown.fold(0, |cabs, booking| cabs | booking.cabs)
    }

    /// A request for one of the streams that passes every question before 22.
    pub fn request(&self, random: &mut Random) -> Request {
        let stream = &self.streams[random.below(self.streams.len() as u64) as usize];
        let day = self.day;
        let latest = day.rounds - stream.rounds();
        let first = day.now + random.below(latest.saturating_sub(day.now) + 1);
        let nearby = first.saturating_add(random.below(40));
        let later = first + random.below(latest.saturating_sub(first) + 1);
        let last = random
            .pick(&[first, nearby.min(latest), later, latest])
            .max(first);
        let other = if random.once_in(3) {
            random.bits() & random.bits()
        } else {
            0
        };
        Request {
            name: self.new_name(random),
            film: stream.film.into(),
            prefetch: stream.prefetch,
            reserve: stream.reserve,
            cabs: (1 << random.below(64)) | other,
            first,
            last,
        }
    }

    /// A name that no standing booking has.
    pub fn new_name(&self, random: &mut Random) -> u32 {
        loop {
            let drawn = random.bits() as u32;
            let name = random.pick(&[0, 7, u32::MAX, drawn]);
            let mut standing = self.records.iter().take(self.day.count as usize);
            if standing.all(|booking| booking.name != name) {
                return name;
            }
        }
    }
}

/// A list of a sheet as a call may be lent it: zeros, as after a restart; numbers below 2^32, as of another day; what stood there
/// before; or anything. One place may be another number.
fn lent_list(random: &mut Random, before: &[u64], places: usize) -> Vec<u64> {
    let mut list = match random.below(4) {
        0 => vec![0; places],
        1 => garbage_list(random, places),
        2 => {
            let wide = garbage_list(random, places);
            wide.into_iter().map(|number| number >> 32).collect()
        }
        _ => {
            let mut list = before.to_vec();
            list.resize(places, 0);
            list
        }
    };
    if places > 0 && random.once_in(3) {
        let place = random.below(places as u64) as usize;
        list[place] = random.pick(&[0, 1, u64::from(u32::MAX), 1 << 32]);
    }
    list
}

/// Numbers that nothing worked out.
pub fn garbage_list(random: &mut Random, length: usize) -> Vec<u64> {
    let (seed, step) = (random.bits(), random.bits() | 1);
    (0..length as u64)
        .map(|place| seed.wrapping_add(step.wrapping_mul(place)))
        .collect()
}

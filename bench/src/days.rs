//! The films and days that are measured, all from fixed seeds.

use crate::fast::film_file::Catalogue;
use crate::fast::retrieval::write_held;
use crate::fast::sheet::{Lists, Row};
use crate::fast::standing::{stream_of, Stream};
use crate::fast::Fast;
use crate::scheduler::{Opening, Scheduler, Sheet};
use crate::synthetic::{sizes, Shape};
use playback::limits::{MAX_BOOKINGS, MAX_DISK, MAX_MEMORY, MAX_RESERVE};
use playback::{Booking, Day, Request};
use reference::cases::random::Random;
use reference::film_file::{encode, Film};
use reference::loss::loss;

/// Pre-fetch rounds of every booking that is measured.
pub const PREFETCH: u64 = 20;
/// Cabs.
const CABS: u64 = 64;

/// Films of that many rounds with scenes and bursts, numbered from 1.
pub fn films(count: usize, rounds: usize) -> Vec<Film> {
    let film = |number: usize| Film {
        number: number as u16,
        sizes: sizes(
            (1_000 * rounds + number) as u64,
            Shape {
                rounds,
                mean: 200_000,
                peak: 700_000,
            },
        ),
    };
    (1..=count).map(film).collect()
}

/// A day with bookings, as a call is lent it.
#[derive(Clone)]
pub struct Fixture {
    pub file: Vec<u8>,
    pub day: Day,
    pub records: Vec<Booking>,
    pub sheet: Sheet,
    /// A booking to be asked for.
    pub request: Request,
}

/// The size of a day: its rounds, its bookings and the rounds of every film.
#[derive(Clone, Copy, Debug, PartialEq, Eq)]
pub struct Size {
    pub rounds: u64,
    pub bookings: u64,
    pub film: u64,
}

impl Size {
    /// Films that follow each other on one cab.
    fn turns(&self) -> u64 {
        self.bookings.div_ceil(CABS).max(1)
    }

    /// Whether 64 cabs can show so many films in a day, one more among them.
    pub fn possible(&self) -> bool {
        self.turns() * (self.film + PREFETCH) <= self.rounds
    }
}

/// A day of that size over 64 films. Bookings stand on the cabs in turn, spread over the day, each with a reserve of its own
/// between the film's least and a tenth more. The limits are a quarter above what the bookings need, and the round is the middle
/// of the day. The request asks for a hundred starts.
pub fn day(size: Size) -> Fixture {
    day_of(size, |random, slot, open| random.below(slot - open + 1))
}

/// A day of that size in which the bookings of all cabs start at once, a group after the other. The request asks for a hundred starts
/// from the last group's on.
pub fn day_at_once(size: Size) -> Fixture {
    let mut fixture = day_of(size, |_, _, _| 0);
    let first = (size.turns() - 1) * (size.rounds / size.turns());
    fixture.request.first = first;
    fixture.request.last = first + 99;
    fixture
}

/// A day whose bookings start in their part of the day as `start` says, given the part's rounds and those that a booking is open.
fn day_of(size: Size, start: fn(&mut Random, u64, u64) -> u64) -> Fixture {
    let films = films(64, size.film as usize);
    let file = encode(&films);
    let mut random = Random::new(size.rounds * 1_000_003 + size.bookings * 4_099 + size.film);
    let open = size.film + PREFETCH;
    let slot = size.rounds / size.turns();
    let reserves: Vec<u64> = (1..=64)
        .map(|film| Fast.least_reserve(&file, film, PREFETCH, 4_000_000).bytes)
        .collect();
    let mut records = vec![Booking::default(); MAX_BOOKINGS];
    for (place, record) in records.iter_mut().take(size.bookings as usize).enumerate() {
        let film = random.below(64);
        let least = reserves[film as usize];
        let turn = place as u64 / CABS;
        *record = Booking {
            name: 1 + random.below(1 << 20) as u32 * 256 + place as u32,
            film: 1 + film as u16,
            start: (turn * slot + start(&mut random, slot, open)) as u32,
            prefetch: PREFETCH as u16,
            reserve: (least + random.below(least / 10)).min(MAX_RESERVE) as u32,
            cabs: 1 << (place as u64 % CABS),
        };
    }
    let mut fixture = Fixture {
        file,
        day: Day {
            rounds: size.rounds,
            disk: MAX_DISK,
            memory: MAX_MEMORY,
            now: (size.rounds / 2).min(size.rounds - open),
            count: size.bookings,
        },
        records,
        sheet: Sheet::new(size.rounds as usize),
        request: Request::default(),
    };
    fixture.lay_sheet();
    let (disk, held) = fixture.demand();
    fixture.day.disk = (disk + disk / 4).max(1_000_000);
    fixture.day.memory = (held + held / 4).max(8_000_000);
    let first = fixture.day.now;
    fixture.request = Request {
        name: 0,
        film: 1,
        prefetch: PREFETCH,
        reserve: reserves[0],
        cabs: fixture.free_cab(),
        first,
        last: (first + 99).min(size.rounds - open),
    };
    fixture
}

impl Fixture {
    /// Works the sheet of the standing bookings out.
    pub fn lay_sheet(&mut self) {
        let catalogue = Catalogue::read(&self.file).expect("the films are legal");
        let mut lists = Lists::of(&mut self.sheet, self.day.rounds).expect("the lists are long");
        let standing = self.records[..self.day.count as usize].iter();
        let held = standing.map(|record| {
            let stream = stream_of(&catalogue, record).expect("the record is legal");
            let mut profile = vec![0; stream.open_rounds()];
            assert!(write_held(stream.sizes, stream.reserve, &mut profile));
            (stream, profile)
        });
        let held: Vec<_> = held.collect();
        let rows = held.iter();
        let rows = rows.map(|(stream, profile)| Row::new(stream, stream.start, profile));
        lists.sum(&mut rows.collect::<Vec<_>>());
    }

    /// Over the starts of the request's window, the least of the largest values that `value` has in the rounds it would be open, where
    /// `value` is given the round of the day and the round of the request's own.
    fn least_of_largest(&self, rounds: usize, value: impl Fn(usize, usize) -> u64) -> u64 {
        let largest = |start: u64| {
            let own = 0..rounds;
            own.map(|round| value(start as usize + round, round))
                .max()
                .unwrap_or(0)
        };
        let starts = self.request.first..=self.request.last;
        starts.map(largest).min().unwrap_or(0)
    }

    /// The most that a round takes of the disk, and the most that is held.
    fn demand(&self) -> (u64, u64) {
        let rounds = self.sheet.opens.iter().zip(&self.sheet.reserves);
        let disk = rounds.map(|(&open, reserves)| reserves + loss(open)).max();
        let held = self.sheet.helds.iter().copied().max();
        (disk.unwrap_or(0), held.unwrap_or(0))
    }

    /// The cab that is least used, as a set of one.
    fn free_cab(&self) -> u64 {
        let used = |cab: &u64| {
            let standing = &self.records[..self.day.count as usize];
            standing
                .iter()
                .filter(|record| record.cabs >> cab & 1 == 1)
                .count()
        };
        1 << (0..CABS).min_by_key(used).unwrap_or(0)
    }
}

/// What the request's stream holds by round.
fn profile_of(file: &[u8], request: &Request) -> Vec<u64> {
    let catalogue = Catalogue::read(file).expect("the films are legal");
    let stream = Stream::new(
        &catalogue,
        request.film,
        request.prefetch,
        request.reserve,
        request.cabs,
    );
    let stream = stream.expect("the request is legal");
    let mut profile = vec![0; stream.open_rounds()];
    assert!(write_held(stream.sizes, stream.reserve, &mut profile));
    profile
}

/// Where a film of the search's worst days refuses a start.
#[derive(Clone, Copy, Debug, PartialEq, Eq)]
pub enum Spikes {
    Early,
    Late,
    Middle,
    Apart,
}

/// A window of the whole day of 86,400 rounds in which memory refuses every start. The day holds much in one of two or three rounds,
/// and the film has as many rounds with many bytes, each of which refuses one start of as many: neither the round that refused the
/// start before nor the round before that one refuses the next.
pub fn refused_by_memory(spikes: Spikes) -> Fixture {
    let rounds = 86_400;
    let film_rounds = 4_096;
    let (much, spike) = (1_000_000, 500_000);
    let places = match spikes {
        Spikes::Early => vec![5, 10],
        Spikes::Late => vec![film_rounds - 6, film_rounds - 1],
        Spikes::Middle => vec![2_048, 2_052, 2_056],
        Spikes::Apart => vec![1, 2_048, film_rounds - 1],
    };
    let every = places.len();
    let wanted = (0..film_rounds).map(|round| if places.contains(&round) { spike } else { 1 });
    // Whole turns, so that the day goes on in the same way from film to film; its last rounds are covered by a shorter one.
    let standing_rounds = film_rounds - film_rounds % every;
    let count = rounds / standing_rounds as u64;
    let rest = rounds - count * standing_rounds as u64;
    let bytes = |round| if round % every == 0 { much } else { 0 };
    let standing = (0..standing_rounds).map(bytes);
    let last = (0..rest as usize).map(bytes);
    let file = encode(&[
        Film {
            number: 1,
            sizes: standing.collect(),
        },
        Film {
            number: 2,
            sizes: wanted.collect(),
        },
        Film {
            number: 3,
            sizes: last.collect(),
        },
    ]);
    let mut records = vec![Booking::default(); MAX_BOOKINGS];
    for (place, record) in records.iter_mut().take(count as usize + 1).enumerate() {
        *record = Booking {
            name: 1 + place as u32,
            film: if place as u64 == count { 3 } else { 1 },
            start: place as u32 * standing_rounds as u32,
            prefetch: 0,
            reserve: much,
            cabs: 1,
        };
    }
    let mut fixture = Fixture {
        file,
        day: Day {
            rounds,
            disk: MAX_DISK,
            memory: u64::from(much + spike - 1),
            now: 0,
            count: count + 1,
        },
        records,
        sheet: Sheet::new(rounds as usize),
        request: Request {
            name: 0,
            film: 2,
            prefetch: 0,
            reserve: spike.into(),
            cabs: 2,
            first: 0,
            last: rounds - film_rounds as u64,
        },
    };
    fixture.lay_sheet();
    fixture
}

/// A day of 86,400 rounds with 64 bookings of 512 rounds, and a window of that many starts, at most 1,000, of which the last alone is
/// taken: an earlier one would show on a cab while a booking in the middle of the list still does.
pub fn taken_last(starts: u64) -> Fixture {
    let film = 512;
    let mut fixture = day(Size {
        rounds: 86_400,
        bookings: 64,
        film,
    });
    let other = fixture.records[32];
    fixture.day.now = 0;
    fixture.request.cabs = other.cabs;
    fixture.request.last = u64::from(other.start) + film;
    fixture.request.first = fixture.request.last + 1 - starts;
    fixture
}

/// What refuses every start of a window of the whole day on a full day.
#[derive(Clone, Copy, Debug, PartialEq, Eq)]
pub enum Refuser {
    Disk,
    Cabs,
    Memory,
}

/// A full day (86,400 rounds, 255 bookings of 4,096 rounds) and a window of all of it, every start of which is refused, some of them
/// barely.
pub fn refused_all_day(by: Refuser) -> Fixture {
    let mut fixture = day(Size {
        rounds: 86_400,
        bookings: 255,
        film: 4_096,
    });
    fixture.day.now = 0;
    fixture.request.first = 0;
    fixture.request.last = fixture.day.rounds - 4_096 - PREFETCH;
    fixture.day.disk = MAX_DISK;
    fixture.day.memory = MAX_MEMORY;
    let (disk, held) = fixture.demand();
    let sheet = &fixture.sheet;
    match by {
        Refuser::Disk => {
            let demand = |round: usize, _| sheet.reserves[round] + loss(sheet.opens[round] + 1);
            let least = fixture.least_of_largest(4_096 + PREFETCH as usize, demand);
            fixture.day.disk = disk;
            fixture.request.reserve = fixture.request.reserve.max(disk + 1 - least);
        }
        Refuser::Cabs => fixture.request.cabs = u64::MAX,
        Refuser::Memory => {
            // The film that holds most with its least reserve.
            let mut profile = Vec::new();
            for film in 1..=64 {
                let least = Fast.least_reserve(&fixture.file, film, PREFETCH, MAX_MEMORY);
                let request = Request {
                    film,
                    reserve: least.bytes,
                    ..fixture.request
                };
                let other = profile_of(&fixture.file, &request);
                if other.iter().max() > profile.iter().max() {
                    (profile, fixture.request) = (other, request);
                }
            }
            let sheet = &fixture.sheet;
            let held_with = |round: usize, own: usize| sheet.helds[round] + profile[own];
            fixture.day.memory = fixture.least_of_largest(profile.len(), held_with) - 1;
            assert!(fixture.day.memory >= held);
        }
    }
    fixture
}

/// A day's opening with its limits.
pub fn opening(fixture: &Fixture) -> Opening {
    Opening {
        rounds: fixture.day.rounds,
        disk: fixture.day.disk,
        memory: fixture.day.memory,
    }
}

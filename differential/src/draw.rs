//! Drawn film files, whole and broken, and the streams that can be booked from them.

use reference::bounds::{MAX_FILMS, MAX_FILM_ROUNDS, MAX_PREFETCH, MAX_RESERVE};
use reference::cases::random::Random;
use reference::film_file::{encode, Film};
use reference::schedule::{exists, held, just_in_time, sends, smallest_reserve};

/// Films of rising numbers, at most so many, each of at most so many rounds.
pub fn films(random: &mut Random, most: u64, most_rounds: u64) -> Vec<Film> {
    let (some, far) = (1 + random.below(most), random.below(60_000));
    let count = random.pick(&[1, some, most]);
    let mut number = random.pick(&[0, 1, far]);
    let longest = random.once_in(6);
    let mut films = Vec::new();
    for _ in 0..count {
        let some = 1 + random.below(most_rounds);
        let rounds = random.pick(&[1, 2, some, most_rounds]).min(most_rounds);
        films.push(Film {
            number: number as u16,
            sizes: sizes(random, if longest { most_rounds } else { rounds }),
        });
        number += 1 + random.below(5);
    }
    if random.once_in(8) {
        films.last_mut().expect("a film").number = u16::MAX;
    }
    films
}

/// A film's sizes: scenes of some rounds, quiet or heavy.
fn sizes(random: &mut Random, rounds: u64) -> Vec<u32> {
    let heavy = random.pick(&[0, 1, 9, 100, 50_000, 875_000, 16_777_215]);
    let mut level = heavy;
    let mut sizes = Vec::new();
    for _ in 0..rounds {
        if random.once_in(12) {
            level = random.pick(&[heavy, heavy / 10, heavy / 3, 0]);
        }
        sizes.push((level - random.below(level / 2 + 1)) as u32);
    }
    sizes
}

/// The films' file, broken so that it is refused with a number from 1 to 7.
pub fn broken(random: &mut Random, films: &[Film], number: u32) -> Vec<u8> {
    let mut file = encode(films);
    let entries = 2 + 4 * films.len();
    let entry = 2 + 4 * random.below(films.len() as u64) as usize;
    let put_16 = |file: &mut Vec<u8>, at: usize, value: u16| {
        file[at..at + 2].copy_from_slice(&value.to_le_bytes());
    };
    match number {
        1 => {
            let any = random.below(file.len() as u64) as usize;
            let end = file.len() - 1;
            file.truncate(random.pick(&[
                0,
                1,
                2,
                entries - 1,
                entries,
                entries + 3,
                end,
                any,
                any,
            ]));
        }
        2 => {
            let count = random.pick(&[0, 65, 66, 255, 256, u16::MAX]);
            put_16(&mut file, 0, count);
        }
        3 => return out_of_order(random, films),
        4 => {
            let rounds = random.pick(&[0, 4_097, 4_098, 8_192, u16::MAX]);
            put_16(&mut file, entry + 2, rounds);
        }
        5 => {
            let count = (file.len() - entries - 4) / 4;
            let other = random.pick(&[count as u32 + 1, count as u32 - 1, 0, u32::MAX]);
            file[entries..entries + 4].copy_from_slice(&other.to_le_bytes());
        }
        6 => {
            let count = (file.len() - entries - 4) / 4;
            let any = random.below(count as u64) as usize;
            let place = random.pick(&[0, count - 1, any]);
            let at = entries + 4 + 4 * place;
            let larger = random.bits() as u32 | 1 << 24;
            let size = random.pick(&[1 << 24, 1 << 24, larger, u32::MAX]);
            file[at..at + 4].copy_from_slice(&size.to_le_bytes());
        }
        7 => file.extend(vec![random.bits() as u8; 1 + random.below(5) as usize]),
        _ => panic!("no question of a file: {number}"),
    }
    file
}

/// A file in which some number does not exceed the one before.
fn out_of_order(random: &mut Random, films: &[Film]) -> Vec<u8> {
    let mut films = films.to_vec();
    if films.len() == 1 {
        films.push(films[0].clone());
    }
    let place = 1 + random.below(films.len() as u64 - 1) as usize;
    let before = films[place - 1].number;
    films[place].number = random.pick(&[before, before.saturating_sub(1), 0]);
    encode(&films)
}

/// A film with pre-fetch rounds and a reserve, with which it has a schedule, and what that holds in each round.
#[derive(Clone, Debug)]
pub struct Stream {
    pub film: u16,
    pub prefetch: u64,
    pub reserve: u64,
    pub held: Vec<u64>,
}

impl Stream {
    /// Its number of rounds.
    pub fn rounds(&self) -> u64 {
        self.held.len() as u64
    }
}

/// Pre-fetch rounds as they come, or any.
pub const ALL_KINDS: [Option<u64>; 9] = [
    Some(0),
    Some(0),
    Some(1),
    Some(2),
    Some(5),
    Some(20),
    Some(255),
    Some(256),
    None,
];
/// As many as there may be: films open long before they show, so that all of them are open at once.
const LONGEST: [Option<u64>; 1] = [Some(MAX_PREFETCH)];

/// Streams of the films, none of which has more rounds than the day.
pub fn streams(
    random: &mut Random,
    films: &[Film],
    count: usize,
    rounds: u64,
    prefetches: &[Option<u64>],
) -> Vec<Stream> {
    let mut streams = Vec::new();
    for _ in 0..8 * count {
        let film = &films[random.below(films.len() as u64) as usize];
        let any = random.below(257);
        let prefetch = random.pick(prefetches).unwrap_or(any);
        if prefetch + film.sizes.len() as u64 > rounds {
            continue;
        }
        streams.push(stream(random, film, prefetch));
        if streams.len() == count {
            break;
        }
    }
    streams
}

fn stream(random: &mut Random, film: &Film, prefetch: u64) -> Stream {
    let sends = sends(prefetch, &film.sizes);
    let largest = sends.iter().copied().max().unwrap_or(0);
    let cap = random.pick(&[largest, 2 * largest, 8 * largest, u64::MAX]);
    let least = smallest_reserve(&sends, cap);
    let reserve = random.pick(&[least, least, least + 1, largest.max(least)]);
    let reserve = reserve.min(MAX_RESERVE);
    Stream {
        film: film.number,
        prefetch,
        reserve,
        held: held(&sends, &just_in_time(&sends, reserve)),
    }
}

/// A reserve just too small for the stream's film, where there is one.
pub fn too_small(films: &[Film], stream: &Stream) -> Option<u64> {
    let film = films.iter().find(|film| film.number == stream.film)?;
    let sends = sends(stream.prefetch, &film.sizes);
    let least = smallest_reserve(&sends, u64::MAX);
    let smaller = least.checked_sub(1)?;
    assert!(!exists(&sends, smaller));
    Some(smaller)
}

/// How large the drawn days and films are.
#[derive(Clone, Copy, Debug)]
pub struct Scale {
    pub rounds: u64,
    pub films: u64,
    pub film_rounds: u64,
    pub prefetches: &'static [Option<u64>],
    pub bookings: u64,
}

impl Scale {
    /// Some dozens of rounds.
    pub fn small(random: &mut Random) -> Scale {
        let (few, some) = (12 + random.below(100), 300 + random.below(300));
        Scale {
            rounds: random.pick(&[1, few, few, some]),
            films: 4,
            film_rounds: random.pick(&[3, 14, 60]),
            prefetches: &ALL_KINDS,
            bookings: random.below(20),
        }
    }

    /// Up to 86,400 rounds, 256 bookings (and one more that has no place) and films of 4,096 rounds.
    pub fn full(random: &mut Random) -> Scale {
        let (rounds, bookings) = (9_000 + random.below(77_401), random.below(257));
        let crowded = random.once_in(6);
        let film_rounds = random.pick(&[3, 64, 1_000, MAX_FILM_ROUNDS as u64]);
        Scale {
            rounds: random.pick(&[86_400, 86_400, 86_399, 8_192, rounds]),
            films: random.pick(&[3, 12, MAX_FILMS as u64]),
            film_rounds: if crowded { 3 } else { film_rounds },
            prefetches: if crowded { &LONGEST } else { &ALL_KINDS },
            bookings: random.pick(&[257, 257, 255, 64, bookings]),
        }
    }
}

/// A number of pre-fetch rounds past the bound.
pub fn prefetch_past_the_bound(random: &mut Random, prefetch: u64) -> u64 {
    let some = random.below(1_000);
    random.pick(&[
        MAX_PREFETCH + 1,
        MAX_PREFETCH + 2 + some,
        (1 << 16) + prefetch,
        (1 << 32) + prefetch,
        u64::MAX,
    ])
}

/// A reserve past the bound.
pub fn reserve_past_the_bound(random: &mut Random, reserve: u64) -> u64 {
    let some = random.below(1 << 20);
    random.pick(&[
        MAX_RESERVE + 1,
        MAX_RESERVE + 2 + some,
        (1 << 32) + reserve,
        u64::MAX,
    ])
}

/// A film number that the file does not have.
pub fn missing_film(random: &mut Random, films: &[Film]) -> u64 {
    let there = u64::from(films[random.below(films.len() as u64) as usize].number);
    let near = [there + 1, there.wrapping_sub(1), random.below(1 << 16)];
    let near: Vec<u64> = near
        .into_iter()
        .filter(|&number| films.iter().all(|film| u64::from(film.number) != number))
        .collect();
    let far = [(1 << 16) + there, (1 << 32) + there, u64::MAX];
    if near.is_empty() || random.once_in(2) {
        random.pick(&far)
    } else {
        random.pick(&near)
    }
}

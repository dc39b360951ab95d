//! Bookings that stand together, and what they need.

use crate::draw::{Scale, Stream};
use reference::bounds::MAX_BOOKINGS;
use reference::cases::random::Random;
use reference::day::Booking;
use reference::loss::loss;
use std::collections::BTreeSet;

/// Of the rounds of a day: the most bytes of the disk with the arm loss, a round with so many, and the most bytes held.
#[derive(Clone, Copy, Debug)]
pub struct Busiest {
    pub disk: u64,
    pub round: u64,
    pub memory: u64,
}

/// Bookings that show on their cabs one after another, often with no round between them.
pub fn standing(random: &mut Random, streams: &[Stream], scale: Scale) -> Vec<Booking> {
    let mut free = [0u64; 64];
    let widest = random.pick(&[1, scale.rounds / 60, scale.rounds / 8]);
    let mut names = BTreeSet::new();
    let mut bookings = Vec::new();
    for _ in 0..2 * scale.bookings {
        if bookings.len() as u64 == scale.bookings {
            break;
        }
        let stream = &streams[random.below(streams.len() as u64) as usize];
        let earliest = (0..64).min_by_key(|&cab| free[cab]).expect("64 cabs");
        let any = random.below(64) as usize;
        let mut cabs = 1u64 << random.pick(&[earliest, earliest, any]);
        if random.once_in(6) {
            cabs |= 1 << random.below(64);
        }
        let named = |cab: &usize| cabs >> cab & 1 == 1;
        let busy_until = (0..64).filter(named).map(|cab| free[cab]).max();
        let gap = if random.once_in(2) {
            0
        } else {
            random.below(1 + widest)
        };
        let shows = (busy_until.unwrap_or(0) + gap).max(stream.prefetch);
        let start = shows - stream.prefetch;
        let end = start + stream.rounds();
        if end > scale.rounds {
            continue;
        }
        for cab in (0..64).filter(named) {
            free[cab] = end;
        }
        bookings.push(Booking {
            name: new_name(random, &mut names),
            film: stream.film,
            start: start as u32,
            prefetch: stream.prefetch as u16,
            reserve: stream.reserve as u32,
            cabs,
        });
    }
    bookings
}

/// A name that was not drawn before.
fn new_name(random: &mut Random, names: &mut BTreeSet<u32>) -> u32 {
    loop {
        let drawn = random.bits() as u32;
        let name = random.pick(&[drawn, drawn & 0xFF, drawn | 0xFFFF_FF00]);
        if names.insert(name) {
            return name;
        }
    }
}

/// What the bookings of the streams need of disk and memory in their busiest rounds.
pub fn busiest(streams: &[Stream], bookings: &[Booking], rounds: u64) -> Busiest {
    let mut open = vec![0u64; rounds as usize];
    let mut reserves = open.clone();
    let mut held = open.clone();
    for booking in bookings {
        let stream = streams.iter().find(|stream| {
            stream.film == booking.film
                && stream.prefetch == u64::from(booking.prefetch)
                && stream.reserve == u64::from(booking.reserve)
        });
        let Some(stream) = stream else { continue };
        if u64::from(booking.start) + stream.rounds() > rounds {
            continue;
        }
        for (t, bytes) in stream.held.iter().enumerate() {
            let round = booking.start as usize + t;
            open[round] += 1;
            reserves[round] += stream.reserve;
            held[round] += bytes;
        }
    }
    let disk = |round: usize| reserves[round] + loss(open[round].min(MAX_BOOKINGS));
    let round = (0..open.len())
        .max_by_key(|&round| disk(round))
        .unwrap_or(0);
    Busiest {
        disk: disk(round),
        memory: held.into_iter().max().unwrap_or(0),
        round: round as u64,
    }
}

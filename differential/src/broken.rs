//! Calls that meet a "no" at a chosen question.

use crate::case::Case;
use crate::draw::{
    broken, missing_film, prefetch_past_the_bound, reserve_past_the_bound, too_small,
};
use reference::bounds::{MAX_DAY_ROUNDS, MAX_DISK, MAX_MEMORY, MAX_RESERVE};
use reference::cases::random::Random;
use reference::day::{Booking, Request};

/// Changes what is lent so that a call is refused with the number, if nothing before it refuses. Numbers of a request's own
/// questions change nothing here.
pub fn break_day(random: &mut Random, case: &mut Case, number: u32) {
    let rounds = case.day.rounds;
    match number {
        1..=7 => case.file = broken(random, &case.films, number),
        14 => {
            let past = random.pick(&[rounds.saturating_add(1), 1 << 32, u64::MAX]);
            match random.below(3) {
                0 => case.day.rounds = 0,
                1 => case.day.rounds = random.pick(&[MAX_DAY_ROUNDS + 1, 1 << 32, u64::MAX]),
                _ => case.day.now = past,
            }
        }
        15 => match random.below(2) {
            0 => case.day.disk = random.pick(&[MAX_DISK + 1, 1 << 33, u64::MAX]),
            _ => case.day.memory = random.pick(&[MAX_MEMORY + 1, 1 << 41, u64::MAX]),
        },
        11 => {
            let sheet = &mut case.sheet;
            let lists = [&mut sheet.open, &mut sheet.reserves, &mut sheet.held];
            let chosen = random.below(3) as usize;
            let shorter = random.below(rounds);
            let length = random.pick(&[rounds.saturating_sub(1), 0, shorter]);
            for (index, list) in lists.into_iter().enumerate() {
                if index == chosen {
                    list.truncate(length as usize);
                }
            }
        }
        16 => break_list(random, case),
        17 => case.records.truncate(case.day.count as usize),
        23 => case.day.now = rounds,
        _ => {}
    }
}

/// Makes the list of bookings unsound in one of its ways.
fn break_list(random: &mut Random, case: &mut Case) {
    let count = case.day.count as usize;
    if let (256, Some(one_more), true) = (count, case.one_more, random.once_in(2)) {
        // 257 bookings that would fit together.
        case.records.truncate(count);
        case.records.push(one_more);
        case.day.count = 257;
        return;
    }
    if count == 0 || random.once_in(6) {
        let places = case.records.len() as u64;
        case.day.count = random.pick(&[places + 1, 257, 1 << 32, u64::MAX]);
        return;
    }
    let place = random.below(count as u64) as usize;
    let other = case.records[random.below(count as u64) as usize];
    let busiest = case.busiest();
    let drawn = random.bits();
    let record: &mut Booking = &mut case.records[place];
    match random.below(12) {
        0 => record.name = other.name,
        1 => record.film = missing_film(random, &case.films) as u16,
        2 => record.prefetch = random.pick(&[257, 258, 1 << 15, u16::MAX]),
        3 => record.reserve = random.pick(&[MAX_RESERVE as u32 + 1, 1 << 31, u32::MAX]),
        4 => {
            record.reserve = random.pick(&[0, record.reserve / 2, record.reserve.saturating_sub(1)])
        }
        5 => record.cabs = random.pick(&[0, other.cabs | record.cabs, u64::MAX]),
        6 => record.start = random.pick(&[u32::MAX, case.day.rounds as u32, drawn as u32]),
        7 => record.start = other.start,
        8 => *record = Booking::default(),
        9 => case.day.disk = random.pick(&[busiest.disk.saturating_sub(1), 0]),
        10 => case.day.memory = random.pick(&[busiest.memory.saturating_sub(1), 0]),
        _ => case.day.rounds = 1 + drawn % case.day.rounds,
    }
}

/// Changes a request so that it is refused with the number, if nothing before it refuses.
pub fn break_request(random: &mut Random, case: &Case, request: &mut Request, number: u32) {
    let day = case.day;
    match number {
        18 => {
            if let Some(booking) = case.standing_one(random) {
                request.name = booking.name;
            }
        }
        8 => request.film = missing_film(random, &case.films),
        9 => request.prefetch = prefetch_past_the_bound(random, request.prefetch),
        10 => request.reserve = reserve_past_the_bound(random, request.reserve),
        20 => request.cabs = 0,
        12 => break_reserve(case, request),
        21 => break_window(random, case, request),
        22 => clash(random, case, request),
        _ => {}
    }
    if number == 0 && random.once_in(3) {
        // A window that begins in the current round.
        request.first = day.now;
        request.last = request.last.max(day.now);
    }
}

/// A reserve just too small for the request's film.
fn break_reserve(case: &Case, request: &mut Request) {
    let stream = case.streams.iter().find(|stream| {
        u64::from(stream.film) == request.film && stream.prefetch == request.prefetch
    });
    if let Some(reserve) = stream.and_then(|stream| too_small(&case.films, stream)) {
        request.reserve = reserve;
    }
}

/// A window that begins too early, ends before it begins, or ends too late.
fn break_window(random: &mut Random, case: &Case, request: &mut Request) {
    let day = case.day;
    let rounds = case.rounds_of(request.film, request.prefetch);
    let latest = day.rounds.saturating_sub(rounds);
    match random.below(4) {
        0 if day.now > 0 => request.first = random.below(day.now),
        1 if request.first > 0 => request.last = request.first - 1,
        2 => request.last = latest + 1,
        _ => {
            request.last = random.pick(&[
                u64::MAX,
                u64::MAX - rounds + 1,
                u64::MAX - rounds,
                day.rounds,
            ]);
        }
    }
}

/// A request that a cab keeps out of the one round of its window, or the disk or a cab out of all.
fn clash(random: &mut Random, case: &Case, request: &mut Request) {
    let day = case.day;
    match case.standing_one(random) {
        Some(booking) if random.below(3) > 0 => {
            let shows = u64::from(booking.start) + u64::from(booking.prefetch);
            request.cabs |= booking.cabs;
            let at = shows.saturating_sub(request.prefetch).max(day.now);
            (request.first, request.last) = (at.min(request.last), at.min(request.last));
        }
        _ => {
            request.reserve = MAX_RESERVE;
            request.cabs = u64::MAX;
        }
    }
}

/// A day with no bookings, whose memory is one byte short of the request's peak: the longest search there is.
pub fn short_of_memory(case: &mut Case, request: &mut Request) {
    let stream = case.streams.iter().find(|stream| {
        u64::from(stream.film) == request.film
            && stream.prefetch == request.prefetch
            && stream.reserve == request.reserve
    });
    let peak = stream.and_then(|stream| stream.held.iter().copied().max());
    if let Some(memory) = peak.and_then(|peak| peak.checked_sub(1)) {
        case.day.count = 0;
        case.day.memory = memory;
        case.day.disk = MAX_DISK;
        case.day.now = 0;
        let rounds = case.rounds_of(request.film, request.prefetch);
        (request.first, request.last) = (0, case.day.rounds - rounds);
    }
}

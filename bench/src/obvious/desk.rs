//! A day's questions and calls, the load of all bookings worked out for each of them.

use super::films::{ask, films_of, find, held, totals, Film};
use crate::scheduler::Sheet;
use playback::lent::Reply;
use playback::limits::{MAX_BOOKINGS, MAX_DAY, MAX_DISK, MAX_MEMORY, MAX_PREFETCH, MAX_RESERVE};
use playback::{Booking, Day, Line, Refusal, Request};

/// A booking's numbers, wherever it starts: 8, 9, 10, 20, 12.
pub fn ask_stream(
    films: &[Film],
    film: u64,
    prefetch: u64,
    reserve: u64,
    cabs: u64,
) -> Result<&Film, Refusal> {
    let film = find(films, film)?;
    ask(prefetch <= MAX_PREFETCH, Refusal::Prefetch)?;
    ask(reserve <= MAX_RESERVE, Refusal::Reserve)?;
    ask(cabs != 0, Refusal::NoCab)?;
    let (read, _) = totals(&film.sizes, prefetch, reserve);
    ask(read[0] <= reserve, Refusal::NoSchedule)?;
    Ok(film)
}

pub fn loss(open: u64) -> u64 {
    (open * 10_000_000_000).isqrt()
}

/// The load of bookings by round, and whether a cab shows two films.
pub struct Load {
    pub sheet: Sheet,
    pub clash: bool,
}

pub fn load_of(films: &[Film], day: &Day, bookings: &[Booking]) -> Load {
    let mut sheet = Sheet::new(day.rounds as usize);
    let mut cabs = vec![0; day.rounds as usize];
    let mut clash = false;
    for booking in bookings {
        let Ok(film) = find(films, booking.film.into()) else {
            continue;
        };
        let prefetch = u64::from(booking.prefetch);
        let (read, sent) = totals(&film.sizes, prefetch, booking.reserve.into());
        for (t, held) in held(&read, &sent).iter().enumerate() {
            let round = booking.start as usize + t;
            sheet.opens[round] += 1;
            sheet.reserves[round] += u64::from(booking.reserve);
            sheet.helds[round] += held;
            if t >= prefetch as usize {
                clash |= cabs[round] & booking.cabs != 0;
                cabs[round] |= booking.cabs;
            }
        }
    }
    Load { sheet, clash }
}

/// Whether limits and cabs are kept in every round.
pub fn fits(films: &[Film], day: &Day, bookings: &[Booking]) -> bool {
    let load = load_of(films, day, bookings);
    let kept = (0..day.rounds as usize).all(|round| {
        load.sheet.reserves[round] + loss(load.sheet.opens[round]) <= day.disk
            && load.sheet.helds[round] <= day.memory
    });
    kept && !load.clash
}

pub fn ask_day(day: &Day) -> Result<(), Refusal> {
    let rounds = (1..=MAX_DAY).contains(&day.rounds);
    ask(rounds && day.now <= day.rounds, Refusal::DayRounds)?;
    let limits = day.disk <= MAX_DISK && day.memory <= MAX_MEMORY;
    ask(limits, Refusal::DayLimits)
}

pub fn ask_sheet(day: &Day, sheet: &Sheet) -> Result<(), Refusal> {
    let lists = [&sheet.opens, &sheet.reserves, &sheet.helds];
    let long = lists.iter().all(|list| list.len() as u64 >= day.rounds);
    ask(long, Refusal::NoRoom)
}

/// 16: the standing records, where they are sound.
pub fn ask_list<'a>(
    films: &[Film],
    day: &Day,
    records: &'a [Booking],
) -> Result<&'a [Booking], Refusal> {
    let within = day.count <= MAX_BOOKINGS as u64 && day.count <= records.len() as u64;
    ask(within, Refusal::Unsound)?;
    let records = &records[..day.count as usize];
    for (place, record) in records.iter().enumerate() {
        let new = records[..place]
            .iter()
            .all(|other| other.name != record.name);
        ask(new, Refusal::Unsound)?;
        let (film, prefetch) = (u64::from(record.film), u64::from(record.prefetch));
        let film = ask_stream(films, film, prefetch, record.reserve.into(), record.cabs)
            .map_err(|_| Refusal::Unsound)?;
        let end = u64::from(record.start) + prefetch + film.sizes.len() as u64;
        ask(end <= day.rounds, Refusal::Unsound)?;
    }
    ask(fits(films, day, records), Refusal::Unsound)?;
    Ok(records)
}

pub fn write(load: &Load, sheet: &mut Sheet) {
    let rounds = load.sheet.opens.len();
    sheet.opens[..rounds].copy_from_slice(&load.sheet.opens);
    sheet.reserves[..rounds].copy_from_slice(&load.sheet.reserves);
    sheet.helds[..rounds].copy_from_slice(&load.sheet.helds);
}

pub fn reply(day: Day, answer: Result<Reply, Refusal>) -> Reply {
    answer.unwrap_or_else(|refusal| Reply {
        refusal: refusal.number(),
        day,
        ..Reply::default()
    })
}

pub fn record_of(request: &Request, start: u64) -> Booking {
    Booking {
        name: request.name,
        film: request.film as u16,
        start: start as u32,
        prefetch: request.prefetch as u16,
        reserve: request.reserve as u32,
        cabs: request.cabs,
    }
}

pub fn try_drop(
    file: &[u8],
    day: Day,
    records: &mut [Booking],
    name: u32,
    sheet: &mut Sheet,
) -> Result<Reply, Refusal> {
    let films = films_of(file)?;
    ask_day(&day)?;
    ask_sheet(&day, sheet)?;
    let mut bookings = ask_list(&films, &day, records)?.to_vec();
    let place = bookings
        .iter()
        .position(|booking| booking.name == name)
        .ok_or(Refusal::NoName)?;
    bookings.remove(place);
    write(&load_of(&films, &day, &bookings), sheet);
    records[..bookings.len()].copy_from_slice(&bookings);
    records[bookings.len()] = Booking::default();
    let count = day.count - 1;
    Ok(Reply {
        day: Day { count, ..day },
        ..Reply::default()
    })
}

pub fn try_play(
    file: &[u8],
    day: Day,
    records: &[Booking],
    report: &mut [Line],
) -> Result<Reply, Refusal> {
    let films = films_of(file)?;
    ask_day(&day)?;
    let standing = ask_list(&films, &day, records)?;
    ask(day.now < day.rounds, Refusal::DayOver)?;
    let mut lines = Vec::new();
    let mut cabs = 0_u64;
    for booking in standing {
        let film = find(&films, booking.film.into())?;
        let prefetch = u64::from(booking.prefetch);
        let (read, sent) = totals(&film.sizes, prefetch, booking.reserve.into());
        let Some(t) = day.now.checked_sub(booking.start.into()) else {
            continue;
        };
        let t = t as usize;
        if t >= read.len() {
            continue;
        }
        let before = |totals: &[u64]| if t == 0 { 0 } else { totals[t - 1] };
        lines.push(Line {
            name: booking.name,
            read: read[t] - before(&read),
            send: sent[t] - before(&sent),
            held: read[t] - before(&sent),
        });
        if t >= prefetch as usize {
            cabs |= booking.cabs;
        }
    }
    ask(lines.len() <= report.len(), Refusal::NoRoom)?;
    report[..lines.len()].copy_from_slice(&lines);
    Ok(Reply {
        films: lines.len() as u64,
        cabs: cabs.count_ones().into(),
        day: Day {
            now: day.now + 1,
            ..day
        },
        ..Reply::default()
    })
}

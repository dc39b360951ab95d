//! Opening, booking, dropping and playing on any lent day.

use super::film_file::{bytes, Catalogue};
use super::retrieval::{carry_of, write_held, MAX_OPEN};
use super::search::Search;
use super::sheet::{Lists, Row};
use super::standing::{ask_day, ask_list, Stream, Wanted};
use crate::scheduler::{Opening, Sheet};
use playback::lent::Reply;
use playback::limits::MAX_BOOKINGS;
use playback::{Booking, Day, Line, Refusal, Request};

/// 14, 15, 11.
pub fn open(opening: Opening, sheet: &mut Sheet) -> Result<Reply, Refusal> {
    let day = Day {
        rounds: opening.rounds,
        disk: opening.disk,
        memory: opening.memory,
        now: 0,
        count: 0,
    };
    ask_day(&day)?;
    Lists::of(sheet, day.rounds)?.clear();
    Ok(Reply {
        day,
        ..Reply::default()
    })
}

/// 18: whether a record bears the name.
pub fn find_name(records: &[Booking], name: u32) -> Option<usize> {
    records.iter().position(|record| record.name == name)
}

/// 21: now ≤ first ≤ last and last+p+n ≤ T.
pub fn ask_window(day: &Day, request: &Request, stream: &Stream) -> Result<(), Refusal> {
    let latest = day.rounds.checked_sub(stream.open_rounds() as u64);
    let ordered = day.now <= request.first && request.first <= request.last;
    if !ordered || latest.is_none_or(|latest| request.last > latest) {
        return Err(Refusal::Window);
    }
    Ok(())
}

/// The record of an accepted request.
pub fn record_of(request: &Request, start: usize) -> Booking {
    Booking {
        name: request.name,
        film: request.film as u16,
        start: start as u32,
        prefetch: request.prefetch as u16,
        reserve: request.reserve as u32,
        cabs: request.cabs,
    }
}

/// 1 to 7, 14, 15, 11, 16, 18, 8, 9, 10, 20, 12, 21, 17, 22.
pub fn book(
    file: &[u8],
    day: Day,
    records: &mut [Booking],
    request: Request,
    sheet: &mut Sheet,
) -> Result<Reply, Refusal> {
    let catalogue = Catalogue::read(file)?;
    ask_day(&day)?;
    let mut lists = Lists::of(sheet, day.rounds)?;
    let standing = ask_list(&catalogue, &day, records, Wanted::Profiles)?;
    let count = day.count as usize;
    if find_name(&records[..count], request.name).is_some() {
        return Err(Refusal::NameTaken);
    }
    let stream = Stream::new(
        &catalogue,
        request.film,
        request.prefetch,
        request.reserve,
        request.cabs,
    )?;
    let mut profile = [0; MAX_OPEN];
    let profile = &mut profile[..stream.open_rounds()];
    if !write_held(stream.sizes, stream.reserve, profile) {
        return Err(Refusal::NoSchedule);
    }
    ask_window(&day, &request, &stream)?;
    if count == MAX_BOOKINGS || count == records.len() {
        return Err(Refusal::ListFull);
    }
    let search = Search {
        first: request.first as usize,
        last: request.last as usize,
        rounds: day.rounds as usize,
        disk: day.disk,
        memory: day.memory,
        stream: &stream,
        profile,
        largest: standing.held.largest,
    };
    let helds = || standing.held.by_round(day.rounds as usize);
    let found = search.first_start(&standing.segments, standing.streams(), helds);
    let mut rows = standing.rows();
    rows.extend(found.map(|start| Row::new(&stream, start, profile)));
    lists.sum(&mut rows);
    let start = found.ok_or(Refusal::NoStart)?;
    records[count] = record_of(&request, start);
    Ok(Reply {
        start: start as u64,
        day: Day {
            count: day.count + 1,
            ..day
        },
        ..Reply::default()
    })
}

/// Takes the record at a place out, closes the gap and zeroes the place freed.
pub fn remove(records: &mut [Booking], place: usize) {
    records.copy_within(place + 1.., place);
    if let Some(freed) = records.last_mut() {
        *freed = Booking::default();
    }
}

/// 1 to 7, 14, 15, 11, 16, 19.
pub fn drop_booking(
    file: &[u8],
    day: Day,
    records: &mut [Booking],
    name: u32,
    sheet: &mut Sheet,
) -> Result<Reply, Refusal> {
    let catalogue = Catalogue::read(file)?;
    ask_day(&day)?;
    let mut lists = Lists::of(sheet, day.rounds)?;
    let standing = ask_list(&catalogue, &day, records, Wanted::Profiles)?;
    let records = &mut records[..day.count as usize];
    let place = find_name(records, name).ok_or(Refusal::NoName)?;
    let mut rows = standing.rows();
    rows.remove(place);
    lists.sum(&mut rows);
    remove(records, place);
    Ok(Reply {
        day: Day {
            count: day.count - 1,
            ..day
        },
        ..Reply::default()
    })
}

/// 1 to 7, 14, 15, 16, 23, 11.
pub fn play(
    file: &[u8],
    day: Day,
    records: &[Booking],
    report: &mut [Line],
) -> Result<Reply, Refusal> {
    let catalogue = Catalogue::read(file)?;
    ask_day(&day)?;
    let standing = ask_list(&catalogue, &day, records, Wanted::Answer)?;
    if day.now == day.rounds {
        return Err(Refusal::DayOver);
    }
    let now = day.now as usize;
    let is_open = |stream: &Stream| stream.start <= now && now < stream.end();
    let open = standing.streams().iter().filter(|stream| is_open(stream));
    let films = open.count();
    let report = report.get_mut(..films).ok_or(Refusal::NoRoom)?;
    let mut cabs = 0;
    let named = standing.streams().iter().zip(records);
    let open = named.filter(|(stream, _)| is_open(stream));
    for (line, (stream, record)) in report.iter_mut().zip(open) {
        let mut after = stream.sizes;
        let mut send = 0;
        let mut held = 0;
        if let Some(shown) = now.checked_sub(stream.shows()) {
            cabs |= stream.cabs;
            send = bytes(stream.sizes[shown]);
            after = &stream.sizes[shown + 1..];
        } else {
            // What the pre-fetch rounds after this one cannot read before the film shows.
            let rounds = (stream.shows() - now - 1) as u64;
            held = rounds * stream.reserve;
        }
        held = send + carry_of(after, stream.reserve).saturating_sub(held);
        *line = Line {
            name: record.name,
            read: held.min(stream.reserve),
            send,
            held,
        };
    }
    Ok(Reply {
        films: films as u64,
        cabs: u64::from(cabs.count_ones()),
        day: Day {
            now: day.now + 1,
            ..day
        },
        ..Reply::default()
    })
}

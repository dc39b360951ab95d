//! A day carried on call by call: the file is read once, the list is sound from the start, every booking's profile and the bytes held by
//! round are kept. The sheet is summed when the calls are done.

use super::calls::{ask_window, find_name, record_of, remove};
use super::film_file::{bytes, Catalogue};
use super::retrieval::write_held;
use super::search::Search;
use super::sheet::{Lists, Row};
use super::standing::{add_each, ask_day, segments_of, Stream};
use crate::scheduler::{Opening, Sheet};
use playback::journal::{ANSWER, BOOK, DROP, ENTRY, LINE, PLAY};
use playback::lent::Replayed;
use playback::limits::MAX_BOOKINGS;
use playback::{Booking, Day, Line, Refusal, Request};

/// A standing booking with what it holds by round.
struct Kept<'a> {
    stream: Stream<'a>,
    profile: Vec<u64>,
}

/// An open day.
pub struct Carried<'a> {
    /// The film file, or its refusal, which every call answers first.
    catalogue: Result<Catalogue<'a>, Refusal>,
    pub day: Day,
    kept: Vec<Kept<'a>>,
    /// The bytes held by round of the day.
    helds: Vec<u64>,
}

impl<'a> Carried<'a> {
    /// 14, 15.
    pub fn open(file: &'a [u8], opening: Opening) -> Result<Carried<'a>, Refusal> {
        let day = Day {
            rounds: opening.rounds,
            disk: opening.disk,
            memory: opening.memory,
            now: 0,
            count: 0,
        };
        ask_day(&day)?;
        Ok(Carried {
            catalogue: Catalogue::read(file),
            day,
            kept: Vec::new(),
            helds: vec![0; day.rounds as usize],
        })
    }

    fn catalogue(&self) -> Result<&Catalogue<'a>, Refusal> {
        self.catalogue.as_ref().map_err(|&refusal| refusal)
    }

    /// The start.
    pub fn book(&mut self, records: &mut [Booking], request: &Request) -> Result<u64, Refusal> {
        let catalogue = self.catalogue()?;
        let count = self.kept.len();
        if find_name(&records[..count], request.name).is_some() {
            return Err(Refusal::NameTaken);
        }
        let mut stream = Stream::new(
            catalogue,
            request.film,
            request.prefetch,
            request.reserve,
            request.cabs,
        )?;
        let mut profile = vec![0; stream.open_rounds()];
        if !write_held(stream.sizes, stream.reserve, &mut profile) {
            return Err(Refusal::NoSchedule);
        }
        ask_window(&self.day, request, &stream)?;
        if count == MAX_BOOKINGS || count == records.len() {
            return Err(Refusal::ListFull);
        }
        let streams: Vec<Stream> = self.kept.iter().map(|kept| kept.stream).collect();
        let reached = &self.helds[request.first as usize..];
        let reached = &reached[..(request.last - request.first) as usize + profile.len()];
        let search = Search {
            first: request.first as usize,
            last: request.last as usize,
            rounds: self.day.rounds as usize,
            disk: self.day.disk,
            memory: self.day.memory,
            stream: &stream,
            profile: &profile,
            largest: reached.iter().copied().max().unwrap_or(0),
        };
        let start = search
            .first_start(&segments_of(&streams), &streams, || &self.helds)
            .ok_or(Refusal::NoStart)?;
        add_each(&mut self.helds[start..start + profile.len()], &profile);
        stream.start = start;
        self.kept.push(Kept { stream, profile });
        records[count] = record_of(request, start);
        self.day.count += 1;
        Ok(start as u64)
    }

    pub fn drop_booking(&mut self, records: &mut [Booking], name: u32) -> Result<(), Refusal> {
        self.catalogue()?;
        let records = &mut records[..self.kept.len()];
        let place = find_name(records, name).ok_or(Refusal::NoName)?;
        let gone = self.kept.remove(place);
        let helds = &mut self.helds[gone.stream.start..gone.stream.end()];
        for (held, less) in helds.iter_mut().zip(&gone.profile) {
            *held -= less;
        }
        remove(records, place);
        self.day.count -= 1;
        Ok(())
    }

    /// The films open in the current round and the cabs served, where a report of that many lines takes them. `lines` gets a line
    /// for each; the round is over only with [`Carried::next_round`].
    pub fn lines(
        &self,
        records: &[Booking],
        report: u64,
        lines: &mut Vec<Line>,
    ) -> Result<(u64, u64), Refusal> {
        lines.clear();
        self.catalogue()?;
        if self.day.now == self.day.rounds {
            return Err(Refusal::DayOver);
        }
        let now = self.day.now as usize;
        let mut cabs = 0;
        for (kept, record) in self.kept.iter().zip(records) {
            let stream = &kept.stream;
            if now < stream.start || stream.end() <= now {
                continue;
            }
            let mut send = 0;
            if let Some(shown) = now.checked_sub(stream.shows()) {
                cabs |= stream.cabs;
                send = bytes(stream.sizes[shown]);
            }
            let held = kept.profile[now - stream.start];
            lines.push(Line {
                name: record.name,
                read: held.min(stream.reserve),
                send,
                held,
            });
        }
        let films = lines.len() as u64;
        if films > report {
            return Err(Refusal::NoRoom);
        }
        Ok((films, cabs.count_ones().into()))
    }

    pub fn next_round(&mut self) {
        self.day.now += 1;
    }

    fn sum(&self, lists: &mut Lists) {
        let rows = self.kept.iter();
        let rows = rows.map(|kept| Row::new(&kept.stream, kept.stream.start, &kept.profile));
        lists.sum(&mut rows.collect::<Vec<_>>());
    }
}

/// Carries out the entries of a journal as far as the log takes their words.
pub fn replay(
    file: &[u8],
    opening: Opening,
    records: &mut [Booking],
    journal: &[u64],
    log: &mut [u64],
    sheet: &mut Sheet,
) -> Result<Replayed, Refusal> {
    let mut carried = Carried::open(file, opening)?;
    let mut lists = Lists::of(sheet, opening.rounds)?;
    let mut entries = 0;
    let mut words = 0;
    let mut lines = Vec::new();
    for entry in journal.chunks_exact(ENTRY) {
        let Some(rest) = log.get_mut(words..).filter(|rest| rest.len() >= ANSWER) else {
            break;
        };
        let name = u32::try_from(entry[1]);
        let answer = match (entry[0], name) {
            (BOOK, Ok(name)) => {
                let request = Request {
                    name,
                    film: entry[2],
                    prefetch: entry[3],
                    reserve: entry[4],
                    cabs: entry[5],
                    first: entry[6],
                    last: entry[7],
                };
                let start = carried.book(records, &request);
                start.map(|start| (start, 0))
            }
            (DROP, Ok(name)) => carried.drop_booking(records, name).map(|()| (0, 0)),
            (PLAY, _) => carried.lines(records, entry[1], &mut lines),
            _ => Err(Refusal::Command),
        };
        let mut needed = ANSWER;
        if let (PLAY, Ok(_)) = (entry[0], answer) {
            needed += LINE * lines.len();
            let Some(report) = rest.get_mut(ANSWER..needed) else {
                break;
            };
            for (words, line) in report.chunks_exact_mut(LINE).zip(&lines) {
                words.copy_from_slice(&[line.name.into(), line.read, line.send, line.held]);
            }
            carried.next_round();
        }
        let (number, first, second) = match answer {
            Ok((first, second)) => (0, first, second),
            Err(refusal) => (refusal.number().into(), 0, 0),
        };
        rest[..ANSWER].copy_from_slice(&[number, first, second]);
        words += needed;
        entries += 1;
    }
    carried.sum(&mut lists);
    Ok(Replayed {
        refusal: 0,
        entries,
        words: words as u64,
        day: carried.day,
    })
}

//! The standing bookings of a day: whether the list is sound, and its load by round.

use super::film_file::{Catalogue, Stored};
use super::loss::loss;
use super::retrieval::{add_held, write_held, MAX_OPEN};
use super::sheet::Row;
use playback::limits::{MAX_BOOKINGS, MAX_DAY, MAX_DISK, MAX_MEMORY, MAX_PREFETCH, MAX_RESERVE};
use playback::{Booking, Day, Refusal};

/// A booking with its film's sizes.
#[derive(Clone, Copy, Default)]
pub struct Stream<'a> {
    pub sizes: &'a [Stored],
    /// The film's place in the file.
    pub film: usize,
    pub start: usize,
    pub prefetch: usize,
    pub reserve: u64,
    pub cabs: u64,
}

impl<'a> Stream<'a> {
    /// A request's stream from round 0 on: 8, 9, 10, 20.
    pub fn new(
        catalogue: &Catalogue<'a>,
        film: u64,
        prefetch: u64,
        reserve: u64,
        cabs: u64,
    ) -> Result<Stream<'a>, Refusal> {
        let (film, sizes) = catalogue.find(film).ok_or(Refusal::NoFilm)?;
        if prefetch > MAX_PREFETCH {
            return Err(Refusal::Prefetch);
        }
        if reserve > MAX_RESERVE {
            return Err(Refusal::Reserve);
        }
        if cabs == 0 {
            return Err(Refusal::NoCab);
        }
        Ok(Stream {
            sizes,
            film,
            start: 0,
            prefetch: prefetch as usize,
            reserve,
            cabs,
        })
    }

    /// Its number of rounds, p+n.
    pub fn open_rounds(&self) -> usize {
        self.prefetch + self.sizes.len()
    }

    pub fn end(&self) -> usize {
        self.start + self.open_rounds()
    }

    /// The first round in which it shows.
    pub fn shows(&self) -> usize {
        self.start + self.prefetch
    }
}

/// Rounds with the same films open, up to the next segment's first round or the end of the day.
#[derive(Clone, Copy, Default)]
pub struct Segment {
    pub from: usize,
    pub open: u32,
    pub reserves: u64,
}

/// A sound list.
pub struct Standing<'a> {
    streams: [Stream<'a>; MAX_BOOKINGS],
    count: usize,
    pub segments: Segments,
    pub held: Held,
    profiles: Profiles,
}

impl<'a> Standing<'a> {
    pub fn streams(&self) -> &[Stream<'a>] {
        &self.streams[..self.count]
    }

    /// The bookings with their profiles, where these were wanted.
    pub fn rows(&self) -> Vec<Row<'_>> {
        let mut rows = Vec::with_capacity(self.count + 1);
        let streams = self.streams().iter().zip(&self.profiles.from);
        rows.extend(streams.map(|(stream, &from)| {
            let held = &self.profiles.words[from..from + stream.open_rounds()];
            Row::new(stream, stream.start, held)
        }));
        rows
    }
}

/// What is wanted of a list beside its load: nothing, or its profiles too.
#[derive(Clone, Copy, PartialEq, Eq)]
pub enum Wanted {
    Answer,
    Profiles,
}

/// What each stream holds by round of its own: the place where its words begin. Equal streams share them.
struct Profiles {
    words: Vec<u64>,
    from: [usize; MAX_BOOKINGS],
}

/// 14 and 15 of a day.
pub fn ask_day(day: &Day) -> Result<(), Refusal> {
    if day.rounds == 0 || day.rounds > MAX_DAY || day.now > day.rounds {
        return Err(Refusal::DayRounds);
    }
    if day.disk > MAX_DISK || day.memory > MAX_MEMORY {
        return Err(Refusal::DayLimits);
    }
    Ok(())
}

/// 16: the list's records as streams with their load, where it is sound. The day has passed 14.
pub fn ask_list<'a>(
    catalogue: &Catalogue<'a>,
    day: &Day,
    records: &[Booking],
    wanted: Wanted,
) -> Result<Standing<'a>, Refusal> {
    if day.count > MAX_BOOKINGS as u64 {
        return Err(Refusal::Unsound);
    }
    let records = records.get(..day.count as usize).ok_or(Refusal::Unsound)?;
    if !names_differ(records) {
        return Err(Refusal::Unsound);
    }
    let mut streams = [Stream::default(); MAX_BOOKINGS];
    for (stream, record) in streams.iter_mut().zip(records) {
        *stream = stream_of(catalogue, record).map_err(|_| Refusal::Unsound)?;
        if stream.end() > day.rounds as usize {
            return Err(Refusal::Unsound);
        }
    }
    let standing = &streams[..records.len()];
    let segments = segments_of(standing);
    if !segments.keep(day.disk) || !cabs_differ(standing) {
        return Err(Refusal::Unsound);
    }
    let (held, profiles) = held_by(standing, day.memory, wanted).ok_or(Refusal::Unsound)?;
    Ok(Standing {
        count: records.len(),
        streams,
        segments,
        held,
        profiles,
    })
}

pub fn stream_of<'a>(catalogue: &Catalogue<'a>, record: &Booking) -> Result<Stream<'a>, Refusal> {
    let stream = Stream::new(
        catalogue,
        record.film.into(),
        record.prefetch.into(),
        record.reserve.into(),
        record.cabs,
    )?;
    Ok(Stream {
        start: record.start as usize,
        ..stream
    })
}

fn names_differ(records: &[Booking]) -> bool {
    let mut names = [0; MAX_BOOKINGS];
    let names = &mut names[..records.len()];
    for (name, record) in names.iter_mut().zip(records) {
        *name = record.name;
    }
    names.sort_unstable();
    names.windows(2).all(|pair| pair[0] != pair[1])
}

/// The day cut where bookings open and end.
pub struct Segments {
    list: [Segment; 2 * MAX_BOOKINGS + 1],
    count: usize,
}

impl Segments {
    pub fn list(&self) -> &[Segment] {
        &self.list[..self.count]
    }

    /// Each segment with the round before which it ends.
    pub fn with_ends(&self, rounds: usize) -> impl Iterator<Item = (Segment, usize)> + '_ {
        let ends = self.list()[1..].iter().map(|segment| segment.from);
        let ends = ends.chain(std::iter::once(rounds));
        self.list().iter().copied().zip(ends)
    }

    fn keep(&self, disk: u64) -> bool {
        let mut all = self.list().iter();
        all.all(|segment| segment.reserves + loss(segment.open) <= disk)
    }
}

/// A round and a number below 2^32, so that they sort as one number.
fn pack(round: usize, value: u64) -> u64 {
    (round as u64) << 32 | value
}

pub fn segments_of(streams: &[Stream]) -> Segments {
    let mut starts = [0; MAX_BOOKINGS];
    let mut ends = [0; MAX_BOOKINGS];
    let starts = &mut starts[..streams.len()];
    let ends = &mut ends[..streams.len()];
    for (place, stream) in streams.iter().enumerate() {
        starts[place] = pack(stream.start, stream.reserve);
        ends[place] = pack(stream.end(), stream.reserve);
    }
    starts.sort_unstable();
    ends.sort_unstable();
    let mut segments = Segments {
        list: [Segment::default(); 2 * MAX_BOOKINGS + 1],
        count: 1,
    };
    let mut now = Segment::default();
    let mut opening = 0;
    for &end in ends.iter() {
        while opening < starts.len() && starts[opening] >> 32 < end >> 32 {
            now.open += 1;
            now.reserves += starts[opening] & 0xffff_ffff;
            segments.put(now, starts[opening]);
            opening += 1;
        }
        now.open -= 1;
        now.reserves -= end & 0xffff_ffff;
        segments.put(now, end);
    }
    segments
}

impl Segments {
    /// What holds from the event's round on.
    fn put(&mut self, now: Segment, event: u64) {
        let from = (event >> 32) as usize;
        if self.list[self.count - 1].from != from {
            self.count += 1;
        }
        self.list[self.count - 1] = Segment { from, ..now };
    }
}

/// Whether no cab shows two films: by the order in which films begin to show, none before its cabs are free.
fn cabs_differ(streams: &[Stream]) -> bool {
    let mut order = [0; MAX_BOOKINGS];
    let order = &mut order[..streams.len()];
    for (place, stream) in streams.iter().enumerate() {
        order[place] = pack(stream.shows(), place as u64);
    }
    order.sort_unstable();
    let mut free_from = [0; 64];
    order.iter().all(|packed| {
        let stream = &streams[(packed & 0xff) as usize];
        let mut cabs = stream.cabs;
        while cabs != 0 {
            let free = &mut free_from[cabs.trailing_zeros() as usize];
            if stream.shows() < *free {
                return false;
            }
            *free = stream.end();
            cabs &= cabs - 1;
        }
        true
    })
}

/// The bytes held by round, from the first round in which a booking is open to the last, and the most of them.
pub struct Held {
    pub from: usize,
    pub bytes: Vec<u64>,
    pub largest: u64,
}

impl Held {
    /// The bytes held in each round of the day.
    pub fn by_round(&self, rounds: usize) -> Vec<u64> {
        let mut whole = vec![0; rounds];
        whole[self.from..self.from + self.bytes.len()].copy_from_slice(&self.bytes);
        whole
    }
}

/// What the streams hold, where each has a schedule and memory takes them all. Streams of the same film, pre-fetch and reserve
/// have their profile worked out once.
fn held_by(streams: &[Stream], memory: u64, wanted: Wanted) -> Option<(Held, Profiles)> {
    let from = streams.iter().map(|stream| stream.start).min().unwrap_or(0);
    let to = streams.iter().map(Stream::end).max().unwrap_or(0);
    let mut bytes = vec![0; to - from];
    let mut profiles = Profiles {
        words: Vec::new(),
        from: [0; MAX_BOOKINGS],
    };
    if wanted == Wanted::Profiles {
        let words = streams.iter().map(Stream::open_rounds).sum();
        profiles.words.reserve_exact(words);
    }
    let mut order = [0; MAX_BOOKINGS];
    let order = &mut order[..streams.len()];
    for (place, stream) in streams.iter().enumerate() {
        let kind = (stream.film as u64) << 33 | (stream.prefetch as u64) << 24 | stream.reserve;
        order[place] = kind << 8 | place as u64;
    }
    order.sort_unstable();
    let mut profile = [0; MAX_OPEN];
    for alike in order.chunk_by(|one, other| one >> 8 == other >> 8) {
        let place_of = |packed: &u64| (packed & 0xff) as usize;
        let stream = &streams[place_of(&alike[0])];
        let part = |stream: &Stream| stream.start - from..stream.end() - from;
        if wanted == Wanted::Answer && alike.len() == 1 {
            if !add_held(stream.sizes, stream.reserve, &mut bytes[part(stream)]) {
                return None;
            }
            continue;
        }
        let profile = &mut profile[..stream.open_rounds()];
        if !write_held(stream.sizes, stream.reserve, profile) {
            return None;
        }
        for place in alike.iter().map(place_of) {
            add_each(&mut bytes[part(&streams[place])], profile);
            profiles.from[place] = profiles.words.len();
        }
        if wanted == Wanted::Profiles {
            profiles.words.extend_from_slice(profile);
        }
    }
    let largest = bytes.iter().copied().max().unwrap_or(0);
    let held = Held {
        from,
        bytes,
        largest,
    };
    (largest <= memory).then_some((held, profiles))
}

pub fn add_each(places: &mut [u64], values: &[u64]) {
    for (place, value) in places.iter_mut().zip(values) {
        *place += value;
    }
}

//! The archive's calls over lent lists, one to one: any lists of any lengths, any numbers. An answer's `refusal` is 0 where the
//! call is accepted; what it does not give is 0. A refusal changes nothing lent, except that 22 leaves the sheet of the bookings
//! as they stand. [`FilmFile`](crate::FilmFile) and [`Desk`](crate::Desk) keep the lists themselves.
//!
//! The sheet's three lists are by round: films open, sum of reserves, sum of bytes held. They may be longer than the day; places
//! from its last round on are untouched.
//!
//! ```
//! use playback::{lent, Day};
//!
//! let (mut opens, mut reserves, mut helds) = ([9; 21], [9; 20], [9; 20]);
//! let reply = lent::open(Day::default(), 20, 141_433, 18, &mut opens, &mut reserves, &mut helds);
//! assert_eq!((reply.refusal, reply.day.rounds), (0, 20));
//! assert_eq!((opens[19], opens[20]), (0, 9));
//! let reply = lent::open(reply.day, 21, 141_433, 18, &mut opens, &mut reserves, &mut helds);
//! assert_eq!((reply.refusal, reply.day.rounds), (11, 20));
//! ```

use crate::data::{Booking, Day, Line, Request};
use crate::ffi;
use std::mem::{offset_of, size_of};

/// An entry of a film file: `more` is 1 with an entry and 0 after the last one.
#[derive(Clone, Copy, Debug, Default, PartialEq, Eq)]
#[repr(C)]
pub struct Film {
    pub refusal: u32,
    pub more: u32,
    pub number: u32,
    pub rounds: u32,
}

/// A film's summary, in bytes.
#[derive(Clone, Copy, Debug, Default, PartialEq, Eq)]
#[repr(C)]
pub struct Figures {
    pub refusal: u32,
    pub total: u64,
    pub largest: u64,
    pub mean: u64,
}

/// A round's size: `exists` is 1 where the film has that round.
#[derive(Clone, Copy, Debug, Default, PartialEq, Eq)]
#[repr(C)]
pub struct Size {
    pub refusal: u32,
    pub exists: u32,
    pub bytes: u64,
}

/// A least reserve, in bytes per round.
#[derive(Clone, Copy, Debug, Default, PartialEq, Eq)]
#[repr(C)]
pub struct Reserve {
    pub refusal: u32,
    pub bytes: u64,
}

/// What a call on a day answers: a booking's start; the films open and the cabs served in a played round; the day after the
/// call, which after a refusal is the day before it.
#[derive(Clone, Copy, Debug, Default, PartialEq, Eq)]
#[repr(C)]
pub struct Reply {
    pub refusal: u32,
    pub start: u64,
    pub films: u64,
    pub cabs: u64,
    pub day: Day,
}

/// How far a replay came: entries done, words of the log written, the day after them.
#[derive(Clone, Copy, Debug, Default, PartialEq, Eq)]
#[repr(C)]
pub struct Replayed {
    pub refusal: u32,
    pub entries: u64,
    pub words: u64,
    pub day: Day,
}

const _: () = {
    assert!(size_of::<Film>() == 16 && offset_of!(Film, rounds) == 12);
    assert!(size_of::<Figures>() == 32 && offset_of!(Figures, total) == 8);
    assert!(size_of::<Size>() == 16 && offset_of!(Size, bytes) == 8);
    assert!(size_of::<Reserve>() == 16 && offset_of!(Reserve, bytes) == 8);
    assert!(size_of::<Reply>() == 72 && offset_of!(Reply, day) == 32);
    assert!(size_of::<Replayed>() == 64 && offset_of!(Replayed, day) == 24);
};

// Safety, of every call below: a slice's pointer and length are those of a list that is lent for the call, and no two of them
// overlap where one is written. The functions take every length and every value, and keep no pointer.

/// The file's questions: 0, or 1 to 7.
pub fn verdict(file: &[u8]) -> u32 {
    unsafe { ffi::playback_verdict(file.as_ptr(), file.len()) }
}

/// The film reader's entry at a position, from 0: 1 to 7.
pub fn film(file: &[u8], position: u64) -> Film {
    unsafe { ffi::playback_film(file.as_ptr(), file.len(), position) }
}

/// A film's total, largest and mean size: 1 to 7, 8.
pub fn summary(file: &[u8], film: u64) -> Figures {
    unsafe { ffi::playback_summary(file.as_ptr(), file.len(), film) }
}

/// The bytes that a film sends in a round of its own, from 0: 1 to 7, 8.
pub fn round_size(file: &[u8], film: u64, round: u64) -> Size {
    unsafe { ffi::playback_round_size(file.as_ptr(), file.len(), film, round) }
}

/// Writes a film's just-in-time read totals, one for each pre-fetch round and each of its own: 1 to 7, 8, 9, 10, 11, 12. Later
/// places are untouched.
pub fn schedule(file: &[u8], film: u64, prefetch: u64, reserve: u64, totals: &mut [u64]) -> u32 {
    unsafe {
        ffi::playback_schedule(
            file.as_ptr(),
            file.len(),
            film,
            prefetch,
            reserve,
            totals.as_mut_ptr(),
            totals.len(),
        )
    }
}

/// The smallest reserve with a schedule that never holds more than `cap` bytes: 1 to 7, 8, 9, 13.
pub fn least_reserve(file: &[u8], film: u64, prefetch: u64, cap: u64) -> Reserve {
    unsafe { ffi::playback_least_reserve(file.as_ptr(), file.len(), film, prefetch, cap) }
}

/// Opens a day with no bookings and zeroes its sheet: 14, 15, 11. `day` is what a refusal gives back.
pub fn open(
    day: Day,
    rounds: u64,
    disk: u64,
    memory: u64,
    opens: &mut [u64],
    reserves: &mut [u64],
    helds: &mut [u64],
) -> Reply {
    unsafe {
        ffi::playback_open(
            day,
            rounds,
            disk,
            memory,
            opens.as_mut_ptr(),
            opens.len(),
            reserves.as_mut_ptr(),
            reserves.len(),
            helds.as_mut_ptr(),
            helds.len(),
        )
    }
}

/// Appends a booking at the first start of its window that fits, and works out the sheet: 1 to 7, 14, 15, 11, 16, 18, 8, 9, 10,
/// 20, 12, 21, 17, 22.
pub fn book(
    file: &[u8],
    day: Day,
    records: &mut [Booking],
    request: Request,
    opens: &mut [u64],
    reserves: &mut [u64],
    helds: &mut [u64],
) -> Reply {
    unsafe {
        ffi::playback_book(
            file.as_ptr(),
            file.len(),
            day,
            records.as_mut_ptr(),
            records.len(),
            request,
            opens.as_mut_ptr(),
            opens.len(),
            reserves.as_mut_ptr(),
            reserves.len(),
            helds.as_mut_ptr(),
            helds.len(),
        )
    }
}

/// Takes a booking out, closes the gap, zeroes the place freed, and works out the sheet: 1 to 7, 14, 15, 11, 16, 19.
pub fn drop_booking(
    file: &[u8],
    day: Day,
    records: &mut [Booking],
    name: u32,
    opens: &mut [u64],
    reserves: &mut [u64],
    helds: &mut [u64],
) -> Reply {
    unsafe {
        ffi::playback_drop(
            file.as_ptr(),
            file.len(),
            day,
            records.as_mut_ptr(),
            records.len(),
            name,
            opens.as_mut_ptr(),
            opens.len(),
            reserves.as_mut_ptr(),
            reserves.len(),
            helds.as_mut_ptr(),
            helds.len(),
        )
    }
}

/// Plays the current round: one report line for each open booking in list order, then the round is over: 1 to 7, 14, 15, 16, 23,
/// 11. Later report places are untouched.
pub fn play(file: &[u8], day: Day, records: &[Booking], report: &mut [Line]) -> Reply {
    unsafe {
        ffi::playback_play(
            file.as_ptr(),
            file.len(),
            day,
            records.as_ptr(),
            records.len(),
            report.as_mut_ptr(),
            report.len(),
        )
    }
}

/// Opens a day and carries out a journal's entries as far as the log takes their words: 14, 15, 11, and then nothing lent
/// changes. [`journal`](crate::journal) has the layout of journal and log.
#[allow(clippy::too_many_arguments)]
pub fn replay(
    file: &[u8],
    rounds: u64,
    disk: u64,
    memory: u64,
    records: &mut [Booking],
    journal: &[u64],
    log: &mut [u64],
    opens: &mut [u64],
    reserves: &mut [u64],
    helds: &mut [u64],
) -> Replayed {
    unsafe {
        ffi::playback_replay(
            file.as_ptr(),
            file.len(),
            rounds,
            disk,
            memory,
            records.as_mut_ptr(),
            records.len(),
            journal.as_ptr(),
            journal.len(),
            log.as_mut_ptr(),
            log.len(),
            opens.as_mut_ptr(),
            opens.len(),
            reserves.as_mut_ptr(),
            reserves.len(),
            helds.as_mut_ptr(),
            helds.len(),
        )
    }
}

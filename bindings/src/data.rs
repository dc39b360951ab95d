//! What a day's calls are lent and given, laid out as in C.

use std::mem::{offset_of, size_of};

/// A booking that stands in the list of records.
#[derive(Clone, Copy, Debug, Default, PartialEq, Eq)]
#[repr(C)]
pub struct Booking {
    /// Chosen by the caller; 0 is a name.
    pub name: u32,
    /// The film's number.
    pub film: u16,
    /// The round in which it starts.
    pub start: u32,
    /// Its pre-fetch rounds: it shows from round start + prefetch on.
    pub prefetch: u16,
    /// The bytes that it may read in a round.
    pub reserve: u32,
    /// The cabs that it shows on, one bit each.
    pub cabs: u64,
}

/// A booking as it is asked for. Any numbers are legal: one past its bound meets that bound's refusal.
#[derive(Clone, Copy, Debug, Default, PartialEq, Eq)]
#[repr(C)]
pub struct Request {
    /// Chosen by the caller; 0 is a name.
    pub name: u32,
    /// The film's number.
    pub film: u64,
    /// Pre-fetch rounds.
    pub prefetch: u64,
    /// Bytes per round.
    pub reserve: u64,
    /// The cabs, one bit each.
    pub cabs: u64,
    /// The first round in which it may start.
    pub first: u64,
    /// The last round in which it may start.
    pub last: u64,
}

/// A day: its limits, the current round and the number of bookings that stand.
#[derive(Clone, Copy, Debug, Default, PartialEq, Eq)]
#[repr(C)]
pub struct Day {
    /// Its number of rounds.
    pub rounds: u64,
    /// The disk limit, in bytes per round.
    pub disk: u64,
    /// The memory limit, in bytes.
    pub memory: u64,
    /// The current round.
    pub now: u64,
    /// How many bookings stand: the first ones of the list of records.
    pub count: u64,
}

/// A line of a round's report: what to read and send for one booking, and what memory holds of it, in bytes.
#[derive(Clone, Copy, Debug, Default, PartialEq, Eq)]
#[repr(C)]
pub struct Line {
    /// The booking's name.
    pub name: u32,
    /// Bytes to read.
    pub read: u64,
    /// Bytes to send.
    pub send: u64,
    /// Bytes held after reading and before sending.
    pub held: u64,
}

const _: () = {
    assert!(size_of::<Booking>() == 32 && offset_of!(Booking, film) == 4);
    assert!(offset_of!(Booking, start) == 8 && offset_of!(Booking, prefetch) == 12);
    assert!(offset_of!(Booking, reserve) == 16 && offset_of!(Booking, cabs) == 24);
    assert!(size_of::<Request>() == 56 && offset_of!(Request, film) == 8);
    assert!(size_of::<Day>() == 40 && offset_of!(Day, count) == 32);
    assert!(size_of::<Line>() == 32 && offset_of!(Line, read) == 8);
};

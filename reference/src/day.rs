//! A day's plain data: what the calls are lent, given and give.

/// "A day has T rounds, numbered 0 to T-1, a disk limit D, a memory limit M, and a current round `now`", and the number of
/// its standing bookings, which are the first ones of the record list.
#[derive(Clone, Copy, Debug, Default, PartialEq, Eq)]
pub struct Day {
    pub rounds: u64,
    pub disk: u64,
    pub memory: u64,
    pub now: u64,
    pub count: u64,
}

/// A record: "name (32 bits, chosen by the desk), film, start s, p, b, and cabs (64 bits, one per cab)".
#[derive(Clone, Copy, Debug, Default, PartialEq, Eq)]
pub struct Booking {
    pub name: u32,
    pub film: u16,
    pub start: u32,
    pub prefetch: u16,
    pub reserve: u32,
    pub cabs: u64,
}

/// What a booking asks for. Any number is legal input.
#[derive(Clone, Copy, Debug, Default, PartialEq, Eq)]
pub struct Request {
    pub name: u32,
    pub film: u64,
    pub prefetch: u64,
    pub reserve: u64,
    pub cabs: u64,
    pub first: u64,
    pub last: u64,
}

/// A report line: "name, read, send, held".
#[derive(Clone, Copy, Debug, Default, PartialEq, Eq)]
pub struct Line {
    pub name: u32,
    pub read: u64,
    pub send: u64,
    pub held: u64,
}

/// The day sheet: "three lists by round: films open, sum of reserves, sum of bytes held". Their lengths may differ.
#[derive(Clone, Debug, Default, PartialEq, Eq)]
pub struct Sheet {
    pub open: Vec<u64>,
    pub reserves: Vec<u64>,
    pub held: Vec<u64>,
}

/// What a played round answers: the films open and the number of cabs served.
#[derive(Clone, Copy, Debug, Default, PartialEq, Eq)]
pub struct Played {
    pub open: u64,
    pub cabs: u64,
}

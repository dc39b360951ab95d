//! NULL with length 0 in the place of every list, and of each list alone: the same answers as with empty slices.

use crate::compare::{same, Compared};
use playback::{ffi, lent, Booking, Day, Line, Request};
use std::ptr::{null, null_mut};

/// A list as a pointer and a length: NULL and 0 if it is absent.
fn list<T>(values: &mut [T], absent: bool) -> (*mut T, usize) {
    if absent {
        (null_mut(), 0)
    } else {
        (values.as_mut_ptr(), values.len())
    }
}

/// The same list as a slice.
fn slice<T>(values: &mut [T], absent: bool) -> &mut [T] {
    if absent {
        &mut []
    } else {
        values
    }
}

/// What the calls are lent.
#[derive(Clone, Debug, PartialEq)]
struct Lists {
    records: Vec<Booking>,
    sheet: [Vec<u64>; 3],
    report: Vec<Line>,
    journal: Vec<u64>,
    log: Vec<u64>,
}

impl Lists {
    fn new() -> Lists {
        let sheet = || vec![9; 21];
        Lists {
            records: vec![Booking::default(); 3],
            sheet: [sheet(), sheet(), sheet()],
            report: vec![Line::default(); 3],
            journal: vec![3; 16],
            log: vec![9; 40],
        }
    }
}

/// Every call with the lists of each set absent, one bit each, among: file, records, the sheet's three, report or journal, log.
/// Answers the number of calls.
pub fn calls(file: &[u8]) -> Compared<u64> {
    let mut calls = 0;
    for absent in 0..1u32 << 7 {
        let file = if absent & 1 == 1 { None } else { Some(file) };
        film_calls(file)?;
        day_calls(file, absent)?;
        calls += 11;
    }
    Ok(calls)
}

fn film_calls(file: Option<&[u8]>) -> Compared {
    let (at, length) = file.map_or((null(), 0), |file| (file.as_ptr(), file.len()));
    let file = file.unwrap_or(&[]);
    // SAFETY: the pointers are those of slices, or NULL with length 0.
    unsafe {
        same(
            "verdict",
            &lent::verdict(file),
            &ffi::playback_verdict(at, length),
        )?;
        let found = ffi::playback_film(at, length, 0);
        same("film", &lent::film(file, 0), &found)?;
        let found = ffi::playback_summary(at, length, 1);
        same("summary", &lent::summary(file, 1), &found)?;
        let found = ffi::playback_round_size(at, length, 1, 0);
        same("round_size", &lent::round_size(file, 1, 0), &found)?;
        let found = ffi::playback_schedule(at, length, 1, 0, 9, null_mut(), 0);
        let expected = lent::schedule(file, 1, 0, 9, &mut []);
        same("schedule", &expected, &found)?;
        let found = ffi::playback_least_reserve(at, length, 1, 0, 9);
        same("least_reserve", &lent::least_reserve(file, 1, 0, 9), &found)
    }
}

fn day_calls(file: Option<&[u8]>, absent: u32) -> Compared {
    let (at, length) = file.map_or((null(), 0), |file| (file.as_ptr(), file.len()));
    let file = file.unwrap_or(&[]);
    let gone = |list: u32| absent >> list & 1 == 1;
    let day = Day {
        rounds: 20,
        disk: 300_000,
        memory: 100,
        now: 0,
        count: 0,
    };
    let request = Request {
        name: 4,
        film: 1,
        reserve: 9,
        cabs: 1,
        ..Request::default()
    };
    let (mut a, mut b) = (Lists::new(), Lists::new());
    let expected = {
        let records = slice(&mut a.records, gone(1));
        let [opens, reserves, helds] = &mut a.sheet;
        let opens = slice(opens, gone(2));
        let reserves = slice(reserves, gone(3));
        let helds = slice(helds, gone(4));
        let report = slice(&mut a.report, gone(5));
        let journal = slice(&mut a.journal, gone(5));
        let log = slice(&mut a.log, gone(6));
        (
            lent::open(day, 20, 300_000, 100, opens, reserves, helds),
            lent::book(file, day, records, request, opens, reserves, helds),
            lent::drop_booking(file, day, records, 4, opens, reserves, helds),
            lent::play(file, day, records, report),
            lent::replay(
                file, 20, 300_000, 100, records, journal, log, opens, reserves, helds,
            ),
        )
    };
    let found = {
        let (r, rn) = list(&mut b.records, gone(1));
        let [opens, reserves, helds] = &mut b.sheet;
        let (o, on) = list(opens, gone(2));
        let (s, sn) = list(reserves, gone(3));
        let (h, hn) = list(helds, gone(4));
        let (p, pn) = list(&mut b.report, gone(5));
        let (j, jn) = list(&mut b.journal, gone(5));
        let (l, ln) = list(&mut b.log, gone(6));
        // SAFETY: the pointers are those of slices, or NULL with length 0; no two of them overlap.
        unsafe {
            (
                ffi::playback_open(day, 20, 300_000, 100, o, on, s, sn, h, hn),
                ffi::playback_book(at, length, day, r, rn, request, o, on, s, sn, h, hn),
                ffi::playback_drop(at, length, day, r, rn, 4, o, on, s, sn, h, hn),
                ffi::playback_play(at, length, day, r, rn, p, pn),
                ffi::playback_replay(
                    at, length, 20, 300_000, 100, r, rn, j, jn, l, ln, o, on, s, sn, h, hn,
                ),
            )
        }
    };
    same("a call with absent lists", &expected, &found)?;
    same("lists beside absent ones", &a, &b)
}

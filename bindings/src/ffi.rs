//! The archive's functions as they are, for a caller with pointers of its own. [`lent`](crate::lent) has the same calls over
//! slices, safe; `include/playback.h` says what each asks and does.
//!
//! # Safety
//!
//! Each pointer points to as many values as the length after it says, aligned for them, and may be null where that length is 0.
//! A list behind a `*mut` pointer is read and written by nobody else during the call and overlaps no other list of the call.

use crate::data::{Booking, Day, Line, Request};
use crate::lent::{Figures, Film, Replayed, Reply, Reserve, Size};

extern "C" {
    pub fn playback_verdict(file: *const u8, file_length: usize) -> u32;

    pub fn playback_film(file: *const u8, file_length: usize, position: u64) -> Film;

    pub fn playback_summary(file: *const u8, file_length: usize, film: u64) -> Figures;

    pub fn playback_round_size(file: *const u8, file_length: usize, film: u64, round: u64) -> Size;

    pub fn playback_schedule(
        file: *const u8,
        file_length: usize,
        film: u64,
        prefetch: u64,
        reserve: u64,
        totals: *mut u64,
        totals_length: usize,
    ) -> u32;

    pub fn playback_least_reserve(
        file: *const u8,
        file_length: usize,
        film: u64,
        prefetch: u64,
        cap: u64,
    ) -> Reserve;

    pub fn playback_open(
        day: Day,
        rounds: u64,
        disk: u64,
        memory: u64,
        opens: *mut u64,
        opens_length: usize,
        reserves: *mut u64,
        reserves_length: usize,
        helds: *mut u64,
        helds_length: usize,
    ) -> Reply;

    pub fn playback_book(
        file: *const u8,
        file_length: usize,
        day: Day,
        records: *mut Booking,
        records_length: usize,
        request: Request,
        opens: *mut u64,
        opens_length: usize,
        reserves: *mut u64,
        reserves_length: usize,
        helds: *mut u64,
        helds_length: usize,
    ) -> Reply;

    pub fn playback_drop(
        file: *const u8,
        file_length: usize,
        day: Day,
        records: *mut Booking,
        records_length: usize,
        name: u32,
        opens: *mut u64,
        opens_length: usize,
        reserves: *mut u64,
        reserves_length: usize,
        helds: *mut u64,
        helds_length: usize,
    ) -> Reply;

    pub fn playback_play(
        file: *const u8,
        file_length: usize,
        day: Day,
        records: *const Booking,
        records_length: usize,
        report: *mut Line,
        report_length: usize,
    ) -> Reply;

    pub fn playback_replay(
        file: *const u8,
        file_length: usize,
        rounds: u64,
        disk: u64,
        memory: u64,
        records: *mut Booking,
        records_length: usize,
        journal: *const u64,
        journal_length: usize,
        log: *mut u64,
        log_length: usize,
        opens: *mut u64,
        opens_length: usize,
        reserves: *mut u64,
        reserves_length: usize,
        helds: *mut u64,
        helds_length: usize,
    ) -> Replayed;
}

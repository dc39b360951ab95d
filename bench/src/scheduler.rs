//! The calls that are measured, over any version of the scheduler.

use playback::lent::{Replayed, Reply, Reserve};
use playback::{lent, Booking, Day, Line, Request};

/// The day sheet's three lists by round: films open, sum of reserves, sum of bytes held.
#[derive(Clone, Debug, Default, PartialEq, Eq)]
pub struct Sheet {
    pub opens: Vec<u64>,
    pub reserves: Vec<u64>,
    pub helds: Vec<u64>,
}

impl Sheet {
    /// Lists of that many places, all 0.
    pub fn new(places: usize) -> Sheet {
        Sheet {
            opens: vec![0; places],
            reserves: vec![0; places],
            helds: vec![0; places],
        }
    }
}

/// What a replay opens.
#[derive(Clone, Copy, Debug, Default, PartialEq, Eq)]
pub struct Opening {
    pub rounds: u64,
    pub disk: u64,
    pub memory: u64,
}

/// One version of the scheduler. Every function answers and leaves everything lent as the library's interface says.
pub trait Scheduler {
    /// What tables call it.
    fn name(&self) -> &'static str;
    fn verdict(&self, file: &[u8]) -> u32;
    fn schedule(
        &self,
        file: &[u8],
        film: u64,
        prefetch: u64,
        reserve: u64,
        totals: &mut [u64],
    ) -> u32;
    fn least_reserve(&self, file: &[u8], film: u64, prefetch: u64, cap: u64) -> Reserve;
    fn open(&self, day: Day, opening: Opening, sheet: &mut Sheet) -> Reply;
    fn book(
        &self,
        file: &[u8],
        day: Day,
        records: &mut [Booking],
        request: Request,
        sheet: &mut Sheet,
    ) -> Reply;
    fn drop_booking(
        &self,
        file: &[u8],
        day: Day,
        records: &mut [Booking],
        name: u32,
        sheet: &mut Sheet,
    ) -> Reply;
    fn play(&self, file: &[u8], day: Day, records: &[Booking], report: &mut [Line]) -> Reply;
    fn replay(
        &self,
        file: &[u8],
        opening: Opening,
        records: &mut [Booking],
        journal: &[u64],
        log: &mut [u64],
        sheet: &mut Sheet,
    ) -> Replayed;
}

/// The library.
pub struct Library;

impl Scheduler for Library {
    fn name(&self) -> &'static str {
        "library"
    }

    fn verdict(&self, file: &[u8]) -> u32 {
        lent::verdict(file)
    }

    fn schedule(
        &self,
        file: &[u8],
        film: u64,
        prefetch: u64,
        reserve: u64,
        totals: &mut [u64],
    ) -> u32 {
        lent::schedule(file, film, prefetch, reserve, totals)
    }

    fn least_reserve(&self, file: &[u8], film: u64, prefetch: u64, cap: u64) -> Reserve {
        lent::least_reserve(file, film, prefetch, cap)
    }

    fn open(&self, day: Day, opening: Opening, sheet: &mut Sheet) -> Reply {
        lent::open(
            day,
            opening.rounds,
            opening.disk,
            opening.memory,
            &mut sheet.opens,
            &mut sheet.reserves,
            &mut sheet.helds,
        )
    }

    fn book(
        &self,
        file: &[u8],
        day: Day,
        records: &mut [Booking],
        request: Request,
        sheet: &mut Sheet,
    ) -> Reply {
        lent::book(
            file,
            day,
            records,
            request,
            &mut sheet.opens,
            &mut sheet.reserves,
            &mut sheet.helds,
        )
    }

    fn drop_booking(
        &self,
        file: &[u8],
        day: Day,
        records: &mut [Booking],
        name: u32,
        sheet: &mut Sheet,
    ) -> Reply {
        lent::drop_booking(
            file,
            day,
            records,
            name,
            &mut sheet.opens,
            &mut sheet.reserves,
            &mut sheet.helds,
        )
    }

    fn play(&self, file: &[u8], day: Day, records: &[Booking], report: &mut [Line]) -> Reply {
        lent::play(file, day, records, report)
    }

    fn replay(
        &self,
        file: &[u8],
        opening: Opening,
        records: &mut [Booking],
        journal: &[u64],
        log: &mut [u64],
        sheet: &mut Sheet,
    ) -> Replayed {
        lent::replay(
            file,
            opening.rounds,
            opening.disk,
            opening.memory,
            records,
            journal,
            log,
            &mut sheet.opens,
            &mut sheet.reserves,
            &mut sheet.helds,
        )
    }
}

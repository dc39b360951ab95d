//! The scheduler as one would write it in Rust for speed, with the library's promises: any input, the same questions in the same
//! order, a refusal changes nothing lent. Unlike the library it takes memory from the heap.

pub mod calls;
pub mod console;
pub mod film_file;
pub mod loss;
pub mod replay;
pub mod retrieval;
pub mod search;
pub mod sheet;
pub mod standing;

use crate::scheduler::{Opening, Scheduler, Sheet};
use film_file::Catalogue;
use playback::lent::{Replayed, Reply, Reserve};
use playback::{Booking, Day, Line, Refusal, Request};

pub struct Fast;

fn number(answer: Result<(), Refusal>) -> u32 {
    answer.map_or_else(Refusal::number, |()| 0)
}

fn reply(answer: Result<Reply, Refusal>, day: Day) -> Reply {
    answer.unwrap_or_else(|refusal| Reply {
        refusal: refusal.number(),
        day,
        ..Reply::default()
    })
}

impl Scheduler for Fast {
    fn name(&self) -> &'static str {
        "fast Rust"
    }

    #[inline(never)]
    fn verdict(&self, file: &[u8]) -> u32 {
        number(Catalogue::read(file).map(|_| ()))
    }

    #[inline(never)]
    fn schedule(
        &self,
        file: &[u8],
        film: u64,
        prefetch: u64,
        reserve: u64,
        totals: &mut [u64],
    ) -> u32 {
        number(retrieval::schedule(file, film, prefetch, reserve, totals))
    }

    #[inline(never)]
    fn least_reserve(&self, file: &[u8], film: u64, prefetch: u64, cap: u64) -> Reserve {
        match retrieval::least_reserve(file, film, prefetch, cap) {
            Ok(bytes) => Reserve { refusal: 0, bytes },
            Err(refusal) => Reserve {
                refusal: refusal.number(),
                bytes: 0,
            },
        }
    }

    #[inline(never)]
    fn open(&self, day: Day, opening: Opening, sheet: &mut Sheet) -> Reply {
        reply(calls::open(opening, sheet), day)
    }

    #[inline(never)]
    fn book(
        &self,
        file: &[u8],
        day: Day,
        records: &mut [Booking],
        request: Request,
        sheet: &mut Sheet,
    ) -> Reply {
        reply(calls::book(file, day, records, request, sheet), day)
    }

    #[inline(never)]
    fn drop_booking(
        &self,
        file: &[u8],
        day: Day,
        records: &mut [Booking],
        name: u32,
        sheet: &mut Sheet,
    ) -> Reply {
        reply(calls::drop_booking(file, day, records, name, sheet), day)
    }

    #[inline(never)]
    fn play(&self, file: &[u8], day: Day, records: &[Booking], report: &mut [Line]) -> Reply {
        reply(calls::play(file, day, records, report), day)
    }

    #[inline(never)]
    fn replay(
        &self,
        file: &[u8],
        opening: Opening,
        records: &mut [Booking],
        journal: &[u64],
        log: &mut [u64],
        sheet: &mut Sheet,
    ) -> Replayed {
        replay::replay(file, opening, records, journal, log, sheet).unwrap_or_else(|refusal| {
            Replayed {
                refusal: refusal.number(),
                ..Replayed::default()
            }
        })
    }
}

//! The four calls of a day by both implementations, compared.

use crate::case::Case;
use crate::compare::{same, Compared, Harness, Lent};
use crate::films::number;
use crate::tally::Function;
use playback::lent;
use reference::day::{Booking, Day, Line, Request};
use reference::desk;
use reference::refusal::Refusal;

/// The library's types, which have the same fields.
pub fn to_day(day: Day) -> playback::Day {
    playback::Day {
        rounds: day.rounds,
        disk: day.disk,
        memory: day.memory,
        now: day.now,
        count: day.count,
    }
}

fn to_booking(booking: &Booking) -> playback::Booking {
    playback::Booking {
        name: booking.name,
        film: booking.film,
        start: booking.start,
        prefetch: booking.prefetch,
        reserve: booking.reserve,
        cabs: booking.cabs,
    }
}

fn to_request(request: &Request) -> playback::Request {
    playback::Request {
        name: request.name,
        film: request.film,
        prefetch: request.prefetch,
        reserve: request.reserve,
        cabs: request.cabs,
        first: request.first,
        last: request.last,
    }
}

fn to_line(line: &Line) -> playback::Line {
    playback::Line {
        name: line.name,
        read: line.read,
        send: line.send,
        held: line.held,
    }
}

/// What stands around lent numbers, records and lines.
pub const AROUND: u64 = 0xDEAD_0000_BEEF;
const AROUND_RECORDS: playback::Booking = playback::Booking {
    name: 1,
    film: 2,
    start: 3,
    prefetch: 4,
    reserve: 5,
    cabs: 6,
};
const AROUND_LINES: playback::Line = playback::Line {
    name: 1,
    read: 2,
    send: 3,
    held: 4,
};

/// The lists of the case as the library is lent them.
pub struct Lists {
    pub records: Lent<playback::Booking>,
    pub opens: Lent<u64>,
    pub reserves: Lent<u64>,
    pub helds: Lent<u64>,
    pub report: Lent<playback::Line>,
}

impl Lists {
    pub fn new(case: &Case) -> Lists {
        let records: Vec<_> = case.records.iter().map(to_booking).collect();
        let report: Vec<_> = case.report.iter().map(to_line).collect();
        Lists {
            records: Lent::new(&records, AROUND_RECORDS),
            opens: Lent::new(&case.sheet.open, AROUND),
            reserves: Lent::new(&case.sheet.reserves, AROUND),
            helds: Lent::new(&case.sheet.held, AROUND),
            report: Lent::new(&report, AROUND_LINES),
        }
    }

    /// Every lent place must be the case's.
    pub fn compare(&self, case: &Case) -> Compared {
        let records: Vec<_> = case.records.iter().map(to_booking).collect();
        let report: Vec<_> = case.report.iter().map(to_line).collect();
        self.records.compare("records", &records, AROUND_RECORDS)?;
        self.opens.compare("films open", &case.sheet.open, AROUND)?;
        self.reserves
            .compare("reserves", &case.sheet.reserves, AROUND)?;
        self.helds.compare("bytes held", &case.sheet.held, AROUND)?;
        self.report.compare("report", &report, AROUND_LINES)
    }
}

/// The expected reply, where the case holds the day after the call.
fn reply<T>(
    case: &Case,
    answer: &Result<T, Refusal>,
    values: impl FnOnce(&T) -> [u64; 3],
) -> lent::Reply {
    let [start, films, cabs] = answer.as_ref().map_or([0; 3], values);
    lent::Reply {
        refusal: answer.as_ref().err().map_or(0, |&refusal| number(refusal)),
        start,
        films,
        cabs,
        day: to_day(case.day),
    }
}

/// Compares the reply and every lent place, and says whether the call was accepted.
fn compare(
    harness: &mut Harness,
    function: Function,
    expected: lent::Reply,
    found: lent::Reply,
    lists: &Lists,
    case: &Case,
) -> Compared<bool> {
    harness.tally.answer(function, expected.refusal);
    harness.tally.reach(&expected, case.file.len());
    same(function.name(), &expected, &found)?;
    lists.compare(case)?;
    Ok(expected.refusal == 0)
}

pub fn open_call(
    harness: &mut Harness,
    case: &mut Case,
    rounds: u64,
    disk: u64,
    memory: u64,
) -> Compared<bool> {
    let mut lists = Lists::new(case);
    let day = to_day(case.day);
    let (answer, found) = harness.call(
        Function::Open,
        || desk::open(&mut case.day, &mut case.sheet, rounds, disk, memory),
        || {
            let (opens, reserves) = (lists.opens.list(), lists.reserves.list());
            lent::open(
                day,
                rounds,
                disk,
                memory,
                opens,
                reserves,
                lists.helds.list(),
            )
        },
    );
    let expected = reply(case, &answer, |()| [0; 3]);
    compare(harness, Function::Open, expected, found, &lists, case)
}

pub fn book_call(harness: &mut Harness, case: &mut Case, request: &Request) -> Compared<bool> {
    let mut lists = Lists::new(case);
    let day = to_day(case.day);
    let file = case.file.clone();
    let (answer, found) = harness.call(
        Function::Book,
        || {
            desk::book(
                &file,
                &mut case.day,
                &mut case.records,
                &mut case.sheet,
                request,
            )
        },
        || {
            lent::book(
                &file,
                day,
                lists.records.list(),
                to_request(request),
                lists.opens.list(),
                lists.reserves.list(),
                lists.helds.list(),
            )
        },
    );
    let expected = reply(case, &answer, |&start| [start, 0, 0]);
    compare(harness, Function::Book, expected, found, &lists, case)
}

pub fn drop_call(harness: &mut Harness, case: &mut Case, name: u32) -> Compared<bool> {
    let mut lists = Lists::new(case);
    let day = to_day(case.day);
    let file = case.file.clone();
    let (answer, found) = harness.call(
        Function::Drop,
        || {
            desk::drop_booking(
                &file,
                &mut case.day,
                &mut case.records,
                &mut case.sheet,
                name,
            )
        },
        || {
            lent::drop_booking(
                &file,
                day,
                lists.records.list(),
                name,
                lists.opens.list(),
                lists.reserves.list(),
                lists.helds.list(),
            )
        },
    );
    let expected = reply(case, &answer, |()| [0; 3]);
    compare(harness, Function::Drop, expected, found, &lists, case)
}

pub fn play_call(harness: &mut Harness, case: &mut Case) -> Compared<bool> {
    let mut lists = Lists::new(case);
    let day = to_day(case.day);
    let file = case.file.clone();
    let (answer, found) = harness.call(
        Function::Play,
        || desk::play(&file, &mut case.day, &case.records, &mut case.report),
        || lent::play(&file, day, lists.records.list(), lists.report.list()),
    );
    let expected = reply(case, &answer, |played| [0, played.open, played.cabs]);
    compare(harness, Function::Play, expected, found, &lists, case)
}

//! Lent days that are not sound, and those that are by one byte or one round.

use super::recorder::Recorder;
use crate::day::{Booking, Day, Request};
use crate::film_file::Film;
use crate::loss::loss;

fn films() -> [Film; 2] {
    let film = |number, sizes: &[u32]| Film {
        number,
        sizes: sizes.to_vec(),
    };
    [film(4, &[6, 2, 9, 9]), film(7, &[3])]
}

fn booking(name: u32, film: u16, start: u32, prefetch: u16, reserve: u32, cabs: u64) -> Booking {
    Booking {
        name,
        film,
        start,
        prefetch,
        reserve,
        cabs,
    }
}

/// A sound day of 24 rounds.
const DAY: Day = Day {
    rounds: 24,
    disk: 300_000,
    memory: 60,
    now: 6,
    count: 4,
};

/// Four standing bookings. The first two meet on one cab without a clash: the second pre-fetches while the first shows.
fn standing() -> [Booking; 4] {
    [
        booking(11, 4, 2, 1, 8, 0b01),
        booking(12, 4, 5, 2, 7, 0b01),
        booking(13, 7, 6, 0, 3, 0b10),
        booking(14, 4, 18, 2, 9, 0b11),
    ]
}

fn lay(recorder: &mut Recorder, day: Day, records: &[Booking]) {
    recorder.films(&films());
    recorder.places(6);
    recorder.sheets([24, 24, 25]);
    recorder.report(3);
    recorder.day(day);
    for (place, &record) in records.iter().enumerate() {
        recorder.record(place, record);
    }
}

/// A booking, a drop and a played round on the day as it lies, and the day laid again.
fn three_calls(recorder: &mut Recorder, day: Day, records: &[Booking]) {
    let request = Request {
        name: 50,
        film: 7,
        prefetch: 1,
        reserve: 3,
        cabs: 4,
        first: 8,
        last: 20,
    };
    lay(recorder, day, records);
    recorder.book(request);
    lay(recorder, day, records);
    recorder.drop_booking(12);
    lay(recorder, day, records);
    recorder.play();
}

/// Each field of each record damaged in turn; the day's fields; two bookings that clash or just do not.
pub fn damaged_records(recorder: &mut Recorder) {
    recorder.garbage(5);
    three_calls(recorder, DAY, &standing());
    let damages: [fn(&mut Booking); 15] = [
        |record| record.name = 11,
        |record| record.film = 5,
        |record| record.film = u16::MAX,
        |record| record.prefetch = 257,
        |record| record.prefetch = u16::MAX,
        |record| record.reserve = 1 << 24,
        |record| record.reserve = u32::MAX,
        |record| record.reserve = 2,
        |record| record.reserve = 0,
        |record| record.cabs = 0,
        |record| record.cabs = u64::MAX,
        |record| record.start += 1,
        |record| record.start = 24,
        |record| record.start = u32::MAX,
        |record| *record = Booking::default(),
    ];
    for place in 0..4 {
        for damage in damages {
            let mut records = standing();
            damage(&mut records[place]);
            three_calls(recorder, DAY, &records);
        }
    }
    day_fields(recorder);
    one_byte_too_many(recorder);
    records_past_the_count(recorder);
}

/// The count against 256 and the list; `now` up to T and past it.
fn day_fields(recorder: &mut Recorder) {
    for count in [0, 1, 3, 5, 6, 7, 256, 257, 1 << 32, u64::MAX] {
        three_calls(recorder, Day { count, ..DAY }, &standing());
    }
    for now in [0, 7, 20, 23, 24, 25, 1 << 32, u64::MAX] {
        three_calls(recorder, Day { now, ..DAY }, &standing());
    }
    for rounds in [0, 23, 25, 86_401, 1 << 32, u64::MAX] {
        three_calls(recorder, Day { rounds, ..DAY }, &standing());
    }
    lay(recorder, DAY, &standing());
    for places in [0, 3, 4, 5] {
        recorder.places(places);
        recorder.play();
        recorder.drop_booking(99);
    }
}

/// Limits that the standing bookings just keep, and one byte less; and limits out of range.
fn one_byte_too_many(recorder: &mut Recorder) {
    // The disk's busiest round has the first two bookings and the third; the memory's is found by lowering the limit.
    let busiest = loss(3) + 8 + 7 + 3;
    for disk in [busiest, busiest - 1, loss(3), 0, (1 << 32) - 1, 1 << 32] {
        three_calls(recorder, Day { disk, ..DAY }, &standing());
    }
    for memory in (14..36).chain([0, 1 << 40, (1 << 40) + 1]) {
        lay(recorder, Day { memory, ..DAY }, &standing());
        recorder.drop_booking(99);
    }
}

/// What stands after the count is garbage and counts for nothing; the place freed by a drop is zeroed, no other.
fn records_past_the_count(recorder: &mut Recorder) {
    let garbage = booking(11, 9, u32::MAX, u16::MAX, u32::MAX, 0);
    let mut records = standing().to_vec();
    records.extend([garbage, garbage]);
    three_calls(recorder, DAY, &records);
    for name in [11, 12, 13, 14] {
        lay(recorder, DAY, &records);
        recorder.drop_booking(name);
    }
    lay(recorder, DAY, &records);
    for name in [14, 11, 13, 12, 12] {
        recorder.drop_booking(name);
    }
}

//! Days of thousands of rounds, with films of thousands of rounds.

use super::recorder::Recorder;
use super::MAX_SHEET;
use crate::bounds::{MAX_DAY_ROUNDS, MAX_FILM_ROUNDS};
use crate::cases::random::Random;
use crate::day::{Booking, Day, Request};
use crate::film_file::{encode, Film};
use crate::loss::loss;

pub fn all(recorder: &mut Recorder) {
    films(recorder);
    late_rounds(recorder);
    long_films(recorder);
    full_day(recorder);
}

/// Film 1: one round. Film 2: 1,000 rounds. Film 3: 4,096 rounds. The sizes repeat after a while, so that the file is short
/// to write down.
fn films(recorder: &mut Recorder) {
    let mut random = Random::new(0x6C_6F_6E_67);
    let sizes: Vec<u32> = (0..61).map(|_| random.below(1_000) as u32).collect();
    let film = |number, rounds| Film {
        number,
        sizes: sizes.iter().copied().cycle().take(rounds).collect(),
    };
    let file = encode(&[film(1, 1), film(2, 1_000), film(3, MAX_FILM_ROUNDS)]);
    let begin = 2 + 3 * 4 + 4;
    recorder.buffer(|script| {
        script.put(0, &file[..begin + 4 + 4 * 61]);
        script.copy(begin + 4, begin + 4 + 4 * 61, 4 * (1_000 - 61));
        let third = begin + 4 + 4 * 1_000;
        script.copy(begin + 4, third, 4 * 61);
        script.copy(third, third + 4 * 61, 4 * (MAX_FILM_ROUNDS - 61));
        script.len(file.len());
    });
    assert_eq!(recorder.lent().file.file(), file);
}

/// A list that is unsound in one round only, wherever in the day that round is: by its cab, by the disk, by the memory.
fn late_rounds(recorder: &mut Recorder) {
    recorder.places(4);
    recorder.sheets([MAX_SHEET; 3]);
    recorder.report(4);
    let size = 1_000;
    for rounds in [MAX_SHEET as u64, MAX_DAY_ROUNDS] {
        let borders = [
            0, 1_024, 2_048, 4_096, 8_192, 12_288, 81_920, 86_016, rounds,
        ];
        for round in borders
            .into_iter()
            .flat_map(|border: u64| [border.wrapping_sub(1), border])
        {
            if round >= rounds {
                continue;
            }
            let booking = |name, cabs| Booking {
                name,
                film: 1,
                start: round as u32,
                prefetch: 0,
                reserve: size,
                cabs,
            };
            let day = |disk, memory| Day {
                rounds,
                disk,
                memory,
                now: round,
                count: 2,
            };
            let disk = loss(2) + 2 * u64::from(size);
            let held = 2 * u64::from(first_size(recorder));
            recorder.record(0, booking(1, 1));
            recorder.record(1, booking(2, 1));
            recorder.day(day(disk, held));
            recorder.play();
            recorder.record(1, booking(2, 2));
            for (disk, memory) in [(disk, held), (disk - 1, held), (disk, held - 1)] {
                recorder.day(day(disk, memory));
                recorder.play();
            }
        }
    }
}

/// What film 1 sends in its one round.
fn first_size(recorder: &Recorder) -> u32 {
    let films = crate::film_file::decode(recorder.lent().file.file()).expect("accepted");
    films[0].sizes[0]
}

/// Long films one after another and side by side on a day of 10,240 rounds.
fn long_films(recorder: &mut Recorder) {
    recorder.garbage(3);
    recorder.places(20);
    recorder.sheets([MAX_SHEET; 3]);
    let rounds = MAX_SHEET as u64;
    let request = |name, film, prefetch, cabs, first, last| Request {
        name,
        film,
        prefetch,
        reserve: 1_000,
        cabs,
        first,
        last,
    };
    for (disk, memory) in [
        (loss(2) + 2_000, 100_000),
        (loss(4) + 4_000, 2_500),
        (loss(3) + 2_999, 100_000),
    ] {
        recorder.open(rounds, disk, memory);
        let last = rounds - 4_096 - 10;
        recorder.book(request(1, 3, 10, 1, 0, last));
        recorder.book(request(2, 3, 0, 1, 0, rounds - 4_096));
        recorder.book(request(3, 3, 10, 1, 0, last));
        recorder.book(request(4, 2, 5, 1, 0, rounds - 1_005));
        recorder.book(request(5, 2, 5, 2, 3_000, rounds - 1_005));
        recorder.book(request(6, 2, 256, 4, 4_000, rounds - 1_256));
        recorder.book(request(7, 1, 0, 7, 0, rounds - 1));
        recorder.book(request(8, 1, 0, 7, 4_090, rounds - 1));
        recorder.book(request(9, 3, 0, 8, 100, 3_000));
        recorder.play();
        recorder.drop_booking(1);
        recorder.book(request(10, 2, 1, 15, 1, rounds - 1_001));
    }
}

/// The largest day: 86,400 rounds and 256 bookings of 4,096 rounds. Played, for the sheet is too short for the rest.
fn full_day(recorder: &mut Recorder) {
    let count = 256;
    let slots = 21;
    let mut day = Day {
        rounds: MAX_DAY_ROUNDS,
        disk: loss(13) + 13 * 1_000,
        memory: 1 << 40,
        now: 0,
        count: count as u64,
    };
    for place in 0..count {
        recorder.record(
            place,
            Booking {
                name: 1_000 + place as u32,
                film: 3,
                start: (place % slots) as u32 * 4_096 + (place / slots) as u32 * 29,
                prefetch: 0,
                reserve: 1_000,
                cabs: 1 << (place / slots),
            },
        );
    }
    recorder.places(256);
    recorder.report(256);
    for now in [0, 300, 4_095, 4_096, 50_000, 86_399, 86_400] {
        day.now = now;
        recorder.day(day);
        recorder.play();
    }
    day.now = 50_000;
    day.disk -= 1;
    recorder.day(day);
    recorder.play();
}

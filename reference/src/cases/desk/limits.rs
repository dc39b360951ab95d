//! The figures of document 01, openings at their bounds, shift changes, and lists filled to their last place.

use super::recorder::Recorder;
use super::MAX_SHEET;
use crate::bounds::{MAX_DAY_ROUNDS, MAX_DISK, MAX_MEMORY};
use crate::day::Request;
use crate::film_file::Film;
use crate::loss::loss;

/// Film 1 of document 01, a film of no bytes and a film of one round.
fn films() -> [Film; 3] {
    let film = |number, sizes: &[u32]| Film {
        number,
        sizes: sizes.to_vec(),
    };
    [
        film(1, &[8, 8, 8, 2, 6, 4]),
        film(2, &[0, 0, 0]),
        film(3, &[1]),
    ]
}

/// "Booking 2 above with M 15: start 6. With M 18 and D 141,432: start 7." "Booking 2 above on cab 1: start 6."
pub fn figures(recorder: &mut Recorder) {
    recorder.films(&films());
    recorder.places(64);
    recorder.sheets([20, 20, 20]);
    recorder.report(4);
    for (disk, memory, cabs, start) in [
        (141_433, 18, 2, 3),
        (141_433, 15, 2, 6),
        (141_432, 18, 2, 7),
        (141_433, 18, 1, 6),
    ] {
        recorder.open(20, disk, memory);
        let request = |name, cabs, first, last| Request {
            name,
            film: 1,
            prefetch: 1,
            reserve: 6,
            cabs,
            first,
            last,
        };
        recorder.book(request(1, 1, 0, 0));
        let answer = recorder.book(request(2, cabs, 0, 10));
        assert!(answer.starts_with(&format!("0 {start} ")), "{answer}");
        recorder.book(request(3, 1, 0, 5));
        for _ in 0..21 {
            recorder.play();
        }
    }
}

/// Openings at and past each bound, on lists of unequal lengths.
pub fn openings(recorder: &mut Recorder) {
    recorder.garbage(99);
    recorder.sheets([MAX_SHEET, MAX_SHEET, MAX_SHEET]);
    for rounds in [
        0,
        1,
        10_240,
        10_241,
        65_536,
        MAX_DAY_ROUNDS,
        MAX_DAY_ROUNDS + 1,
        1 << 32,
    ] {
        recorder.open(rounds, 0, 0);
        recorder.play();
    }
    recorder.open(u64::MAX, u64::MAX, u64::MAX);
    for (disk, memory) in [
        (MAX_DISK, MAX_MEMORY),
        (MAX_DISK + 1, MAX_MEMORY),
        (MAX_DISK, MAX_MEMORY + 1),
        (u64::MAX, 0),
        (0, u64::MAX),
        (1 << 32, 1 << 40),
    ] {
        recorder.open(8, disk, memory);
        recorder.open(8_000_000, disk, memory);
    }
    recorder.garbage(7);
    for lengths in [
        [8, 8, 8],
        [7, 8, 8],
        [8, 7, 8],
        [8, 8, 7],
        [9, 10, 11],
        [0, 0, 0],
    ] {
        recorder.sheets(lengths);
        recorder.open(8, 100, 100);
        recorder.open(8, 100, MAX_MEMORY + 1);
        recorder.open(0, MAX_DISK + 1, 0);
        // The day stays open on lists that have become too short: 11 for all but play.
        recorder.drop_booking(1);
        recorder.play();
    }
}

/// One film after another on the same cab, or on a disk for one film, two rounds too early to two rounds late; and the day
/// that ends there.
pub fn shift_changes(recorder: &mut Recorder) {
    recorder.films(&films());
    recorder.places(8);
    recorder.sheets([40, 40, 40]);
    recorder.report(8);
    let rounds = 6;
    for leaving in 0..3 {
        for coming in 0..3 {
            for distance in 0..5 {
                let shows_until = 4 + leaving + rounds;
                let first = shows_until - coming + distance - 2;
                let request = |name, prefetch, start| Request {
                    name,
                    film: 1,
                    prefetch,
                    reserve: 8,
                    cabs: 5,
                    first: start,
                    last: start,
                };
                recorder.open(first + coming + rounds, 200_000, 40);
                recorder.book(request(1, leaving, 4));
                recorder.book(request(2, coming, first));
                recorder.book(request(3, coming, first + 1));
                for disk in [loss(1) + 8, loss(2) + 16] {
                    recorder.open(40, disk, 40);
                    recorder.book(request(1, leaving, 4));
                    let mut other = request(2, coming, shows_until + distance - 2);
                    other.cabs = 2;
                    other.last += 1;
                    recorder.book(other);
                }
            }
        }
    }
}

/// Every place of a list taken: by its length, by 256, and by the arm loss with 256 films open at once.
pub fn full_lists(recorder: &mut Recorder) {
    recorder.films(&films());
    recorder.sheets([600, 600, 600]);
    recorder.report(256);
    let request = |name, prefetch, first, last| Request {
        name,
        film: 3,
        prefetch,
        reserve: 1,
        cabs: 1 << 63,
        first,
        last,
    };
    // Lists of few places; no place at all.
    for places in [0, 1, 3] {
        recorder.places(places);
        recorder.open(600, 1_000_000, 1_000);
        for name in 0..=places as u32 {
            recorder.book(request(name, 0, 0, 500));
        }
        recorder.drop_booking(0);
        recorder.book(request(9, 0, 0, 500));
    }
    // 256 films that show one after another on one cab, all of them open in round 255. The disk takes them all, and then
    // one byte less.
    for (places, disk) in [(300, loss(256) + 256), (256, loss(256) + 255)] {
        recorder.places(places);
        recorder.open(600, disk, 1_000);
        for name in 0..=256 {
            recorder.book(request(name, 256, 0, 343));
        }
        recorder.drop_booking(100);
        recorder.drop_booking(255);
        recorder.book(request(256, 256, 0, 343));
        recorder.book(request(300, 0, 0, 599));
        recorder.book(request(301, 0, 0, 599));
    }
}

//! The order of the questions: every two of a call's questions say no at once, and the earlier one must give the number.

use super::recorder::Recorder;
use crate::day::{Booking, Day, Request};
use crate::film_file::{encode, Film};

/// The breaches, in the order of a booking's questions, and then those of drop and play.
#[derive(Clone, Copy, Debug, PartialEq, Eq)]
enum Breach {
    File,
    Day,
    Limits,
    Sheet,
    List,
    Name,
    Film,
    Prefetch,
    Reserve,
    Cabs,
    Schedule,
    Window,
    Place,
    Fit,
    Over,
    Report,
}

const BOOKING: [Breach; 14] = [
    Breach::File,
    Breach::Day,
    Breach::Limits,
    Breach::Sheet,
    Breach::List,
    Breach::Name,
    Breach::Film,
    Breach::Prefetch,
    Breach::Reserve,
    Breach::Cabs,
    Breach::Schedule,
    Breach::Window,
    Breach::Place,
    Breach::Fit,
];
const PLAYING: [Breach; 6] = [
    Breach::File,
    Breach::Day,
    Breach::Limits,
    Breach::List,
    Breach::Over,
    Breach::Report,
];

fn films() -> [Film; 2] {
    let film = |number, sizes: &[u32]| Film {
        number,
        sizes: sizes.to_vec(),
    };
    [film(1, &[8, 8, 8, 2, 6, 4]), film(2, &[5, 5])]
}

/// A day with two standing bookings, and a request that it takes.
fn lay(recorder: &mut Recorder) -> Request {
    recorder.films(&films());
    recorder.buffer(|script| {
        script.len(encode(&films()).len());
    });
    recorder.day(Day {
        rounds: 30,
        disk: 500_000,
        memory: 1_000,
        now: 1,
        count: 2,
    });
    let standing = Booking {
        name: 1,
        film: 1,
        start: 0,
        prefetch: 1,
        reserve: 6,
        cabs: 1,
    };
    recorder.record(0, standing);
    recorder.record(
        1,
        Booking {
            name: 2,
            film: 2,
            start: 3,
            prefetch: 0,
            reserve: 5,
            cabs: 2,
        },
    );
    recorder.places(5);
    recorder.sheets([30, 31, 32]);
    recorder.report(4);
    Request {
        name: 3,
        film: 1,
        prefetch: 1,
        reserve: 6,
        cabs: 4,
        first: 2,
        last: 5,
    }
}

/// Makes the question say no, by what is lent or by the request.
fn breach(recorder: &mut Recorder, breach: Breach, request: &mut Request) {
    let mut day = recorder.lent().day;
    match breach {
        Breach::File => recorder.buffer(|script| {
            script.len(encode(&films()).len() + 1);
        }),
        Breach::Day => {
            day.rounds = 0;
            recorder.day(day);
        }
        Breach::Limits => {
            day.disk = 1 << 32;
            recorder.day(day);
        }
        Breach::Sheet => recorder.sheets([30, 29, 32]),
        Breach::List => {
            let mut record = recorder.lent().records[1];
            record.cabs = 0;
            recorder.record(1, record);
        }
        Breach::Name => request.name = 1,
        Breach::Film => request.film = (1 << 16) + 1,
        Breach::Prefetch => request.prefetch = 257,
        Breach::Reserve => request.reserve = 1 << 24,
        Breach::Cabs => request.cabs = 0,
        Breach::Schedule => request.reserve = request.reserve.max(1 << 24) - (1 << 24),
        Breach::Window => request.last = 24,
        Breach::Place => recorder.places(2),
        Breach::Fit => {
            day.memory = 13;
            recorder.day(day);
        }
        Breach::Over => {
            day.now = 30;
            recorder.day(day);
        }
        Breach::Report => recorder.report(0),
    }
}

/// Every breach alone and with each later one, on a sheet and a report of garbage.
pub fn every_pair_of_questions(recorder: &mut Recorder) {
    for (questions, drops) in [(BOOKING.as_slice(), true), (PLAYING.as_slice(), false)] {
        for (index, &earlier) in questions.iter().enumerate() {
            for &later in &questions[index..] {
                let mut request = lay(recorder);
                recorder.garbage(index as u32);
                breach(recorder, earlier, &mut request);
                breach(recorder, later, &mut request);
                if drops {
                    recorder.book(request);
                    // A name that stands nowhere: 19 comes after 16.
                    if later == Breach::Name || index < 5 {
                        recorder.drop_booking(77);
                    }
                } else {
                    recorder.play();
                }
            }
        }
    }
    refused_files(recorder);
    wide_numbers(recorder);
}

/// Each refusal of the film file comes before everything else, on a good day and on one of no rounds.
fn refused_files(recorder: &mut Recorder) {
    let file = encode(&films());
    // The bytes that F, the second number, the first round count, S and the last byte of a size stand at.
    for (position, value) in [(0, 0), (6, 1), (4, 0), (10, 7), (17, 1)] {
        for rounds in [30, 0] {
            let request = lay(recorder);
            let day = recorder.lent().day;
            recorder.buffer(|script| {
                script.poke(position, value);
            });
            recorder.day(Day { rounds, ..day });
            recorder.book(request);
            recorder.drop_booking(1);
            recorder.play();
            recorder.buffer(|script| {
                script.poke(position, file[position]);
            });
        }
    }
    for length in [0, 1, file.len() - 1] {
        let request = lay(recorder);
        recorder.buffer(|script| {
            script.len(length);
        });
        recorder.book(request);
        recorder.drop_booking(1);
        recorder.play();
    }
}

/// Each number of a request beyond its field, each of its own question: none may wrap into another number.
fn wide_numbers(recorder: &mut Recorder) {
    let good = lay(recorder);
    for wide in [1 << 8, 1 << 16, 1 << 24, 1 << 32, 1 << 63, u64::MAX] {
        let numbers: [fn(&mut Request) -> &mut u64; 5] = [
            |request| &mut request.film,
            |request| &mut request.prefetch,
            |request| &mut request.reserve,
            |request| &mut request.first,
            |request| &mut request.last,
        ];
        for number in numbers {
            let mut request = good;
            let field = number(&mut request);
            *field = field.wrapping_add(wide);
            recorder.book(request);
        }
        let mut request = good;
        request.first = wide;
        request.last = wide;
        recorder.book(request);
    }
    // Every cab at once, the highest cab, the highest name.
    for (name, cabs) in [(3, u64::MAX), (u32::MAX, 1 << 63), (0, 4)] {
        let mut request = lay(recorder);
        request.name = name;
        request.cabs = cabs;
        request.last = 20;
        recorder.book(request);
        recorder.drop_booking(name);
    }
}

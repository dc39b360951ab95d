//! Drawn days with drawn calls.

use super::recorder::Recorder;
use crate::cases::random::Random;
use crate::day::Request;
use crate::exhaustive;
use crate::film_file::{encode, Film};
use crate::loss::loss;
use crate::plain_day::{Answer, Call, Opening, PlainDay};
use crate::schedule::{sends, smallest_reserve};

/// Days of up to some eighty rounds, their limits low enough to bind.
pub fn days(recorder: &mut Recorder) {
    let mut random = Random::new(0x64_61_79_73);
    for _ in 0..45 {
        let films = films(&mut random);
        recorder.films(&films);
        recorder.garbage(random.below(1 << 32) as u32);
        recorder.places(random.pick(&[2, 5, 9, 20, 64, 256, 300]));
        let rounds = 20 + random.below(60);
        let length = |random: &mut Random| (rounds + random.below(4)) as usize;
        recorder.sheets([
            length(&mut random),
            length(&mut random),
            length(&mut random),
        ]);
        let largest = films.iter().flat_map(|film| &film.sizes).max();
        let unit = largest.map_or(1, |&size| u64::from(size) + 1);
        let disk = loss(1 + random.below(5)) + random.below(5 * unit);
        recorder.open(rounds, disk, unit + random.below(8 * unit));
        for _ in 0..26 {
            drawn_call(recorder, &mut random, &films);
        }
    }
}

/// One to four films of few rounds, quiet and heavy.
fn films(random: &mut Random) -> Vec<Film> {
    let mut number = random.below(3) as u16;
    let mut films = Vec::new();
    for _ in 0..=random.below(4) {
        let heavy = random.pick(&[1, 9, 9, 100, 50_000, 16_777_215]);
        let sizes = (0..=random.below(14))
            .map(|_| {
                let quiet = random.once_in(2);
                random.below(if quiet { heavy / 10 + 1 } else { heavy + 1 }) as u32
            })
            .collect();
        films.push(Film { number, sizes });
        number += 1 + random.below(3) as u16;
    }
    films
}

fn drawn_call(recorder: &mut Recorder, random: &mut Random, films: &[Film]) {
    match random.below(20) {
        0..=11 => {
            let request = request(recorder, random, films);
            recorder.book(request);
        }
        12..=14 => recorder.drop_booking(random.below(16) as u32),
        15..=18 => {
            recorder.report(random.pick(&[0, 1, 2, 4, 8, 16]));
            recorder.play();
        }
        _ => recorder.garbage(random.below(1 << 32) as u32),
    }
}

/// A request that is mostly legal: any one of its numbers is now and then out of its range.
fn request(recorder: &Recorder, random: &mut Random, films: &[Film]) -> Request {
    let day = recorder.lent().day;
    let film = &films[random.below(films.len() as u64) as usize];
    let prefetch = random.pick(&[0, 0, 1, 1, 2, 3, 5, 9]);
    let largest = film.sizes.iter().copied().max().map_or(0, u64::from);
    let cap = largest + random.below(3 * largest + 1);
    let least = smallest_reserve(&sends(prefetch, &film.sizes), cap);
    let reserve = random.pick(&[least, least, largest, least + 1, least.saturating_sub(1)]);
    let cabs = (1 << random.below(5))
        | if random.once_in(4) {
            random.bits() & 31
        } else {
            0
        };
    let space = day
        .rounds
        .saturating_sub(prefetch + film.sizes.len() as u64);
    let first = day.now + random.below(space.saturating_sub(day.now) + 1);
    let last = first + random.below(space.saturating_sub(first) + 1);
    let mut request = Request {
        name: random.below(16) as u32,
        film: u64::from(film.number),
        prefetch,
        reserve,
        cabs,
        first,
        last,
    };
    match random.below(40) {
        0 => request.film = random.below(1 << 17),
        1 => request.prefetch = random.pick(&[256, 257]),
        2 => request.reserve = random.pick(&[0, 16_777_215, 16_777_216]),
        3 => request.cabs = 0,
        4 => request.first = random.below(day.rounds + 2),
        5 => request.last = random.below(day.rounds + 2),
        _ => {}
    }
    request
}

/// Days so small that every schedule of every booking can be tried: the start that the desk gives must be the first for
/// which any schedules fit, and 22 must mean that there are none.
pub fn tiny_days(recorder: &mut Recorder) {
    let mut random = Random::new(0x74_69_6E_79);
    for _ in 0..45 {
        let films: Vec<Film> = (1..3)
            .map(|number| Film {
                number,
                sizes: (0..=random.below(3))
                    .map(|_| random.below(4) as u32)
                    .collect(),
            })
            .collect();
        recorder.films(&films);
        recorder.places(5);
        let opening = Opening {
            rounds: 8 + random.below(6),
            disk: loss(1 + random.below(3)) + 2 + random.below(8),
            memory: 3 + random.below(7),
        };
        recorder.sheets([opening.rounds as usize; 3]);
        recorder.open(opening.rounds, opening.disk, opening.memory);
        let file = encode(&films);
        let mut plain = PlainDay::new(opening, &file, 5, exhaustive::fit);
        for _ in 0..9 {
            let request = request(recorder, &mut random, &films);
            let printed = recorder.book(request);
            let answer = match plain.call(&Call::Book(request)) {
                Answer::Booked(start) => format!("0 {start}"),
                Answer::Refused(refusal) => refusal.number().to_string(),
                other => panic!("a booking answers {other:?}"),
            };
            let (printed, _checksum) = printed.trim_end().rsplit_once(' ').expect("two fields");
            assert_eq!(printed, answer);
        }
    }
}

//! Every version answers as the second implementation does and leaves everything lent as it does.

mod second;

use bench::fast::Fast;
use bench::obvious::Obvious;
use bench::scheduler::{Library, Opening, Scheduler, Sheet};
use playback::journal::Call;
use playback::{Booking, Day, Line, Request};
use reference::cases::random::Random;
use reference::film_file::{encode, Film};
use second::Second;

fn versions() -> [Box<dyn Scheduler>; 3] {
    [
        Box::new(Fast),
        Box::new(Obvious::default()),
        Box::new(Library),
    ]
}

fn drawn_films(random: &mut Random, most: u64, rounds: u64, size: u64) -> Vec<Film> {
    let mut number = random.below(3) as u16;
    let mut films = Vec::new();
    for _ in 0..=random.below(most) {
        let busy = 1 + random.below(size);
        let sizes = (0..=random.below(rounds)).map(|_| {
            let size = if random.once_in(4) { size } else { busy };
            random.below(size + 1) as u32
        });
        films.push(Film {
            number,
            sizes: sizes.collect(),
        });
        number += 1 + random.below(3) as u16;
    }
    films
}

/// A file, mostly of films as they are, sometimes damaged.
fn drawn_file(random: &mut Random, films: &[Film], damaged_once_in: u64) -> Vec<u8> {
    let mut file = encode(films);
    if random.once_in(damaged_once_in) {
        match random.below(4) {
            0 => file.truncate(random.below(file.len() as u64) as usize),
            1 => file.push(0),
            _ => {
                let place = random.below(file.len() as u64) as usize;
                file[place] = random.bits() as u8;
            }
        }
    }
    file
}

#[test]
fn verdicts() {
    let mut random = Random::new(11);
    for _ in 0..4_000 {
        let films = drawn_films(&mut random, 5, 6, 1 << 24);
        let file = drawn_file(&mut random, &films, 2);
        let expected = Second.verdict(&file);
        for version in versions() {
            assert_eq!(version.verdict(&file), expected, "{}", version.name());
        }
    }
}

#[test]
fn schedules_and_least_reserves() {
    let mut random = Random::new(12);
    for _ in 0..3_000 {
        let size = random.pick(&[3, 20, 1_000, 16_777_215]);
        let films = drawn_films(&mut random, 3, 60, size);
        let file = drawn_file(&mut random, &films, 30);
        for _ in 0..8 {
            let film = random.below(6);
            let prefetch = random.pick(&[0, 0, 1, 2, 5, 20, 256, 257]);
            let reserve = random.below(size + 2);
            let room = random.pick(&[400, 400, 70, 20]);
            let garbage: Vec<u64> = (0..room).map(|_| random.bits()).collect();
            let cap = size - 1 + random.below(4 * size);
            let mut expected = garbage.clone();
            let number = Second.schedule(&file, film, prefetch, reserve, &mut expected);
            let least = Second.least_reserve(&file, film, prefetch, cap);
            for version in versions() {
                let mut totals = garbage.clone();
                let answer = version.schedule(&file, film, prefetch, reserve, &mut totals);
                assert_eq!((answer, &totals), (number, &expected), "{}", version.name());
                let answer = version.least_reserve(&file, film, prefetch, cap);
                assert_eq!(answer, least, "{}", version.name());
            }
        }
    }
}

/// What a list of calls is lent.
#[derive(Clone, Debug, PartialEq)]
struct Lent {
    day: Day,
    records: Vec<Booking>,
    sheet: Sheet,
    report: Vec<Line>,
}

fn drawn_list(random: &mut Random, length: u64) -> Vec<u64> {
    (0..length).map(|_| random.bits()).collect()
}

fn drawn_record(random: &mut Random, rounds: u64) -> Booking {
    Booking {
        name: random.below(300) as u32,
        film: random.below(8) as u16,
        start: random.below(rounds + 1) as u32,
        prefetch: random.below(4) as u16,
        reserve: random.below(2_000) as u32,
        cabs: random.below(8),
    }
}

/// The kind of days that are drawn.
struct Kind {
    calls: u64,
    rounds: u64,
    film_rounds: u64,
    size: u64,
    places: u64,
    cabs: u64,
    films: Vec<u64>,
}

fn drawn_request(random: &mut Random, kind: &Kind) -> Request {
    let rounds = kind.rounds;
    let first = random.below(rounds);
    let width = random.pick(&[1, rounds / 8 + 1, rounds]);
    let last = first + random.below(width);
    let largest = random.below(kind.size + kind.size / 4 + 1);
    Request {
        name: random.below(300) as u32,
        film: if random.once_in(20) {
            99
        } else {
            random.pick(&kind.films)
        },
        prefetch: random.pick(&[0, 0, 1, 1, 3, 3, 9, 9, 9, 257]),
        reserve: if random.once_in(40) {
            16_777_216
        } else {
            largest.max(random.below(kind.size + 1))
        },
        cabs: 1 << random.below(kind.cabs) | random.below(2) << random.below(kind.cabs),
        first,
        last: last.min(rounds - random.below(kind.film_rounds + 9).min(rounds)),
    }
}

fn carry_out(version: &dyn Scheduler, file: &[u8], lent: &mut Lent, call: &Call) -> [u64; 4] {
    let Lent {
        day,
        records,
        sheet,
        report,
    } = lent;
    let reply = match *call {
        Call::Book(request) => version.book(file, *day, records, request, sheet),
        Call::Drop(name) => version.drop_booking(file, *day, records, name, sheet),
        Call::Play(length) => {
            let length = (length as usize).min(report.len());
            version.play(file, *day, records, &mut report[..length])
        }
    };
    *day = reply.day;
    [reply.refusal.into(), reply.start, reply.films, reply.cabs]
}

/// Drawn calls on drawn days; some records are set by hand, so that lists are unsound too. Counts the answers.
fn compare_days(seed: u64, days: u64, mut kind: Kind, hostile: u64) -> [u64; 26] {
    let mut random = Random::new(seed);
    let mut met = [0; 26];
    for _ in 0..days {
        let films = drawn_films(&mut random, 5, kind.film_rounds, kind.size);
        kind.films = films.iter().map(|film| film.number.into()).collect();
        let file = drawn_file(&mut random, &films, 40);
        let opening = Opening {
            rounds: kind.rounds,
            disk: kind.size * (1 + random.below(6)) + 100_000 * (1 + random.below(3)),
            memory: kind.size * (1 + random.below(8)),
        };
        let longer = random.below(3);
        let length = kind.rounds + longer;
        let places = random.below(kind.places + 1) as usize;
        let mut lent = Lent {
            day: Day::default(),
            records: vec![drawn_record(&mut random, kind.rounds); places],
            sheet: Sheet {
                opens: drawn_list(&mut random, length),
                reserves: drawn_list(&mut random, length),
                helds: drawn_list(&mut random, length),
            },
            report: vec![Line::default(); 300],
        };
        let mut others: Vec<(Box<dyn Scheduler>, Lent)> = Vec::new();
        for version in versions() {
            let mut own = lent.clone();
            own.day = version.open(own.day, opening, &mut own.sheet).day;
            others.push((version, own));
        }
        lent.day = Second.open(lent.day, opening, &mut lent.sheet).day;
        for _ in 0..kind.calls {
            let call = match random.below(9) {
                0..=5 => Call::Book(drawn_request(&mut random, &kind)),
                6 => Call::Drop(random.below(300) as u32),
                _ => Call::Play(random.pick(&[300, 300, 1])),
            };
            if random.once_in(hostile) {
                let record = drawn_record(&mut random, kind.rounds);
                let place = random.below(places as u64 + 1) as usize;
                let day = Day {
                    now: lent.day.now + random.below(kind.rounds),
                    count: random.below(places as u64 + 2),
                    rounds: kind.rounds + random.pick(&[0, 0, 0, 4]),
                    ..lent.day
                };
                for lent in others.iter_mut().map(|(_, lent)| lent).chain([&mut lent]) {
                    lent.day = day;
                    if place < places {
                        lent.records[place] = record;
                    }
                }
            }
            let expected = carry_out(&Second, &file, &mut lent, &call);
            met[expected[0] as usize] += 1;
            for (version, own) in &mut others {
                let answer = carry_out(version.as_ref(), &file, own, &call);
                assert_eq!(answer, expected, "{}: {call:?} on {lent:?}", version.name());
                assert_eq!(*own, lent, "{}: {call:?}", version.name());
            }
        }
    }
    met
}

#[test]
fn small_days() {
    let kind = Kind {
        calls: 30,
        rounds: 40,
        film_rounds: 8,
        size: 1_000,
        places: 12,
        cabs: 4,
        films: Vec::new(),
    };
    let met = compare_days(21, 400, kind, 40);
    for number in [0, 1, 8, 9, 10, 11, 12, 14, 16, 17, 18, 19, 21, 22, 23] {
        assert!(met[number] > 0, "{number} is not met: {met:?}");
    }
}

#[test]
fn long_days() {
    let kind = Kind {
        calls: 60,
        rounds: 3_000,
        film_rounds: 300,
        size: 100_000,
        places: 40,
        cabs: 16,
        films: Vec::new(),
    };
    let met = compare_days(22, 16, kind, 400);
    assert!(met[0] > 100 && met[22] > 20, "{met:?}");
}

#[test]
fn replays() {
    let mut kind = Kind {
        calls: 0,
        rounds: 60,
        film_rounds: 10,
        size: 1_000,
        places: 10,
        cabs: 4,
        films: Vec::new(),
    };
    let mut random = Random::new(23);
    for _ in 0..300 {
        let films = drawn_films(&mut random, 5, kind.film_rounds, kind.size);
        kind.films = films.iter().map(|film| film.number.into()).collect();
        let file = drawn_file(&mut random, &films, 20);
        let opening = Opening {
            rounds: if random.once_in(20) { 0 } else { kind.rounds },
            disk: kind.size * (1 + random.below(20)) + 100_000 * random.below(4),
            memory: kind.size * (1 + random.below(20)),
        };
        let mut journal = Vec::new();
        for _ in 0..random.below(60) {
            let call = match random.below(4) {
                0 | 1 => Call::Book(drawn_request(&mut random, &kind)),
                2 => Call::Drop(random.below(300) as u32),
                _ => Call::Play(random.pick(&[300, 300, 2])),
            };
            journal.extend(call.words());
            if random.once_in(20) {
                let place = journal.len() - 1 - random.below(8) as usize;
                journal[place] = random.bits() >> random.below(64);
            }
        }
        journal.extend(drawn_list(&mut random, 3));
        let places = random.below(kind.places) as usize;
        let records = vec![drawn_record(&mut random, kind.rounds); places];
        let sheet = Sheet {
            opens: drawn_list(&mut random, kind.rounds),
            reserves: drawn_list(&mut random, kind.rounds + 1),
            helds: drawn_list(&mut random, kind.rounds),
        };
        let length = random.pick(&[1_000, 1_000, 50, 2]);
        let log = drawn_list(&mut random, length);
        let run = |version: &dyn Scheduler| {
            let (mut records, mut sheet, mut log) = (records.clone(), sheet.clone(), log.clone());
            let answer =
                version.replay(&file, opening, &mut records, &journal, &mut log, &mut sheet);
            (answer, records, sheet, log)
        };
        let expected = run(&Second);
        for version in versions() {
            assert_eq!(run(version.as_ref()), expected, "{}", version.name());
        }
    }
}

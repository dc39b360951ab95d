//! The desk against the plain day, and the plain day against every schedule there is.

use reference::cases::random::Random;
use reference::day::{Booking, Day, Line, Request, Sheet};
use reference::desk;
use reference::exhaustive;
use reference::film_file::{encode, Film};
use reference::loss::loss;
use reference::plain_day::{fit_just_in_time, Answer, Call, Decider, Opening, PlainDay};
use reference::refusal::Refusal;
use std::collections::BTreeMap;

/// A day as the desk is lent it, call after call.
struct Lent {
    file: Vec<u8>,
    day: Day,
    records: Vec<Booking>,
    sheet: Sheet,
}

impl Lent {
    /// A day opened on lists full of garbage.
    fn open(file: &[u8], opening: &Opening, places: usize, random: &mut Random) -> Lent {
        let garbage = Booking {
            name: random.below(9) as u32,
            film: random.below(9) as u16,
            cabs: random.bits(),
            ..Booking::default()
        };
        let length = opening.rounds as usize + random.below(3) as usize;
        let list = |random: &mut Random| (0..length).map(|_| random.bits()).collect();
        let mut lent = Lent {
            file: file.to_vec(),
            day: Day {
                now: 7,
                count: 9,
                ..Day::default()
            },
            records: vec![garbage; places],
            sheet: Sheet {
                open: list(random),
                reserves: list(random),
                held: list(random),
            },
        };
        let Opening {
            rounds,
            disk,
            memory,
        } = *opening;
        desk::open(&mut lent.day, &mut lent.sheet, rounds, disk, memory).expect("opened");
        lent
    }

    fn call(&mut self, call: &Call) -> Answer {
        match call {
            Call::Book(request) => desk::book(
                &self.file,
                &mut self.day,
                &mut self.records,
                &mut self.sheet,
                request,
            )
            .map_or_else(Answer::Refused, Answer::Booked),
            Call::Drop(name) => desk::drop_booking(
                &self.file,
                &mut self.day,
                &mut self.records,
                &mut self.sheet,
                *name,
            )
            .map_or_else(Answer::Refused, |()| Answer::Dropped),
            Call::Play(length) => {
                let mut report = vec![Line::default(); *length];
                match desk::play(&self.file, &mut self.day, &self.records, &mut report) {
                    Ok(played) => {
                        report.truncate(played.open as usize);
                        Answer::Played {
                            lines: report,
                            cabs: played.cabs,
                        }
                    }
                    Err(refusal) => Answer::Refused(refusal),
                }
            }
        }
    }
}

fn drawn_films(random: &mut Random, rounds: u64, size: u64) -> Vec<Film> {
    (0..=random.below(3) as u16)
        .map(|number| Film {
            number,
            sizes: (0..=random.below(rounds))
                .map(|_| random.below(size + 1) as u32)
                .collect(),
        })
        .collect()
}

fn drawn_call(random: &mut Random, rounds: u64, size: u64) -> Call {
    match random.below(8) {
        0..=4 => {
            let first = random.below(rounds);
            Call::Book(Request {
                name: random.below(12) as u32,
                film: random.below(4),
                prefetch: random.below(3),
                reserve: size + 1 - random.below(size + 2).min(random.below(size + 2)),
                cabs: random.below(8),
                first,
                last: first + random.below(rounds - first),
            })
        }
        5 | 6 => Call::Drop(random.below(12) as u32),
        _ => Call::Play(random.below(6) as usize),
    }
}

/// How often a booking started later than asked, and how often no start fitted.
#[derive(Debug, Default)]
struct Met {
    later: u64,
    no_fit: u64,
}

/// "the sends up to any line add up to at most the reads up to it. In every report the reads plus loss(number of lines) are at
/// most D and the held at most M." The totals are what each standing booking has read and sent since it was accepted.
fn report_is_safe(opening: &Opening, lines: &[Line], totals: &mut BTreeMap<u32, (u64, u64)>) {
    let reads: u64 = lines.iter().map(|line| line.read).sum();
    let held: u64 = lines.iter().map(|line| line.held).sum();
    assert!(reads + loss(lines.len() as u64) <= opening.disk);
    assert!(held <= opening.memory);
    for line in lines {
        let (read, sent) = totals.entry(line.name).or_default();
        *read += line.read;
        *sent += line.send;
        assert!(*sent <= *read);
    }
}

/// Runs drawn lists of calls on the desk and on the plain day; they must agree on every answer and at the end.
fn compare(seed: u64, lists: u64, rounds: u64, size: u64, fit: Decider) -> Met {
    let mut random = Random::new(seed);
    let mut met = Met::default();
    for _ in 0..lists {
        let films = drawn_films(&mut random, 4, size);
        let mut file = encode(&films);
        if random.once_in(20) {
            file.pop();
        }
        let opening = Opening {
            rounds: rounds / 2 + random.below(rounds / 2),
            disk: loss(1 + random.below(4)) + size + random.below(4 * size),
            memory: size + random.below(6 * size),
        };
        let places = random.below(9) as usize;
        let mut lent = Lent::open(&file, &opening, places, &mut random);
        let before = (lent.records.clone(), lent.sheet.clone());
        let mut plain = PlainDay::new(opening, &file, places as u64, fit);
        let mut totals = BTreeMap::new();
        for _ in 0..25 {
            let call = drawn_call(&mut random, opening.rounds, size);
            let answer = plain.call(&call);
            assert_eq!(lent.call(&call), answer);
            if let (Call::Book(request), Answer::Booked(start)) = (&call, &answer) {
                met.later += u64::from(*start > request.first);
            }
            match (&call, &answer) {
                (Call::Drop(name), Answer::Dropped) => {
                    totals.remove(name);
                }
                (Call::Play(_), Answer::Played { lines, .. }) => {
                    report_is_safe(&opening, lines, &mut totals);
                }
                _ => {}
            }
            met.no_fit += u64::from(answer == Answer::Refused(Refusal::NoFit));
        }
        assert_eq!(lent.day.now, plain.round());
        assert_eq!(lent.day.count, plain.bookings().len() as u64);
        assert_eq!(lent.records, plain.records(&before.0));
        let mut sheet = before.1;
        let end = plain.sheet();
        let rounds = opening.rounds as usize;
        sheet.open[..rounds].copy_from_slice(&end.open);
        sheet.reserves[..rounds].copy_from_slice(&end.reserves);
        sheet.held[..rounds].copy_from_slice(&end.held);
        assert_eq!(lent.sheet, sheet);
    }
    met
}

#[test]
fn desk_is_the_plain_day() {
    let met = compare(3, 3_000, 24, 9, fit_just_in_time);
    assert!(met.later > 500 && met.no_fit > 500, "{met:?}");
}

#[test]
fn first_start_is_the_first_that_any_schedules_fit() {
    let met = compare(4, 6_000, 14, 3, exhaustive::fit);
    assert!(met.later > 500 && met.no_fit > 500, "{met:?}");
}

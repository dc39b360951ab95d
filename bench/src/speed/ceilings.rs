//! The ceilings of the calls, what each takes, and whether it is kept.

use super::cases::{file_cases, replay_case, search_cases, Case};
use super::contest::{library_time, Call, State};
use super::tables::Measured;
use crate::days::{day, day_at_once, Fixture, Size};
use crate::document::table;
use crate::measure::{seconds, Effort};

/// The day of the ceilings: its rounds, a full list, the longest films.
const FULL: Size = Size {
    rounds: 86_400,
    bookings: 256,
    film: 4_096,
};

/// A ceiling in seconds, with the cases that it holds for.
struct Ceiling {
    name: &'static str,
    seconds: f64,
    cases: Vec<Case>,
}

/// A booking beside 255, a drop of one of 256 and a round of 256, named as the tables of days name them.
fn full_days(place: &str, of: fn(Size) -> Fixture) -> [Case; 3] {
    let case = |name: &str, call, bookings| Case {
        name: format!("{name}, {place}"),
        call,
        state: State::new(of(Size { bookings, ..FULL })),
    };
    [
        case("book", Call::Book, FULL.bookings - 1),
        case("drop", Call::Drop, FULL.bookings),
        case("play", Call::Play, FULL.bookings),
    ]
}

fn ceilings_of() -> Vec<Ceiling> {
    let ceiling = |name, seconds, cases| Ceiling {
        name,
        seconds,
        cases,
    };
    let [book, drop, play] = full_days("86,400 / 4,096, 256", day);
    let [book_at_once, drop_at_once, play_at_once] = full_days("64 at once", day_at_once);
    let files = |call: &str, place: &str| {
        let cases = file_cases().into_iter();
        let wanted = |case: &Case| case.name.starts_with(call) && case.name.contains(place);
        cases.filter(wanted).collect()
    };
    vec![
        ceiling("book, full day, spread", 10e-3, vec![book]),
        ceiling("book, full day, 64 at once", 10e-3, vec![book_at_once]),
        ceiling("drop, full day, spread", 10e-3, vec![drop]),
        ceiling("drop, full day, 64 at once", 10e-3, vec![drop_at_once]),
        ceiling("play, full day, spread", 5e-3, vec![play]),
        ceiling("play, full day, 64 at once", 5e-3, vec![play_at_once]),
        ceiling("the worst search", 0.3, search_cases()),
        ceiling("replay, full day's journal", 2.0, vec![replay_case(FULL)]),
        ceiling(
            "verdict, largest file",
            0.2e-3,
            files("verdict", "largest file"),
        ),
        ceiling(
            "schedule, 4,096 rounds, one film",
            0.1e-3,
            files("schedule", "one film"),
        ),
        ceiling("least reserve", 0.5e-3, files("least reserve", "")),
    ]
}

/// The table, and whether all are kept. Cases that the run has measured are not measured again. `line` is the seconds of a line of
/// `hall`.
pub fn ceilings(effort: Effort, measured: &Measured, line: f64) -> (String, bool) {
    let effort = Effort {
        runs: effort.runs.min(5),
        ..effort
    };
    let mut found = Vec::new();
    for ceiling in ceilings_of() {
        eprintln!("bench: ceilings, {}", ceiling.name);
        let time = |case: &Case| {
            let before = measured.time(&case.name);
            before.unwrap_or_else(|| library_time(case.call, &case.state, effort))
        };
        let slowest = ceiling.cases.iter().map(time).fold(0.0, f64::max);
        found.push((ceiling.name, ceiling.seconds, slowest));
    }
    found.push(("a line of `hall`", 0.3e-3, line));
    let kept = |(_, ceiling, time): &(&str, f64, f64)| time <= ceiling;
    let rows = found.iter().map(|row| {
        let (name, ceiling, time) = row;
        vec![
            name.to_string(),
            seconds(*ceiling),
            seconds(*time),
            if kept(row) { "yes" } else { "no" }.to_string(),
        ]
    });
    let rows: Vec<_> = rows.collect();
    let text = table(&["call", "ceiling", "library", "kept"], &rows);
    (text, found.iter().all(kept))
}

//! The single cases: largest file, schedules, least reserves, searches, replays.

use super::contest::{Call, State};
use crate::days::{
    day, films, refused_all_day, refused_by_memory, taken_last, Fixture, Refuser, Size, Spikes,
    PREFETCH,
};
use crate::document::grouped;
use crate::fast::Fast;
use crate::scheduler::{Scheduler, Sheet};
use playback::journal;
use playback::limits::{MAX_BOOKINGS, MAX_MEMORY};
use playback::{Booking, Day, Request};
use reference::film_file::encode;

/// A case with its name in the tables.
pub struct Case {
    pub name: String,
    pub call: Call,
    pub state: State,
}

fn case(name: &str, call: Call, state: State) -> Case {
    Case {
        name: name.to_string(),
        call,
        state,
    }
}

/// A film file alone.
fn of_file(file: Vec<u8>) -> State {
    State::new(Fixture {
        file,
        day: Day::default(),
        records: vec![Booking::default(); MAX_BOOKINGS],
        sheet: Sheet::new(0),
        request: Request {
            prefetch: PREFETCH,
            ..Request::default()
        },
    })
}

/// A schedule of the first film, with the least reserve that has one.
pub fn schedule_call(file: &[u8]) -> Call {
    let film = 1;
    let reserve = Fast.least_reserve(file, film, PREFETCH, MAX_MEMORY).bytes;
    Call::Schedule { film, reserve }
}

/// Verdict, schedule and least reserve.
pub fn file_cases() -> Vec<Case> {
    let all = films(64, 4_096);
    let largest = of_file(encode(&all));
    let single = of_file(encode(&all[..1]));
    let film = 1;
    let narrow = Call::LeastReserve {
        film,
        cap: 2_000_000,
    };
    let wide = Call::LeastReserve {
        film,
        cap: MAX_MEMORY,
    };
    vec![
        case(
            "verdict, largest file (1 MiB)",
            Call::Verdict,
            largest.clone(),
        ),
        case("verdict, one film (16 KiB)", Call::Verdict, single.clone()),
        case(
            "schedule, 4,096 rounds, largest file",
            schedule_call(&largest.fixture.file),
            largest.clone(),
        ),
        case(
            "schedule, 4,096 rounds, one film",
            schedule_call(&single.fixture.file),
            single.clone(),
        ),
        case(
            "least reserve, cap 2,000,000, largest file",
            narrow,
            largest.clone(),
        ),
        case(
            "least reserve, cap 2,000,000, one film",
            narrow,
            single.clone(),
        ),
        case("least reserve, largest cap, one film", wide, single),
    ]
}

/// Bookings of which the last of so many starts is taken.
pub fn start_cases() -> Vec<Case> {
    let starts = [1, 10, 100, 1_000].into_iter();
    let cases = starts.map(|starts| {
        let name = match starts {
            1 => "1 start".to_string(),
            _ => format!("{} starts", grouped(starts)),
        };
        case(&name, Call::Book, State::new(taken_last(starts)))
    });
    cases.collect()
}

/// Calls that a question of their own refuses, on a short day and on long ones.
pub fn refusal_cases() -> Vec<Case> {
    let sizes = [(1_024, 64, 64), (86_400, 1, 64), (86_400, 255, 4_096)];
    let cases = sizes.into_iter().flat_map(|(rounds, bookings, film)| {
        let size = Size {
            rounds,
            bookings,
            film,
        };
        let place = format!("{} / {}, {bookings}", grouped(rounds), grouped(film));
        let state = State::new(day(size));
        let mut taken = state.clone();
        taken.fixture.request.name = taken.fixture.records[0].name;
        let mut unscheduled = state.clone();
        unscheduled.fixture.request.reserve = 0;
        [
            case(&format!("book, name taken, {place}"), Call::Book, taken),
            case(
                &format!("book, no schedule, {place}"),
                Call::Book,
                unscheduled,
            ),
            case(
                &format!("drop, no such name, {place}"),
                Call::DropUnknown,
                state,
            ),
        ]
    });
    cases.collect()
}

/// Searches of a window of the whole day, all refused.
pub fn search_cases() -> Vec<Case> {
    let refused = |name, by| case(name, Call::Book, State::new(refused_all_day(by)));
    let memory = |name, spikes| case(name, Call::Book, State::new(refused_by_memory(spikes)));
    vec![
        refused("full day, disk refuses every start", Refuser::Disk),
        refused("full day, cabs refuse every start", Refuser::Cabs),
        refused("full day, memory refuses every start", Refuser::Memory),
        memory("memory refuses alternately, late in the film", Spikes::Late),
        memory(
            "memory refuses alternately, early in the film",
            Spikes::Early,
        ),
        memory(
            "memory refuses in three rounds in turn, in the middle",
            Spikes::Middle,
        ),
        memory(
            "memory refuses in three rounds in turn, far apart",
            Spikes::Apart,
        ),
    ]
}

/// A full day's booking and drop that are lent a sheet that is not the day's: zeros, or another day's numbers, which are its own in
/// the reverse order.
pub fn sheet_cases() -> Vec<Case> {
    let fixture = day(Size {
        rounds: 86_400,
        bookings: 255,
        film: 4_096,
    });
    let mut other = fixture.sheet.clone();
    other.opens.reverse();
    other.reserves.reverse();
    other.helds.reverse();
    let with = |sheet| {
        State::new(Fixture {
            sheet,
            ..fixture.clone()
        })
    };
    let zeros = with(Sheet::new(86_400));
    let other = with(other);
    vec![
        case("book, full day, zeros", Call::Book, zeros.clone()),
        case("drop, full day, zeros", Call::Drop, zeros),
        case("book, full day, other numbers", Call::Book, other.clone()),
        case("drop, full day, other numbers", Call::Drop, other),
    ]
}

/// The journal of a day: its bookings, one of them dropped and booked again, then every round played.
fn journal_of(fixture: &Fixture) -> Vec<u64> {
    let standing = &fixture.records[..fixture.day.count as usize];
    let book = |record: &Booking| {
        journal::Call::Book(Request {
            name: record.name,
            film: record.film.into(),
            prefetch: record.prefetch.into(),
            reserve: record.reserve.into(),
            cabs: record.cabs,
            first: record.start.into(),
            last: record.start.into(),
        })
    };
    let mut calls: Vec<journal::Call> = standing.iter().map(book).collect();
    calls.push(journal::Call::Drop(standing[0].name));
    calls.push(book(&standing[0]));
    let rounds = fixture.day.rounds as usize;
    calls.extend(std::iter::repeat_n(journal::Call::Play(256), rounds));
    calls.iter().flat_map(|call| call.words()).collect()
}

/// A replay of a day of that size from its opening to its last round.
pub fn replay_case(size: Size) -> Case {
    let mut fixture = day(size);
    fixture.day.now = 0;
    let mut state = State::new(fixture);
    state.journal = journal_of(&state.fixture);
    let entries = state.journal.len() / journal::ENTRY;
    let lines = size.bookings as usize * (size.film + PREFETCH) as usize;
    state.log = vec![0; journal::ANSWER * entries + journal::LINE * lines];
    let name = format!(
        "{} rounds, {} bookings of {} rounds",
        grouped(size.rounds),
        size.bookings,
        grouped(size.film)
    );
    case(&name, Call::Replay, state)
}

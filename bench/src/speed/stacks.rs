//! The stack that each call takes, on the largest inputs.

use super::cases::{file_cases, replay_case, search_cases};
use super::contest::{once, Call, State};
use crate::days::{day, Size};
use crate::document::{grouped, table};
use crate::fast::Fast;
use crate::scheduler::{Library, Scheduler};
use crate::stack::stack_of;

/// Bytes of stack that a call may take.
const ALLOWED: usize = 256 << 10;

/// The table, and whether the library keeps to what is allowed.
pub fn stacks() -> (String, bool) {
    let full = State::new(day(Size {
        rounds: 86_400,
        bookings: 255,
        film: 4_096,
    }));
    let files = file_cases();
    let of = |call: Call| {
        let same =
            |one: Call, other: Call| std::mem::discriminant(&one) == std::mem::discriminant(&other);
        files
            .iter()
            .find(|case| same(case.call, call))
            .map(|case| (case.call, case.state.clone()))
    };
    let schedule = Call::Schedule {
        film: 0,
        reserve: 0,
    };
    let least = Call::LeastReserve { film: 0, cap: 0 };
    let mut calls = vec![
        ("verdict", of(Call::Verdict)),
        ("schedule", of(schedule)),
        ("least reserve", of(least)),
    ];
    for (name, call) in [
        ("book", Call::Book),
        ("drop", Call::Drop),
        ("play", Call::Play),
    ] {
        calls.push((name, Some((call, full.clone()))));
    }
    let search = search_cases().swap_remove(2);
    calls.push(("book, refused by memory", Some((search.call, search.state))));
    let replay = replay_case(Size {
        rounds: 1_024,
        bookings: 64,
        film: 512,
    });
    calls.push(("replay", Some((replay.call, replay.state))));
    let mut rows = Vec::new();
    let mut all_kept = true;
    for (name, found) in calls {
        let Some((call, state)) = found else { continue };
        let taken = |version: &dyn Scheduler| stack_of(&mut once(version, call, &state));
        let library = taken(&Library);
        let kept = library <= ALLOWED;
        all_kept &= kept;
        rows.push(vec![
            name.to_string(),
            grouped(library as u64),
            if kept { "yes" } else { "no" }.to_string(),
            grouped(taken(&Fast) as u64),
        ]);
    }
    let heads = ["call", "library, bytes", "kept", "fast Rust, bytes"];
    (table(&heads, &rows), all_kept)
}

//! Instructions by `valgrind --tool=callgrind`, which are the same on a busy machine.

use super::cases::{file_cases, schedule_call, Case};
use super::contest::{once, Call, State};
use crate::days::{day, Size};
use crate::document::{grouped, table};
use crate::fast::Fast;
use crate::scheduler::{Library, Scheduler};
use std::env;
use std::process::Command;

/// A count divided by what it grows with: two sizes of an input, and by how much the larger is larger.
struct Growth {
    name: &'static str,
    per: &'static str,
    small: &'static str,
    large: &'static str,
    more: f64,
}

const GROWTHS: [Growth; 7] = [
    Growth {
        name: "verdict",
        per: "size byte",
        small: "verdict-small",
        large: "verdict-large",
        more: 63.0 * 4_096.0 * 4.0,
    },
    Growth {
        name: "schedule",
        per: "round of the film",
        small: "schedule-small",
        large: "schedule-large",
        more: 4_096.0 - 512.0,
    },
    Growth {
        name: "play",
        per: "round of the day",
        small: "play-short-day",
        large: "play-long-day",
        more: 86_400.0 - 8_192.0,
    },
    Growth {
        name: "play",
        per: "round of a booking",
        small: "play-short-films",
        large: "play-long-films",
        more: 64.0 * (4_096.0 - 512.0),
    },
    Growth {
        name: "drop",
        per: "round of a booking",
        small: "drop-short-films",
        large: "drop-long-films",
        more: 64.0 * (4_096.0 - 512.0),
    },
    Growth {
        name: "book",
        per: "round of the day",
        small: "book-short-day",
        large: "book-long-day",
        more: 86_400.0 - 8_192.0,
    },
    Growth {
        name: "book",
        per: "round of a booking",
        small: "book-short-films",
        large: "book-long-films",
        more: 64.0 * (4_096.0 - 512.0),
    },
];

/// The input of a name above. A round of a booking stands with its four bytes in the file: there are as many films as bookings.
fn case(name: &str) -> Option<(Call, State)> {
    let (call, size) = name.split_once('-')?;
    let kind = match call {
        "book" => Call::Book,
        "drop" => Call::Drop,
        "play" => Call::Play,
        _ => return file_case(name),
    };
    let (rounds, film) = match size {
        "short-day" => (8_192, 512),
        "long-day" => (86_400, 512),
        "short-films" => (86_400, 512),
        "long-films" => (86_400, 4_096),
        _ => return None,
    };
    let size = Size {
        rounds,
        bookings: 64,
        film,
    };
    Some((kind, State::new(day(size))))
}

fn file_case(name: &str) -> Option<(Call, State)> {
    let cases = file_cases();
    let place = match name {
        "verdict-large" => 0,
        "verdict-small" => 1,
        "schedule-large" | "schedule-small" => 3,
        _ => return None,
    };
    let Case {
        mut call,
        mut state,
        ..
    } = cases.into_iter().nth(place)?;
    if name == "schedule-small" {
        state.fixture.file = reference::film_file::encode(&crate::days::films(1, 512));
        call = schedule_call(&state.fixture.file);
    }
    Some((call, state))
}

/// Makes the named call of a version: what callgrind runs.
pub fn run_case(version: &str, name: &str) {
    let version: &dyn Scheduler = if version == "library" {
        &Library
    } else {
        &Fast
    };
    let (call, state) = case(name).expect("the case is known");
    once(version, call, &state)();
}

/// The function in which instructions are counted.
fn function(version: &str, name: &str) -> String {
    let call = name.split('-').next().unwrap_or("");
    match (version, call) {
        ("library", call) => format!("playback_{call}"),
        (_, "drop") => "*Fast*drop_booking*".to_string(),
        (_, call) => format!("*bench::fast::Fast*Scheduler*{call}"),
    }
}

/// Instructions of the named call.
fn count(version: &str, name: &str) -> Option<u64> {
    // Callgrind counts every byte that `rep stosb` and `rep movsb` go over, so that the C library is told to do without them.
    let tunables = ["stosb", "movsb"]
        .map(|name| format!("glibc.cpu.x86_rep_{name}_threshold=1000000000"))
        .join(":");
    let output = Command::new("valgrind")
        .env("GLIBC_TUNABLES", tunables)
        .args(["--tool=callgrind", "--callgrind-out-file=/dev/null"])
        .arg(format!("--toggle-collect={}", function(version, name)))
        .arg(env::current_exe().ok()?)
        .args(["instructions", version, name])
        .output()
        .ok()?;
    let text = String::from_utf8_lossy(&output.stderr).into_owned();
    let line = text.lines().find(|line| line.contains("Collected :"))?;
    line.split_whitespace().last()?.parse().ok()
}

pub fn instructions() -> String {
    let mut rows = Vec::new();
    for growth in GROWTHS {
        eprintln!("bench: instructions, {} by {}", growth.name, growth.per);
        let mut row = vec![format!("{}, per {}", growth.name, growth.per)];
        for version in ["library", "fast"] {
            let (small, large) = (count(version, growth.small), count(version, growth.large));
            match (small, large) {
                (Some(small), Some(large)) => {
                    let more = large as f64 - small as f64;
                    row.push(grouped(large));
                    row.push(format!("{:.2}", more / growth.more));
                }
                _ => row.extend(["not counted".to_string(), String::new()]),
            }
        }
        rows.push(row);
    }
    table(
        &[
            "instructions",
            "library, larger input",
            "library, each",
            "fast Rust, larger input",
            "fast Rust, each",
        ],
        &rows,
    )
}

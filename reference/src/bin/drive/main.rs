//! The program `hall` itself against the second implementation: drawn sessions, its input through a pipe in pieces.
//!
//!     drive HALL [SESSIONS] [SEED]
//!
//! 200 sessions and a seed from the clock unless said otherwise; the same seed draws the same sessions. Each runs in a folder
//! of its own with its films.bin. In half of them a piece is sent only when every line before it has been answered, so that
//! a program that holds its answers back fails. Fails at the first difference, where the program's memory grows with its
//! input, and where a refusal was never printed.
#![forbid(unsafe_code)]

mod draw;
mod memory;
mod program;
mod session;

use draw::Sessions;
use std::collections::BTreeSet;
use std::path::{Path, PathBuf};
use std::process::ExitCode;
use std::time::{SystemTime, UNIX_EPOCH};
use std::{env, fs, io, process};

/// Sessions below which not every refusal can be met.
const COVERING: u64 = 200;

/// The refusals that the program can print: no command asks for a least reserve (13), and none makes a list unsound (16).
fn reachable() -> BTreeSet<u64> {
    (1..=25)
        .filter(|number| ![13, 16].contains(number))
        .collect()
}

/// An empty folder that is removed when it is dropped.
struct Folder(PathBuf);

impl Folder {
    fn new(name: &str) -> io::Result<Folder> {
        let folder = env::temp_dir().join(format!("drive-{}-{name}", process::id()));
        fs::create_dir(&folder)?;
        Ok(Folder(folder))
    }
}

impl Drop for Folder {
    fn drop(&mut self) {
        let _ = fs::remove_dir_all(&self.0);
    }
}

/// Runs the sessions, and gives the refusals that were printed.
fn run(hall: &Path, sessions: u64, seed: u64) -> Result<BTreeSet<u64>, String> {
    let mut refusals = BTreeSet::new();
    for (number, session) in (1..=sessions).zip(Sessions::new(seed)) {
        let folder = Folder::new(&number.to_string()).map_err(|error| error.to_string())?;
        let printed = session
            .run(hall, &folder.0)
            .map_err(|fault| format!("session {number} of seed {seed}: {fault}"))?;
        let printed = String::from_utf8_lossy(&printed);
        let numbers = printed.lines().filter_map(|line| line.strip_prefix("NO "));
        refusals.extend(numbers.filter_map(|number| number.parse::<u64>().ok()));
    }
    Ok(refusals)
}

/// All that is tried, and the closing line.
fn drive(name: &str, sessions: u64, seed: u64) -> Result<String, String> {
    let hall = fs::canonicalize(name).map_err(|error| format!("{name}: {error}"))?;
    let refusals = run(&hall, sessions, seed)?;
    let missing: Vec<u64> = reachable().difference(&refusals).copied().collect();
    if sessions >= COVERING && !missing.is_empty() {
        return Err(format!("seed {seed}: never refused {missing:?}"));
    }
    let folder = Folder::new("memory").map_err(|error| error.to_string())?;
    let peak =
        memory::peak(&hall, &folder.0).map_err(|fault| format!("64 MB of input: {fault}"))?;
    Ok(format!(
        "{sessions} sessions of {name}: as the second implementation; {peak} KiB at most after 64 MB of input"
    ))
}

fn main() -> ExitCode {
    let arguments: Vec<String> = env::args().skip(1).collect();
    let number = |index: usize, otherwise: u64| match arguments.get(index) {
        Some(text) => text.parse().ok(),
        None => Some(otherwise),
    };
    let now = SystemTime::now().duration_since(UNIX_EPOCH);
    let clock = now.map_or(1, |time| time.as_secs());
    let (Some(hall), Some(sessions), Some(seed @ 1..), ..=3) = (
        arguments.first(),
        number(1, COVERING),
        number(2, clock),
        arguments.len(),
    ) else {
        eprintln!("usage: drive HALL [SESSIONS] [SEED], a seed other than 0");
        return ExitCode::FAILURE;
    };
    match drive(hall, sessions, seed) {
        Ok(line) => {
            println!("{line}");
            ExitCode::SUCCESS
        }
        Err(fault) => {
            eprintln!("{hall}: {fault}");
            ExitCode::FAILURE
        }
    }
}

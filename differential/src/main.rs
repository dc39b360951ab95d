//! The library against the second implementation: drawn calls, every result and every lent place compared.
//!
//!     differential [CALLS] [SEED]
//!
//! 10,000 calls and a seed from the clock unless said otherwise; the same seed draws the same calls. Every call runs on a
//! thread with a stack of 256 KiB. Fails at the first difference, and where a refusal of a function was never reached.

mod broken;
mod calls;
mod case;
mod compare;
mod days;
mod draw;
mod films;
mod journals;
mod nulls;
mod stack;
mod standing;
mod tally;

use compare::{Compared, Harness};
use days::Turns;
use draw::Scale;
use reference::cases::random::Random;
use reference::film_file::{encode, Film};
use std::env;
use std::process::ExitCode;
use std::time::{Instant, SystemTime, UNIX_EPOCH};

/// Calls below which not every refusal can be met.
const COVERING: u64 = 1_000;

/// What is drawn, with its share of the calls in a hundred.
#[derive(Clone, Copy, Debug)]
enum Family {
    Reader,
    Schedules,
    SmallDays,
    FullDays,
    SmallJournals,
    FullJournals,
}

const FAMILIES: [(Family, u64); 6] = [
    (Family::Reader, 20),
    (Family::Schedules, 15),
    (Family::SmallDays, 25),
    (Family::FullDays, 30),
    (Family::SmallJournals, 9),
    (Family::FullJournals, 1),
];

/// Draws calls until there are so many.
fn draw(harness: &mut Harness, random: &mut Random, calls: u64) -> Compared {
    let mut done = [0; FAMILIES.len()];
    let mut turn = [0; FAMILIES.len()];
    let mut turns = Turns::default();
    while harness.calls < calls {
        // The family that is furthest behind its share.
        let behind = |index: &usize| (100 * done[*index] + 100) / FAMILIES[*index].1;
        let index = (0..FAMILIES.len()).min_by_key(behind).expect("a family");
        let before = harness.calls;
        let this = turn[index];
        turn[index] += 1;
        match FAMILIES[index].0 {
            Family::Reader => films::reader_calls(harness, random, this)?,
            Family::Schedules => films::schedule_calls(harness, random, this)?,
            Family::SmallDays => {
                let scale = Scale::small(random);
                days::calls(harness, random, &mut turns, scale, 24)?;
            }
            Family::FullDays => {
                let scale = Scale::full(random);
                days::calls(harness, random, &mut turns, scale, 12)?;
            }
            Family::SmallJournals => {
                let scale = Scale::small(random);
                journals::call(harness, random, scale, this)?;
            }
            Family::FullJournals => {
                let scale = Scale {
                    bookings: 40,
                    ..Scale::full(random)
                };
                journals::call(harness, random, scale, this)?;
            }
        }
        done[index] += harness.calls - before;
    }
    Ok(())
}

/// NULL with length 0, in every combination of lists.
fn absent_lists(harness: &mut Harness) -> Compared<u64> {
    let film = Film {
        number: 1,
        sizes: vec![8, 8, 8, 2, 6, 4],
    };
    let file = encode(&[film]);
    harness.on_stack(|| nulls::calls(&file))
}

fn arguments() -> Option<(u64, u64)> {
    let mut words = env::args().skip(1).filter(|word| !word.is_empty());
    let calls = match words.next() {
        Some(word) => word.parse().ok()?,
        None => 10_000,
    };
    let seed = match words.next() {
        Some(word) => word.parse().ok()?,
        None => SystemTime::now()
            .duration_since(UNIX_EPOCH)
            .ok()?
            .as_millis() as u64,
    };
    words.next().is_none().then_some((calls, seed.max(1)))
}

fn main() -> ExitCode {
    let Some((calls, seed)) = arguments() else {
        eprintln!("differential [CALLS] [SEED]");
        return ExitCode::from(2);
    };
    println!("{calls} drawn calls, seed {seed}");
    let begin = Instant::now();
    let mut harness = Harness::new();
    let mut random = Random::new(seed);
    if let Err(difference) = draw(&mut harness, &mut random, calls) {
        println!("call {} of seed {seed}: {}", harness.calls, difference.0);
        return ExitCode::FAILURE;
    }
    let nulls = match absent_lists(&mut harness) {
        Ok(nulls) => nulls,
        Err(difference) => {
            println!("NULL lists: {}", difference.0);
            return ExitCode::FAILURE;
        }
    };
    harness.tally.print();
    let deepest = harness.tally.deepest();
    println!(
        "of {} bytes of stack the deepest call used {}, its thread {} before it",
        stack::STACK,
        deepest.call,
        deepest.thread
    );
    println!(
        "{} drawn calls and {nulls} with NULL lists agree in every result and every lent place, in {:.1} s",
        harness.calls,
        begin.elapsed().as_secs_f64()
    );
    let never = harness.tally.never_reached();
    if calls >= COVERING && !never.is_empty() {
        println!("never reached: {}", never.join(", "));
        return ExitCode::FAILURE;
    }
    ExitCode::SUCCESS
}

//! What was called and what it answered.

use crate::stack::Used;
use playback::lent::Reply;
use playback::limits::{MAX_BOOKINGS, MAX_DAY};
use std::time::Duration;

/// A function of the library; the entries of the replayed journals count as one more.
#[derive(Clone, Copy, Debug, PartialEq, Eq)]
pub enum Function {
    Verdict,
    Film,
    Summary,
    RoundSize,
    Schedule,
    LeastReserve,
    Open,
    Book,
    Drop,
    Play,
    Replay,
    Entry,
}

/// Each with its name and the refusals that it can give, in the order of its questions.
const FUNCTIONS: [(Function, &str, &[u32]); 12] = [
    (Function::Verdict, "verdict", &[1, 2, 3, 4, 5, 6, 7]),
    (Function::Film, "film", &[1, 2, 3, 4, 5, 6, 7]),
    (Function::Summary, "summary", &[1, 2, 3, 4, 5, 6, 7, 8]),
    (Function::RoundSize, "round_size", &[1, 2, 3, 4, 5, 6, 7, 8]),
    (
        Function::Schedule,
        "schedule",
        &[1, 2, 3, 4, 5, 6, 7, 8, 9, 10, 11, 12],
    ),
    (
        Function::LeastReserve,
        "least_reserve",
        &[1, 2, 3, 4, 5, 6, 7, 8, 9, 13],
    ),
    (Function::Open, "open", &[14, 15, 11]),
    (
        Function::Book,
        "book",
        &[
            1, 2, 3, 4, 5, 6, 7, 14, 15, 11, 16, 18, 8, 9, 10, 20, 12, 21, 17, 22,
        ],
    ),
    (
        Function::Drop,
        "drop",
        &[1, 2, 3, 4, 5, 6, 7, 14, 15, 11, 16, 19],
    ),
    (
        Function::Play,
        "play",
        &[1, 2, 3, 4, 5, 6, 7, 14, 15, 16, 23, 11],
    ),
    (Function::Replay, "replay", &[14, 15, 11]),
    (
        Function::Entry,
        "(its entries)",
        &[
            24, 1, 2, 3, 4, 5, 6, 7, 18, 8, 9, 10, 20, 12, 21, 17, 22, 19, 23, 11,
        ],
    ),
];

impl Function {
    /// The refusals that it can give, in the order of its questions.
    pub fn refusals(self) -> &'static [u32] {
        FUNCTIONS[self as usize].2
    }

    pub fn name(self) -> &'static str {
        FUNCTIONS[self as usize].1
    }
}

/// Of one function: how often each number was answered, time, and the deepest call.
#[derive(Clone, Copy, Debug, Default)]
struct Counts {
    answers: [u64; 26],
    library: Duration,
    reference: Duration,
    stack: Used,
}

/// How far the drawn days went.
#[derive(Clone, Copy, Debug, Default)]
struct Reach {
    longest_days: u64,
    full_lists: u64,
    accepted_there: u64,
    films: u64,
    cabs: u64,
    file: usize,
}

#[derive(Clone, Debug, Default)]
pub struct Tally {
    functions: [Counts; 12],
    reach: Reach,
}

impl Tally {
    /// One more answer, 0 or a refusal.
    pub fn answer(&mut self, function: Function, number: u32) {
        self.functions[function as usize].answers[number as usize] += 1;
    }

    /// The day after a call, what was played, and the bytes of the film file.
    pub fn reach(&mut self, reply: &Reply, file: usize) {
        let longest = reply.day.rounds == MAX_DAY;
        let full = reply.day.count == MAX_BOOKINGS as u64;
        let reach = &mut self.reach;
        reach.longest_days += u64::from(longest);
        reach.full_lists += u64::from(full);
        reach.accepted_there += u64::from(longest && full && reply.refusal == 0);
        reach.films = reach.films.max(reply.films);
        reach.cabs = reach.cabs.max(reply.cabs);
        reach.file = reach.file.max(file);
    }

    /// What a call took.
    pub fn cost(
        &mut self,
        function: Function,
        library: Duration,
        reference: Duration,
        stack: Used,
    ) {
        let counts = &mut self.functions[function as usize];
        counts.library += library;
        counts.reference += reference;
        if stack.call >= counts.stack.call {
            counts.stack = stack;
        }
    }

    /// The functions with the numbers that they never answered.
    pub fn never_reached(&self) -> Vec<String> {
        let mut missing = Vec::new();
        for (function, name, refusals) in FUNCTIONS {
            let answers = &self.functions[function as usize].answers;
            for &number in [0].iter().chain(refusals) {
                if answers[number as usize] == 0 {
                    missing.push(format!("{name} {number}"));
                }
            }
        }
        missing
    }

    /// What the deepest call used of the stack.
    pub fn deepest(&self) -> Used {
        let used = self.functions.iter().map(|counts| counts.stack);
        used.max_by_key(|used| used.call).unwrap_or_default()
    }

    pub fn print(&self) {
        println!(
            "{:<14}{:>8}{:>11}{:>11}{:>9}  answers (number:times, 0 accepted)",
            "function", "calls", "library ms", "second ms", "stack B"
        );
        for (function, name, refusals) in FUNCTIONS {
            let counts = &self.functions[function as usize];
            let calls: u64 = counts.answers.iter().sum();
            print!("{name:<14}{calls:>8}");
            if function == Function::Entry {
                print!("{:>31} ", "");
            } else {
                let (library, reference) = (counts.library, counts.reference);
                print!(
                    "{:>11}{:>11}{:>9} ",
                    library.as_millis(),
                    reference.as_millis(),
                    counts.stack.call
                );
            }
            for &number in [0].iter().chain(refusals) {
                print!(" {number}:{}", counts.answers[number as usize]);
            }
            println!();
        }
        let reach = &self.reach;
        println!(
            "calls on days of {MAX_DAY} rounds: {}; with {MAX_BOOKINGS} bookings: {}; accepted with both: {}",
            reach.longest_days, reach.full_lists, reach.accepted_there
        );
        println!(
            "most in a played round: {} films, {} cabs; largest film file: {} bytes",
            reach.films, reach.cabs, reach.file
        );
    }
}

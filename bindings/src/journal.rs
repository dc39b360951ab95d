//! Journals: a day's calls as a list of 64-bit words, and the log of their answers.
//!
//! An entry of a journal has [`ENTRY`] words. The first is its kind:
//!
//! | kind | words after it |
//! |---|---|
//! | 1, a booking | name, film, pre-fetch rounds, reserve, cabs, first start, last start |
//! | 2, a drop | name; six more that are not looked at |
//! | 3, a played round | the length of the report; six more that are not looked at |
//!
//! An entry of another kind, or with a name of 2³² or more, is no call: it is answered 24 and changes nothing. Words after the
//! last whole entry are not looked at.
//!
//! The log has three words for each entry: 0 and the answer's two values (a booking's start and 0; of a drop 0 and 0; of a
//! played round the films open and the cabs served), or the refusal and two zeros. After those of a played round come four
//! words for each film open: name, read, send, held. A replay stops before the first entry whose words the log does not take.
//!
//! ```
//! use playback::journal::{Answer, Call};
//! use playback::{Desk, FilmFile, Limits, Refusal, Request};
//!
//! # let bytes = [
//! #     1, 0, 1, 0, 6, 0, 6, 0, 0, 0, 8, 0, 0, 0, 8, 0, 0, 0, 8, 0, 0, 0, 2, 0, 0, 0, 6, 0, 0, 0, 4, 0, 0, 0,
//! # ];
//! let films = FilmFile::new(&bytes)?;
//! let request = Request { name: 1, film: 1, prefetch: 1, reserve: 6, cabs: 1, first: 0, last: 0 };
//! let calls = [Call::Book(request), Call::Book(request), Call::Play(256)];
//! let journal: Vec<u64> = calls.iter().flat_map(|call| call.words()).collect();
//! let limits = Limits { rounds: 20, disk: 141_433, memory: 18 };
//! let (desk, answers) = Desk::replay(films, limits, &journal)?;
//! assert_eq!(answers[0], Answer::Booked { start: 0 });
//! assert_eq!(answers[1], Answer::Refused(Refusal::NameTaken));
//! assert!(matches!(answers[2], Answer::Played { cabs: 0, .. }));
//! assert_eq!((desk.day().now, desk.bookings().len()), (1, 1));
//! # Ok::<(), Refusal>(())
//! ```

use crate::data::{Line, Request};
use crate::refusal::Refusal;

/// Words of an entry.
pub const ENTRY: usize = 8;
/// The kind of a booking.
pub const BOOK: u64 = 1;
/// The kind of a drop.
pub const DROP: u64 = 2;
/// The kind of a played round.
pub const PLAY: u64 = 3;
/// Words of the log for an entry.
pub const ANSWER: usize = 3;
/// Words of the log for a line of a played round.
pub const LINE: usize = 4;

/// A call on an open day.
#[derive(Clone, Copy, Debug, PartialEq, Eq)]
pub enum Call {
    /// A booking.
    Book(Request),
    /// A drop of the booking of that name.
    Drop(u32),
    /// A played round with a report of that many lines.
    Play(u64),
}

/// What an entry answered.
#[derive(Clone, Debug, PartialEq, Eq)]
pub enum Answer {
    Refused(Refusal),
    Booked { start: u64 },
    Dropped,
    Played { lines: Vec<Line>, cabs: u64 },
}

impl Call {
    /// The call as an entry of a journal.
    pub fn words(&self) -> [u64; ENTRY] {
        match *self {
            Call::Book(request) => [
                BOOK,
                u64::from(request.name),
                request.film,
                request.prefetch,
                request.reserve,
                request.cabs,
                request.first,
                request.last,
            ],
            Call::Drop(name) => [DROP, u64::from(name), 0, 0, 0, 0, 0, 0],
            Call::Play(report) => [PLAY, report, 0, 0, 0, 0, 0, 0],
        }
    }
}

/// How many whole entries a journal has.
pub fn entry_count(journal: &[u64]) -> u64 {
    (journal.len() / ENTRY) as u64
}

/// Words of a log that takes the answers and some lines a round.
pub(crate) fn first_log_length(journal: &[u64]) -> usize {
    ANSWER + (ANSWER + 8 * LINE) * (journal.len() / ENTRY)
}

/// The answers of a log, entry by entry, as far as it has whole ones.
pub fn answers(journal: &[u64], log: &[u64]) -> Vec<Answer> {
    let mut answers = Vec::new();
    let mut rest = log;
    for entry in journal.chunks_exact(ENTRY) {
        let Some((&[number, first, second], after)) = rest.split_first_chunk::<ANSWER>() else {
            break;
        };
        rest = after;
        let number = u32::try_from(number).unwrap_or(u32::MAX);
        let answer = match (number, entry[0]) {
            (0, BOOK) => Answer::Booked { start: first },
            (0, DROP) => Answer::Dropped,
            (0, _) => {
                let words = usize::try_from(first)
                    .ok()
                    .and_then(|films| films.checked_mul(LINE));
                let Some((lines, after)) = words.and_then(|words| rest.split_at_checked(words))
                else {
                    break;
                };
                rest = after;
                Answer::Played {
                    lines: lines.chunks_exact(LINE).map(line).collect(),
                    cabs: second,
                }
            }
            _ => match Refusal::from_number(number) {
                Some(refusal) => Answer::Refused(refusal),
                None => break,
            },
        };
        answers.push(answer);
    }
    answers
}

fn line(words: &[u64]) -> Line {
    Line {
        name: words[0] as u32,
        read: words[1],
        send: words[2],
        held: words[3],
    }
}

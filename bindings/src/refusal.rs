//! The numbered refusals.

use std::error::Error;
use std::fmt;

/// The first question of a call that was answered "no". Its number is document 01's.
///
/// ```
/// use playback::Refusal;
///
/// assert_eq!(Refusal::NoStart.number(), 22);
/// assert_eq!(Refusal::from_number(22), Some(Refusal::NoStart));
/// assert_eq!(Refusal::NoStart.to_string(), "22: no start in the window fits");
/// ```
#[derive(Clone, Copy, Debug, PartialEq, Eq, PartialOrd, Ord, Hash)]
#[non_exhaustive]
#[repr(u32)]
pub enum Refusal {
    /// Are the bytes of this part of the film file there?
    Truncated = 1,
    /// Is the number of films 1 to 64?
    FilmCount = 2,
    /// Does the film's number exceed the one before?
    FilmOrder = 3,
    /// Is the film's round count 1 to 4,096?
    RoundCount = 4,
    /// Is the count of sizes the sum of the round counts?
    SizeCount = 5,
    /// Is every size at most 16,777,215?
    SizeBound = 6,
    /// Does the file end after the last size?
    Trailing = 7,
    /// Is the film in the file?
    NoFilm = 8,
    /// Are the pre-fetch rounds at most 256?
    Prefetch = 9,
    /// Is the reserve at most 16,777,215?
    Reserve = 10,
    /// Does the lent list take what is to be written?
    NoRoom = 11,
    /// Does a schedule exist?
    NoSchedule = 12,
    /// Is the cap at least the film's largest size?
    Cap = 13,
    /// Are the day's rounds 1 to 86,400, and its current round at most that?
    DayRounds = 14,
    /// Is the disk limit at most 4,294,967,295 and the memory limit at most 1,099,511,627,776?
    DayLimits = 15,
    /// Is the list of bookings sound?
    Unsound = 16,
    /// Is there a place below both 256 and the list's length?
    ListFull = 17,
    /// Is the name new?
    NameTaken = 18,
    /// Is the name in the list?
    NoName = 19,
    /// Is some cab named?
    NoCab = 20,
    /// Is now ≤ first ≤ last, and does a film that starts in the last round end in the day?
    Window = 21,
    /// Does a start in the window fit?
    NoStart = 22,
    /// Is the current round below the day's rounds?
    DayOver = 23,
    /// Is the journal's entry (in the program `hall`: the line) a call?
    Command = 24,
    /// Is the program's film file at most 65,536 bytes? No call of the library asks it.
    FileSize = 25,
}

/// Every refusal with what it says, in the order of the numbers.
const MEANINGS: [(Refusal, &str); 25] = [
    (
        Refusal::Truncated,
        "the film file ends before one of its parts",
    ),
    (Refusal::FilmCount, "the number of films is not 1 to 64"),
    (
        Refusal::FilmOrder,
        "a film's number does not exceed the one before",
    ),
    (
        Refusal::RoundCount,
        "a film's round count is not 1 to 4,096",
    ),
    (
        Refusal::SizeCount,
        "the count of sizes is not the sum of the round counts",
    ),
    (Refusal::SizeBound, "a size exceeds 16,777,215 bytes"),
    (Refusal::Trailing, "bytes follow the last size"),
    (Refusal::NoFilm, "the film is not in the file"),
    (Refusal::Prefetch, "the pre-fetch rounds exceed 256"),
    (Refusal::Reserve, "the reserve exceeds 16,777,215 bytes"),
    (Refusal::NoRoom, "a lent list is too short"),
    (Refusal::NoSchedule, "no schedule exists"),
    (Refusal::Cap, "the cap is below the film's largest size"),
    (
        Refusal::DayRounds,
        "the day's rounds are not 1 to 86,400, or its current round is past them",
    ),
    (Refusal::DayLimits, "the disk or memory limit is too large"),
    (Refusal::Unsound, "the list of bookings is not sound"),
    (Refusal::ListFull, "the list of bookings has no place left"),
    (Refusal::NameTaken, "the name is taken"),
    (Refusal::NoName, "the name is not in the list"),
    (Refusal::NoCab, "no cab is named"),
    (Refusal::Window, "the window does not lie in the day"),
    (Refusal::NoStart, "no start in the window fits"),
    (Refusal::DayOver, "the day is over"),
    (Refusal::Command, "not a call"),
    (
        Refusal::FileSize,
        "the program's film file exceeds 65,536 bytes",
    ),
];

impl Refusal {
    /// Document 01's number.
    pub fn number(self) -> u32 {
        self as u32
    }

    /// The refusal of a number, 1 to 25.
    pub fn from_number(number: u32) -> Option<Refusal> {
        let place = usize::try_from(number).ok()?.checked_sub(1)?;
        MEANINGS.get(place).map(|&(refusal, _)| refusal)
    }

    /// What it says, in a few words.
    pub fn meaning(self) -> &'static str {
        MEANINGS[self as usize - 1].1
    }

    /// The answer's number as a result: 0 is accepted.
    pub(crate) fn check(number: u32) -> Result<(), Refusal> {
        match number {
            0 => Ok(()),
            _ => Err(Refusal::from_number(number).expect("the linked archive is of this version")),
        }
    }
}

impl fmt::Display for Refusal {
    fn fmt(&self, f: &mut fmt::Formatter<'_>) -> fmt::Result {
        write!(f, "{}: {}", self.number(), self.meaning())
    }
}

impl Error for Refusal {}

#[cfg(test)]
mod tests {
    use super::*;

    #[test]
    fn each_number_is_its_own_refusal() {
        for (place, (refusal, _)) in MEANINGS.iter().enumerate() {
            assert_eq!(refusal.number() as usize, place + 1);
            assert_eq!(Refusal::from_number(refusal.number()), Some(*refusal));
        }
        assert_eq!(Refusal::from_number(0), None);
        assert_eq!(Refusal::from_number(26), None);
        assert_eq!(Refusal::from_number(u32::MAX), None);
    }
}

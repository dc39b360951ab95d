//! The numbered refusals.

/// A refusal: the number of the first question answered "no".
#[derive(Clone, Copy, Debug, PartialEq, Eq, PartialOrd, Ord)]
pub enum Refusal {
    /// Are the bytes there?
    Truncated = 1,
    /// Is F 1 to 64?
    FilmCount = 2,
    /// Does the film's number exceed the one before?
    FilmOrder = 3,
    /// Is n 1 to 4,096?
    RoundCount = 4,
    /// Is the second count the sum of the n?
    SizeCount = 5,
    /// Is every size at most 16,777,215?
    SizeTooLarge = 6,
    /// Does the file end?
    TrailingBytes = 7,
    /// Is the film in the file?
    UnknownFilm = 8,
    /// Is p at most 256?
    PrefetchTooLong = 9,
    /// Is b at most 16,777,215?
    ReserveTooLarge = 10,
    /// Does the lent list take the answer?
    ListTooShort = 11,
    /// Does a schedule exist?
    NoSchedule = 12,
    /// Is the cap at least the film's largest size?
    CapTooSmall = 13,
    /// Is T in range and `now` at most T?
    DayOutOfRange = 14,
    /// Are D and M in range?
    LimitTooLarge = 15,
    /// Is the list of bookings sound?
    UnsoundList = 16,
    /// Is there a place below both 256 and the list's length?
    NoPlace = 17,
    /// Is the name new?
    NameTaken = 18,
    /// Is the name in the list?
    UnknownName = 19,
    /// Is some cab named?
    NoCab = 20,
    /// Is now ≤ first ≤ last and last+p+n ≤ T?
    WindowOutOfRange = 21,
    /// Does a start in the window fit?
    NoFit = 22,
    /// Is `now` below T?
    DayOver = 23,
    /// Is the line a command?
    NotACommand = 24,
    /// Is the program's film file at most 65,536 bytes?
    FileTooLong = 25,
}

impl Refusal {
    /// The paper's number.
    pub fn number(self) -> u64 {
        self as u64
    }
}

/// A question: "no" refuses with the given number.
pub fn ask(holds: bool, otherwise: Refusal) -> Result<(), Refusal> {
    if holds {
        Ok(())
    } else {
        Err(otherwise)
    }
}

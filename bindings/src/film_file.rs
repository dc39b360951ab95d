//! Film files.

use crate::lent;
use crate::limits::{MAX_PREFETCH, MAX_ROUNDS};
use crate::refusal::Refusal;

/// An accepted film file. It borrows the bytes.
///
/// ```
/// use playback::{FilmFile, Refusal};
///
/// // Film 1 of document 01: sizes 8, 8, 8, 2, 6, 4.
/// let bytes = [
///     1, 0, 1, 0, 6, 0, 6, 0, 0, 0, 8, 0, 0, 0, 8, 0, 0, 0, 8, 0, 0, 0, 2, 0, 0, 0, 6, 0, 0, 0, 4, 0, 0, 0,
/// ];
/// let films = FilmFile::new(&bytes)?;
/// let entry = films.entries().next().unwrap();
/// assert_eq!((entry.number, entry.rounds), (1, 6));
/// assert_eq!(films.summary(1)?.total, 36);
/// assert_eq!(films.round_size(1, 3)?, Some(2));
/// assert_eq!(films.schedule(1, 1, 6)?, [6, 12, 18, 24, 26, 32, 36]);
/// assert_eq!(films.schedule(1, 1, 5), Err(Refusal::NoSchedule));
/// assert_eq!(films.least_reserve(1, 1, 11)?, 7);
/// assert_eq!(FilmFile::new(&bytes[1..]), Err(Refusal::FilmCount));
/// # Ok::<(), Refusal>(())
/// ```
#[derive(Clone, Copy, Debug, PartialEq, Eq)]
pub struct FilmFile<'a> {
    bytes: &'a [u8],
}

/// An entry of a film file: a film's number and how many rounds it sends in.
#[derive(Clone, Copy, Debug, PartialEq, Eq)]
pub struct Entry {
    /// The film's number.
    pub number: u16,
    /// Its number of rounds.
    pub rounds: u16,
}

/// A film's sizes in short, in bytes.
#[derive(Clone, Copy, Debug, PartialEq, Eq)]
pub struct Summary {
    /// The sum of its sizes.
    pub total: u64,
    /// Its largest size.
    pub largest: u64,
    /// The sum divided by the number of rounds, rounded down.
    pub mean: u64,
}

impl<'a> FilmFile<'a> {
    /// The file, if it has the layout; refusals 1 to 7.
    pub fn new(bytes: &'a [u8]) -> Result<FilmFile<'a>, Refusal> {
        Refusal::check(lent::verdict(bytes))?;
        Ok(FilmFile { bytes })
    }

    /// The bytes of the file.
    pub fn bytes(&self) -> &'a [u8] {
        self.bytes
    }

    /// Its films in order. Each step asks the file's questions anew.
    pub fn entries(&self) -> Entries<'a> {
        Entries {
            file: *self,
            position: 0,
        }
    }

    /// A film's summary; refusal 8.
    pub fn summary(&self, film: u64) -> Result<Summary, Refusal> {
        let figures = lent::summary(self.bytes, film);
        Refusal::check(figures.refusal)?;
        Ok(Summary {
            total: figures.total,
            largest: figures.largest,
            mean: figures.mean,
        })
    }

    /// The bytes that a film sends in a round of its own, from 0, if it has that round; refusal 8.
    pub fn round_size(&self, film: u64, round: u64) -> Result<Option<u64>, Refusal> {
        let size = lent::round_size(self.bytes, film, round);
        Refusal::check(size.refusal)?;
        Ok((size.exists == 1).then_some(size.bytes))
    }

    /// A film's just-in-time schedule with pre-fetch rounds and a reserve in bytes per round: the bytes read by the end of each
    /// round from its start; refusals 8, 9, 10, 12.
    pub fn schedule(&self, film: u64, prefetch: u64, reserve: u64) -> Result<Vec<u64>, Refusal> {
        let mut totals = vec![0; MAX_PREFETCH as usize + MAX_ROUNDS];
        let answer = lent::schedule(self.bytes, film, prefetch, reserve, &mut totals);
        Refusal::check(answer)?;
        let entry = self.entries().find(|entry| u64::from(entry.number) == film);
        let rounds = usize::from(entry.expect("a film of an accepted schedule").rounds);
        totals.truncate(prefetch as usize + rounds);
        Ok(totals)
    }

    /// The smallest reserve, in bytes per round, with a schedule that never holds more than `cap` bytes; refusals 8, 9, 13.
    pub fn least_reserve(&self, film: u64, prefetch: u64, cap: u64) -> Result<u64, Refusal> {
        let answer = lent::least_reserve(self.bytes, film, prefetch, cap);
        Refusal::check(answer.refusal)?;
        Ok(answer.bytes)
    }
}

/// The films of a file in order.
#[derive(Clone, Debug)]
pub struct Entries<'a> {
    file: FilmFile<'a>,
    position: u64,
}

impl Iterator for Entries<'_> {
    type Item = Entry;

    fn next(&mut self) -> Option<Entry> {
        let film = lent::film(self.file.bytes, self.position);
        if film.more == 0 {
            return None;
        }
        self.position += 1;
        Some(Entry {
            number: film.number as u16,
            rounds: film.rounds as u16,
        })
    }
}

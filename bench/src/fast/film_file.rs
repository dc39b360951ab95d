//! The film file: one pass over its bytes, then films are looked up in a table.

use playback::limits::{MAX_FILMS, MAX_ROUNDS};
use playback::Refusal;

/// A size as it stands in the file.
pub type Stored = [u8; 4];

/// A film's sizes, where they stand in the file.
#[derive(Clone, Copy, Default)]
pub struct Film<'a> {
    pub number: u16,
    pub sizes: &'a [Stored],
}

/// The films of an accepted file, by number.
pub struct Catalogue<'a> {
    films: [Film<'a>; MAX_FILMS],
    count: usize,
}

pub fn bytes(size: Stored) -> u64 {
    u64::from(u32::from_le_bytes(size))
}

fn word(bytes: &[u8], at: usize) -> u16 {
    u16::from_le_bytes([bytes[at], bytes[at + 1]])
}

impl<'a> Catalogue<'a> {
    /// The file's questions: 1 to 7.
    pub fn read(file: &'a [u8]) -> Result<Catalogue<'a>, Refusal> {
        let count = file.get(..2).map(|bytes| usize::from(word(bytes, 0)));
        let count = count.ok_or(Refusal::Truncated)?;
        if count == 0 || count > MAX_FILMS {
            return Err(Refusal::FilmCount);
        }
        let entries = file.get(2..2 + 4 * count).ok_or(Refusal::Truncated)?;
        let mut rounds = 0;
        let mut least = 0;
        for entry in entries.chunks_exact(4) {
            let number = u32::from(word(entry, 0));
            if number < least {
                return Err(Refusal::FilmOrder);
            }
            least = number + 1;
            let length = usize::from(word(entry, 2));
            if length == 0 || length > MAX_ROUNDS {
                return Err(Refusal::RoundCount);
            }
            rounds += length;
        }
        let rest = &file[2 + 4 * count..];
        let (total, rest) = rest.split_first_chunk().ok_or(Refusal::Truncated)?;
        if u32::from_le_bytes(*total) as usize != rounds {
            return Err(Refusal::SizeCount);
        }
        let (sizes, after) = rest
            .split_at_checked(4 * rounds)
            .ok_or(Refusal::Truncated)?;
        let (mut sizes, _) = sizes.as_chunks::<4>();
        // A size is at most 2^24 - 1 exactly if its top byte is 0.
        let joined = sizes
            .iter()
            .fold(0, |joined, &size| joined | u32::from_le_bytes(size));
        if joined >> 24 != 0 {
            return Err(Refusal::SizeBound);
        }
        if !after.is_empty() {
            return Err(Refusal::Trailing);
        }
        let mut films = [Film::default(); MAX_FILMS];
        for (film, entry) in films.iter_mut().zip(entries.chunks_exact(4)) {
            let (own, later) = sizes.split_at(usize::from(word(entry, 2)));
            *film = Film {
                number: word(entry, 0),
                sizes: own,
            };
            sizes = later;
        }
        Ok(Catalogue { films, count })
    }

    /// The place of the film of that number, and its sizes.
    pub fn find(&self, number: u64) -> Option<(usize, &'a [Stored])> {
        let films = &self.films[..self.count];
        let place = films.partition_point(|film| u64::from(film.number) < number);
        let film = films.get(place)?;
        (u64::from(film.number) == number).then_some((place, film.sizes))
    }
}

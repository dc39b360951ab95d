//! The film file: its questions, its films, the reader and the summary.

use crate::bounds::{MAX_FILMS, MAX_FILM_ROUNDS, MAX_SIZE};
use crate::refusal::{ask, Refusal};

/// Bytes before the first entry: the 16-bit count F.
const ENTRIES: usize = 2;
/// Bytes of an entry: a 16-bit film number and a 16-bit round count.
const ENTRY: usize = 4;
/// Bytes of the 32-bit count S.
const SIZE_COUNT: usize = 4;
/// Bytes of a size.
const SIZE: usize = 4;

/// A film: its number and the bytes that it sends in each round.
#[derive(Clone, Debug, PartialEq, Eq)]
pub struct Film {
    pub number: u16,
    pub sizes: Vec<u32>,
}

/// What the reader gives for a film.
#[derive(Clone, Copy, Debug, PartialEq, Eq)]
pub struct Entry {
    pub number: u16,
    pub rounds: u16,
}

/// "Film summary: total bytes, largest size, and the mean total/n rounded down."
#[derive(Clone, Copy, Debug, PartialEq, Eq)]
pub struct Summary {
    pub total: u64,
    pub largest: u64,
    pub mean: u64,
}

fn u16_at(file: &[u8], position: usize) -> u16 {
    u16::from_le_bytes([file[position], file[position + 1]])
}

fn u32_at(file: &[u8], position: usize) -> u32 {
    u32::from_le_bytes([
        file[position],
        file[position + 1],
        file[position + 2],
        file[position + 3],
    ])
}

/// Entry `index` of a file that has it.
fn entry_at(file: &[u8], index: usize) -> Entry {
    Entry {
        number: u16_at(file, ENTRIES + ENTRY * index),
        rounds: u16_at(file, ENTRIES + ENTRY * index + 2),
    }
}

/// The file's questions in the paper's order.
pub fn verdict(file: &[u8]) -> Result<(), Refusal> {
    // Are 2 bytes there?
    ask(file.len() >= ENTRIES, Refusal::Truncated)?;
    // Is F 1 to 64?
    let films = usize::from(u16_at(file, 0));
    ask((1..=MAX_FILMS).contains(&films), Refusal::FilmCount)?;
    // Are the entries there?
    let size_count = ENTRIES + ENTRY * films;
    ask(file.len() >= size_count, Refusal::Truncated)?;
    // For each entry in order: does its number exceed the one before? Is n 1 to 4,096?
    for index in 0..films {
        let entry = entry_at(file, index);
        let rises = index == 0 || entry.number > entry_at(file, index - 1).number;
        ask(rises, Refusal::FilmOrder)?;
        let rounds = usize::from(entry.rounds);
        ask((1..=MAX_FILM_ROUNDS).contains(&rounds), Refusal::RoundCount)?;
    }
    // Then: is the second count there?
    let sizes = size_count + SIZE_COUNT;
    ask(file.len() >= sizes, Refusal::Truncated)?;
    // Is it the sum of the n?
    let rounds: usize = (0..films)
        .map(|index| usize::from(entry_at(file, index).rounds))
        .sum();
    let count = u32_at(file, size_count) as usize;
    ask(count == rounds, Refusal::SizeCount)?;
    // Are the sizes there?
    let end = sizes + SIZE * count;
    ask(file.len() >= end, Refusal::Truncated)?;
    // Is every size at most 16,777,215?
    let in_range = (0..count).all(|index| u32_at(file, sizes + SIZE * index) <= MAX_SIZE);
    ask(in_range, Refusal::SizeTooLarge)?;
    // Does the file end?
    ask(file.len() == end, Refusal::TrailingBytes)
}

/// The films of an accepted file, or its refusal.
pub fn decode(file: &[u8]) -> Result<Vec<Film>, Refusal> {
    verdict(file)?;
    let count = usize::from(u16_at(file, 0));
    let mut position = ENTRIES + ENTRY * count + SIZE_COUNT;
    let mut films = Vec::new();
    for index in 0..count {
        let entry = entry_at(file, index);
        let mut sizes = Vec::new();
        for _ in 0..entry.rounds {
            sizes.push(u32_at(file, position));
            position += SIZE;
        }
        films.push(Film {
            number: entry.number,
            sizes,
        });
    }
    Ok(films)
}

/// The layout: the bytes that the films stand in. Any films are laid out, legal or not, as far as the counts' widths go.
pub fn encode(films: &[Film]) -> Vec<u8> {
    let mut file = Vec::new();
    file.extend((films.len() as u16).to_le_bytes());
    for film in films {
        file.extend(film.number.to_le_bytes());
        file.extend((film.sizes.len() as u16).to_le_bytes());
    }
    let sizes: usize = films.iter().map(|film| film.sizes.len()).sum();
    file.extend((sizes as u32).to_le_bytes());
    for film in films {
        for size in &film.sizes {
            file.extend(size.to_le_bytes());
        }
    }
    file
}

/// Whether the films keep the layout's bounds: "Numbers strictly rise", "F is 1 to 64, each n 1 to 4,096 and each size at
/// most 16,777,215".
pub fn valid(films: &[Film]) -> bool {
    (1..=MAX_FILMS).contains(&films.len())
        && films.windows(2).all(|pair| pair[0].number < pair[1].number)
        && films.iter().all(|film| {
            (1..=MAX_FILM_ROUNDS).contains(&film.sizes.len())
                && film.sizes.iter().all(|&size| size <= MAX_SIZE)
        })
}

/// The film of that number. "Is the film in the file? 8."
pub fn find(films: &[Film], number: u64) -> Result<&Film, Refusal> {
    films
        .iter()
        .find(|film| u64::from(film.number) == number)
        .ok_or(Refusal::UnknownFilm)
}

/// The reader: "lent the file's bytes", it "moves on entry by entry, giving each film's number and n; after the last it
/// says that there is no more, and stays there".
#[derive(Clone, Copy, Debug)]
pub struct Reader<'a> {
    file: &'a [u8],
    next: usize,
}

impl<'a> Reader<'a> {
    /// "It starts only on an accepted file."
    pub fn start(file: &'a [u8]) -> Result<Reader<'a>, Refusal> {
        verdict(file)?;
        Ok(Reader { file, next: 0 })
    }
}

impl Iterator for Reader<'_> {
    type Item = Entry;

    fn next(&mut self) -> Option<Entry> {
        if self.next == usize::from(u16_at(self.file, 0)) {
            return None;
        }
        let entry = entry_at(self.file, self.next);
        self.next += 1;
        Some(entry)
    }
}

/// The summary of a film of a file: the file's questions, then 8.
pub fn summary(file: &[u8], number: u64) -> Result<Summary, Refusal> {
    let films = decode(file)?;
    let film = find(&films, number)?;
    let total = film.sizes.iter().map(|&size| u64::from(size)).sum();
    let largest = film.sizes.iter().copied().max().map_or(0, u64::from);
    Ok(Summary {
        total,
        largest,
        mean: total / film.sizes.len() as u64,
    })
}

#[cfg(test)]
mod tests {
    use super::*;

    fn film(number: u16, sizes: &[u32]) -> Film {
        Film {
            number,
            sizes: sizes.to_vec(),
        }
    }

    #[test]
    fn film_1_is_read_back() {
        let films = vec![film(1, &[8, 8, 8, 2, 6, 4])];
        let file = encode(&films);
        assert_eq!(decode(&file), Ok(films));
        let expected = Summary {
            total: 36,
            largest: 8,
            mean: 6,
        };
        assert_eq!(summary(&file, 1), Ok(expected));
        assert_eq!(summary(&file, 2), Err(Refusal::UnknownFilm));
    }

    #[test]
    fn reader_stays_at_the_end() {
        let file = encode(&[film(0, &[1]), film(65_535, &[2, 3])]);
        let mut reader = Reader::start(&file).unwrap();
        let first = Entry {
            number: 0,
            rounds: 1,
        };
        let second = Entry {
            number: 65_535,
            rounds: 2,
        };
        assert_eq!(reader.next(), Some(first));
        assert_eq!(reader.next(), Some(second));
        assert_eq!(reader.next(), None);
        assert_eq!(reader.next(), None);
    }

    #[test]
    fn every_truncation_is_refused_1_and_every_addition_7() {
        let mut file = encode(&[film(3, &[8, 9]), film(4, &[0])]);
        for length in 0..file.len() {
            assert_eq!(verdict(&file[..length]), Err(Refusal::Truncated));
        }
        file.push(0);
        assert_eq!(verdict(&file), Err(Refusal::TrailingBytes));
    }

    #[test]
    fn each_breach_has_its_number() {
        let laid_out = |films: &[Film]| verdict(&encode(films));
        let many = |count: u16| -> Vec<Film> { (0..count).map(|i| film(i, &[1])).collect() };
        assert_eq!(laid_out(&[]), Err(Refusal::FilmCount));
        assert_eq!(laid_out(&many(64)), Ok(()));
        assert_eq!(laid_out(&many(65)), Err(Refusal::FilmCount));
        assert_eq!(
            laid_out(&[film(5, &[1]), film(5, &[1])]),
            Err(Refusal::FilmOrder)
        );
        assert_eq!(laid_out(&[film(5, &[])]), Err(Refusal::RoundCount));
        assert_eq!(laid_out(&[film(5, &[1; 4_096])]), Ok(()));
        assert_eq!(laid_out(&[film(5, &[1; 4_097])]), Err(Refusal::RoundCount));
        assert_eq!(laid_out(&[film(5, &[16_777_215])]), Ok(()));
        assert_eq!(
            laid_out(&[film(5, &[16_777_216])]),
            Err(Refusal::SizeTooLarge)
        );
    }

    #[test]
    fn accepted_exactly_if_of_the_layout() {
        // Every byte of a small file is given every value: it is accepted exactly if it is the layout of valid films.
        let file = encode(&[film(1, &[8, 9]), film(2, &[7])]);
        for position in 0..file.len() {
            for value in 0..=255 {
                let mut damaged = file.clone();
                damaged[position] = value;
                if let Ok(films) = decode(&damaged) {
                    assert!(valid(&films));
                    assert_eq!(encode(&films), damaged);
                }
            }
        }
    }
}

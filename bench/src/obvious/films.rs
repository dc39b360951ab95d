//! Film files and schedules, every number taken out and every list made anew.

use playback::limits::{MAX_FILMS, MAX_ROUNDS, MAX_SIZE};
use playback::Refusal;

/// A film with its sizes taken out of the file.
pub struct Film {
    pub number: u64,
    pub sizes: Vec<u64>,
}

pub fn ask(holds: bool, otherwise: Refusal) -> Result<(), Refusal> {
    if holds {
        Ok(())
    } else {
        Err(otherwise)
    }
}

/// The little-endian number of that many bytes at a position.
fn number_at(file: &[u8], position: usize, width: usize) -> Result<u64, Refusal> {
    let bytes = file
        .get(position..position + width)
        .ok_or(Refusal::Truncated)?;
    Ok(bytes
        .iter()
        .rev()
        .fold(0, |number, &byte| number * 256 + u64::from(byte)))
}

pub fn films_of(file: &[u8]) -> Result<Vec<Film>, Refusal> {
    let count = number_at(file, 0, 2)? as usize;
    ask((1..=MAX_FILMS).contains(&count), Refusal::FilmCount)?;
    let mut entries = Vec::new();
    for index in 0..count {
        let number = number_at(file, 2 + 4 * index, 2)?;
        let rounds = number_at(file, 4 + 4 * index, 2)? as usize;
        entries.push((number, rounds));
    }
    let mut last = None;
    for &(number, rounds) in &entries {
        ask(Some(number) > last, Refusal::FilmOrder)?;
        ask((1..=MAX_ROUNDS).contains(&rounds), Refusal::RoundCount)?;
        last = Some(number);
    }
    let rounds: usize = entries.iter().map(|&(_, rounds)| rounds).sum();
    let mut position = 2 + 4 * count;
    let total = number_at(file, position, 4)?;
    ask(total as usize == rounds, Refusal::SizeCount)?;
    position += 4;
    let mut films = Vec::new();
    for (number, rounds) in entries {
        let mut sizes = Vec::new();
        for _ in 0..rounds {
            sizes.push(number_at(file, position, 4)?);
            position += 4;
        }
        films.push(Film { number, sizes });
    }
    let bounded = films
        .iter()
        .all(|film| film.sizes.iter().all(|&size| size <= MAX_SIZE));
    ask(bounded, Refusal::SizeBound)?;
    ask(file.len() == position, Refusal::Trailing)?;
    Ok(films)
}

pub fn find(films: &[Film], number: u64) -> Result<&Film, Refusal> {
    films
        .iter()
        .find(|film| film.number == number)
        .ok_or(Refusal::NoFilm)
}

/// The read totals by the just-in-time rule, and the totals sent, by round.
pub fn totals(sizes: &[u64], prefetch: u64, reserve: u64) -> (Vec<u64>, Vec<u64>) {
    let mut sent = vec![0; prefetch as usize];
    let mut total = 0;
    for size in sizes {
        total += size;
        sent.push(total);
    }
    let mut read = sent.clone();
    for t in (0..read.len() - 1).rev() {
        read[t] = read[t].max(read[t + 1].saturating_sub(reserve));
    }
    (read, sent)
}

pub fn held(read: &[u64], sent: &[u64]) -> Vec<u64> {
    let mut before = 0;
    let mut held = Vec::new();
    for (read, sent) in read.iter().zip(sent) {
        held.push(read - before);
        before = *sent;
    }
    held
}

/// Whether a reserve has a schedule that holds at most the cap.
pub fn serves(sizes: &[u64], prefetch: u64, reserve: u64, cap: u64) -> bool {
    let (read, sent) = totals(sizes, prefetch, reserve);
    read[0] <= reserve && held(&read, &sent).iter().all(|&held| held <= cap)
}

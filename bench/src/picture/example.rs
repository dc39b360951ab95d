//! The films of the example day in `bench/day`.

use crate::synthetic::{sizes, Shape};
use reference::film_file::{encode, Film};

/// Number, rounds, mean and largest size of each film.
const FILMS: [(u16, usize, u64, u64); 5] = [
    (1, 60, 90_000, 320_000),
    (2, 90, 140_000, 520_000),
    (3, 120, 110_000, 400_000),
    (4, 150, 160_000, 600_000),
    (5, 40, 200_000, 560_000),
];

/// The film file of the example day.
pub fn films() -> Vec<u8> {
    let films = FILMS.map(|(number, rounds, mean, peak)| Film {
        number,
        sizes: sizes(u64::from(number), Shape { rounds, mean, peak }),
    });
    encode(&films)
}

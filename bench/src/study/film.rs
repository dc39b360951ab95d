//! The film of the study: synthetic, of the mean and the peak that source 000 gives for its trace (sections VI and VII).

use crate::synthetic::{sizes, Shape};
use playback::lent;
use reference::cases::checksum::Checksum;
use reference::film_file::{encode, Film};

/// 1,200 rounds of half a second; 3.8 Mbit/s in the mean and 14 Mbit/s at the peak.
pub const SHAPE: Shape = Shape {
    rounds: 1_200,
    mean: 237_500,
    peak: 875_000,
};
/// Of the first 20,000 seeds, the one whose film comes nearest below source 000's other figure, 50 MB of buffer where it is read at
/// its mean rate, with at least 180 pre-fetch rounds.
pub const SEED: u64 = 14_291;
/// Its number in every film file of the study.
pub const FILM: u64 = 1;

/// The film's sizes.
pub fn trace() -> Vec<u32> {
    sizes(SEED, SHAPE)
}

/// Of the sizes in order, as reference/README.md defines it.
pub fn checksum(sizes: &[u32]) -> u64 {
    let mut checksum = Checksum::default();
    for &size in sizes {
        checksum.add(size.into());
    }
    checksum.0
}

/// A film file of one film.
pub fn file_of(sizes: Vec<u32>) -> Vec<u8> {
    encode(&[Film {
        number: FILM as u16,
        sizes,
    }])
}

/// The film's just-in-time read totals; none where there is no schedule.
pub fn totals(file: &[u8], prefetch: u64, reserve: u64) -> Option<Vec<u64>> {
    let mut totals = vec![0; prefetch as usize + SHAPE.rounds];
    let refusal = lent::schedule(file, FILM, prefetch, reserve, &mut totals);
    (refusal == 0).then_some(totals)
}

/// The smallest reserve that has a schedule with that many pre-fetch rounds and holds at most the cap.
pub fn least_reserve(file: &[u8], prefetch: u64, cap: u64) -> Option<u64> {
    let answer = lent::least_reserve(file, FILM, prefetch, cap);
    (answer.refusal == 0).then_some(answer.bytes)
}

/// The most that is held where the read totals are those given.
pub fn peak(sizes: &[u32], prefetch: u64, totals: &[u64]) -> u64 {
    let mut sent = 0;
    let mut peak = 0;
    for (round, total) in totals.iter().enumerate() {
        peak = peak.max(total - sent);
        if let Some(shown) = round.checked_sub(prefetch as usize) {
            sent += u64::from(sizes[shown]);
        }
    }
    peak
}

/// Constant-rate reading at the mean (000's CD): the fewest pre-fetch rounds, and the read totals, which rise by the mean until
/// all is read.
pub fn constant_rate(file: &[u8], mean: u64) -> (u64, Vec<u64>) {
    let prefetch = (0..=256)
        .find(|&prefetch| totals(file, prefetch, mean).is_some())
        .expect("256 pre-fetch rounds are enough");
    let total = mean * SHAPE.rounds as u64;
    let rounds = prefetch + SHAPE.rounds as u64;
    let totals = (1..=rounds).map(|round| (round * mean).min(total));
    (prefetch, totals.collect())
}

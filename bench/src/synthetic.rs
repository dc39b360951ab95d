//! Synthetic films: long scenes of about one level, short bursts, from a seed. Whole numbers only, so that a seed gives the same
//! bytes everywhere.

use reference::cases::random::Random;

/// What a film is to have: its rounds, the mean size of a round and the largest, in bytes.
#[derive(Clone, Copy, Debug, PartialEq, Eq)]
pub struct Shape {
    pub rounds: usize,
    pub mean: u64,
    pub peak: u64,
}

/// Scales are in parts of this.
const PARTS: u64 = 1 << 20;

/// The sizes of a film of exactly that mean and peak, where the peak is at least four thirds of the mean.
pub fn sizes(seed: u64, shape: Shape) -> Vec<u32> {
    let levels = levels(&mut Random::new(seed), shape.rounds);
    let total = shape.mean * shape.rounds as u64;
    let scaled = |scale: u64| {
        levels
            .iter()
            .map(move |level| (level * scale / PARTS).min(shape.peak))
    };
    // The largest scale whose sizes do not pass the total.
    let (mut enough, mut too_much) = (0, shape.peak * PARTS);
    while too_much - enough > 1 {
        let scale = enough + (too_much - enough) / 2;
        if scaled(scale).sum::<u64>() <= total {
            enough = scale;
        } else {
            too_much = scale;
        }
    }
    let mut sizes: Vec<u64> = scaled(enough).collect();
    raise_to_peak(&mut sizes, shape.peak);
    settle(&mut sizes, total, shape.peak);
    sizes.into_iter().map(|size| size as u32).collect()
}

/// How much each round sends beside the others.
fn levels(random: &mut Random, rounds: usize) -> Vec<u64> {
    let mut levels = Vec::new();
    let mut act_ends = 0;
    let mut act = 0;
    while levels.len() < rounds {
        if levels.len() >= act_ends {
            act_ends = levels.len() + rounds / 6 + random.below(rounds as u64 / 6 + 1) as usize;
            act = 70 + random.below(71);
        }
        let scene = 300 + random.below(1_200);
        for _ in 0..20 + random.below(100) {
            levels.push(act * scene * (85 + random.below(31)) / 1_000);
            if random.once_in(45) {
                let burst = 1_700 + random.below(1_800);
                for _ in 0..2 + random.below(5) {
                    levels.push(burst * (90 + random.below(21)) / 10);
                }
            }
        }
    }
    levels.truncate(rounds);
    levels
}

/// The largest becomes the peak.
fn raise_to_peak(sizes: &mut [u64], peak: u64) {
    if let Some(largest) = sizes.iter_mut().max() {
        *largest = peak;
    }
}

/// Adds to or takes from round after round, a little each, until the sizes add up to the total.
fn settle(sizes: &mut [u64], total: u64, peak: u64) {
    let mut sum: u64 = sizes.iter().sum();
    let rounds = sizes.len();
    let mut place = 0;
    while sum != total {
        let size = &mut sizes[place % rounds];
        let share = sum.abs_diff(total).div_ceil(rounds as u64);
        if sum < total && *size < peak {
            let more = share.min(peak - *size).min(total - sum);
            *size += more;
            sum += more;
        } else if sum > total && *size < peak {
            let less = share.min(*size).min(sum - total);
            *size -= less;
            sum -= less;
        }
        place += 1;
    }
}

#[cfg(test)]
mod tests {
    use super::*;

    #[test]
    fn mean_and_peak_are_exact() {
        for seed in 1..200 {
            let shape = Shape {
                rounds: 60 + 20 * seed as usize,
                mean: 237_500,
                peak: 875_000,
            };
            let sizes = sizes(seed, shape);
            let total: u64 = sizes.iter().map(|&size| u64::from(size)).sum();
            assert_eq!(sizes.len(), shape.rounds);
            assert_eq!(total, shape.mean * shape.rounds as u64);
            assert_eq!(sizes.iter().max(), Some(&875_000));
        }
    }
}

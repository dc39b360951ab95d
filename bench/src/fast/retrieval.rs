//! The just-in-time schedule by one pass backward over the sizes: what a round holds is what it sends and what the rounds
//! after it leave to be read before them.

use super::film_file::{bytes, Catalogue, Stored};
use playback::limits::{MAX_PREFETCH, MAX_RESERVE, MAX_ROUNDS};
use playback::Refusal;

/// Rounds that a film is open, at most.
pub const MAX_OPEN: usize = MAX_PREFETCH as usize + MAX_ROUNDS;

/// Gives `take` each round's place with what it holds, from the last to the first, and answers what is left to be read before
/// the first: 0 exactly if a schedule exists. There is a place for each of the p+n rounds.
#[inline(always)]
fn backward<T>(
    sizes: &[Stored],
    reserve: u64,
    places: &mut [T],
    mut take: impl FnMut(&mut T, u64),
) -> u64 {
    let (before, shown) = places.split_at_mut(places.len() - sizes.len());
    let mut carry = 0;
    for (place, &size) in shown.iter_mut().zip(sizes).rev() {
        let held = bytes(size) + carry;
        take(place, held);
        carry = held.saturating_sub(reserve);
    }
    for place in before.iter_mut().rev() {
        take(place, carry);
        carry = carry.saturating_sub(reserve);
    }
    carry
}

/// Writes what each round holds; whether a schedule exists.
#[inline(never)]
pub fn write_held(sizes: &[Stored], reserve: u64, held: &mut [u64]) -> bool {
    backward(sizes, reserve, held, |place, bytes| *place = bytes) == 0
}

/// Adds what each round holds; whether a schedule exists.
#[inline(never)]
pub fn add_held(sizes: &[Stored], reserve: u64, held: &mut [u64]) -> bool {
    backward(sizes, reserve, held, |place, bytes| *place += bytes) == 0
}

/// What is held in the round before these sizes, of them alone.
#[inline(never)]
pub fn carry_of(sizes: &[Stored], reserve: u64) -> u64 {
    sizes.iter().rev().fold(0, |carry, &size| {
        (bytes(size) + carry).saturating_sub(reserve)
    })
}

/// 1 to 7, 8, 9, 10, 11, 12.
pub fn schedule(
    file: &[u8],
    film: u64,
    prefetch: u64,
    reserve: u64,
    totals: &mut [u64],
) -> Result<(), Refusal> {
    let catalogue = Catalogue::read(file)?;
    let (_, sizes) = catalogue.find(film).ok_or(Refusal::NoFilm)?;
    if prefetch > MAX_PREFETCH {
        return Err(Refusal::Prefetch);
    }
    if reserve > MAX_RESERVE {
        return Err(Refusal::Reserve);
    }
    let open = prefetch as usize + sizes.len();
    let totals = totals.get_mut(..open).ok_or(Refusal::NoRoom)?;
    let mut held = [0; MAX_OPEN];
    let held = &mut held[..open];
    if !write_held(sizes, reserve, held) {
        return Err(Refusal::NoSchedule);
    }
    let (totals_before, totals_shown) = totals.split_at_mut(prefetch as usize);
    let (held_before, held_shown) = held.split_at(prefetch as usize);
    totals_before.copy_from_slice(held_before);
    let mut sent = 0;
    for ((total, held), &size) in totals_shown.iter_mut().zip(held_shown).zip(sizes) {
        *total = sent + held;
        sent += bytes(size);
    }
    Ok(())
}

/// A reserve that the film needs at least, for p and the cap, where `reserve` does not do; none where it does.
///
/// From round t to round u of a film at most (u - t) reserves can be read after round t, and at most the cap can be held in it, so
/// that the reserve is at least (sizes from t to u - cap) / (u - t); likewise over the p + u + 1 rounds from the start to u. The
/// rounds u that count are those after which nothing is carried.
fn needed(sizes: &[Stored], prefetch: u64, cap: u64, reserve: u64) -> Option<u64> {
    let mut least = 0;
    let mut carry = 0;
    let mut sum = 0;
    let mut rounds = 0;
    for &size in sizes.iter().rev() {
        if carry == 0 {
            sum = 0;
            rounds = 0;
        }
        let size = bytes(size);
        sum += size;
        let held = size + carry;
        if held > cap {
            // The cap is at least every size, so that something is carried and rounds is not 0.
            least = least.max((sum - cap).div_ceil(rounds));
        }
        rounds += 1;
        carry = held.saturating_sub(reserve);
    }
    // Pre-fetch rounds hold less than the round after them.
    if carry > prefetch * reserve {
        least = least.max(sum.div_ceil(prefetch + rounds));
    }
    (least > 0).then_some(least)
}

/// 1 to 7, 8, 9, 13. Starting from a reserve that is needed, each pass that finds it too small gives a larger one that is needed,
/// so that the first that does is the least.
pub fn least_reserve(file: &[u8], film: u64, prefetch: u64, cap: u64) -> Result<u64, Refusal> {
    let catalogue = Catalogue::read(file)?;
    let (_, sizes) = catalogue.find(film).ok_or(Refusal::NoFilm)?;
    if prefetch > MAX_PREFETCH {
        return Err(Refusal::Prefetch);
    }
    let largest = sizes.iter().map(|&size| bytes(size)).max().unwrap_or(0);
    if cap < largest {
        return Err(Refusal::Cap);
    }
    let total: u64 = sizes.iter().map(|&size| bytes(size)).sum();
    let mut reserve = total.div_ceil(prefetch + sizes.len() as u64);
    while let Some(least) = needed(sizes, prefetch, cap, reserve) {
        reserve = least;
    }
    Ok(reserve)
}

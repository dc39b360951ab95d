//! The schedule rule: what a film sends, what a schedule is, the just-in-time schedule and the least reserve.

use crate::bounds::{MAX_PREFETCH, MAX_RESERVE};
use crate::film_file::{decode, find};
use crate::refusal::{ask, Refusal};

/// The bytes sent in each round from the film's start: "It sends nothing in its first p rounds and then its sizes in order."
pub fn sends(prefetch: u64, sizes: &[u32]) -> Vec<u64> {
    let mut sends = vec![0; prefetch as usize];
    sends.extend(sizes.iter().map(|&size| u64::from(size)));
    sends
}

/// C: "C(t) is the bytes sent in rounds 0 to t".
pub fn totals(sends: &[u64]) -> Vec<u64> {
    let mut total = 0;
    let mut totals = Vec::new();
    for bytes in sends {
        total += bytes;
        totals.push(total);
    }
    totals
}

/// What a film reads, sends and holds in one round, in bytes.
#[derive(Clone, Copy, Debug, PartialEq, Eq)]
pub struct Round {
    pub read: u64,
    pub send: u64,
    pub held: u64,
}

/// Place t - 1 of a list of totals, where the total before round 0 is 0.
pub fn before(totals: &[u64], t: usize) -> u64 {
    if t == 0 {
        0
    } else {
        totals[t - 1]
    }
}

/// Whether a list of read totals is a schedule: it "never falls, rises by at most the reserve b per round, has A(t) ≥ C(t)
/// in every round (no underflow), and ends at the film's total".
pub fn is_schedule(sends: &[u64], reserve: u64, reads: &[u64]) -> bool {
    let sent = totals(sends);
    reads.len() == sent.len()
        && (0..reads.len()).all(|t| reads[t] >= before(reads, t))
        && (0..reads.len()).all(|t| reads[t] - before(reads, t) <= reserve)
        && (0..reads.len()).all(|t| reads[t] >= sent[t])
        && reads.last() == sent.last()
}

/// "Bytes held in round t are A(t) - C(t-1)."
pub fn held(sends: &[u64], reads: &[u64]) -> Vec<u64> {
    let sent = totals(sends);
    (0..reads.len())
        .map(|t| reads[t] - before(&sent, t))
        .collect()
}

/// "The peak is the largest held."
pub fn peak(held: &[u64]) -> u64 {
    held.iter().copied().max().unwrap_or(0)
}

/// "Just-in-time: in the last round A = C; before it, A(t) is the larger of C(t) and A(t+1) - b, the latter taken as 0 if
/// negative."
pub fn just_in_time(sends: &[u64], reserve: u64) -> Vec<u64> {
    let mut reads = totals(sends);
    for t in (0..reads.len().saturating_sub(1)).rev() {
        reads[t] = reads[t].max(reads[t + 1].saturating_sub(reserve));
    }
    reads
}

/// "A schedule exists exactly if this gives A(0) ≤ b."
pub fn exists(sends: &[u64], reserve: u64) -> bool {
    just_in_time(sends, reserve)[0] <= reserve
}

/// "The least reserve for film, p and memory cap is the smallest b that has a schedule with peak at most the cap."
///
/// A reserve has such a schedule exactly if its just-in-time schedule is one, since that holds no more than any other in
/// each round; and so has then every larger reserve. The caller has asked that the cap is at least the largest size, with
/// which the largest size itself will do.
pub fn smallest_reserve(sends: &[u64], cap: u64) -> u64 {
    let serves = |reserve: u64| {
        exists(sends, reserve) && peak(&held(sends, &just_in_time(sends, reserve))) <= cap
    };
    let mut too_small_below = 0;
    let mut serves_from = sends.iter().copied().max().unwrap_or(0);
    while too_small_below < serves_from {
        let middle = (too_small_below + serves_from) / 2;
        if serves(middle) {
            serves_from = middle;
        } else {
            too_small_below = middle + 1;
        }
    }
    serves_from
}

/// The schedule of a film, p and b, written to the output's first p+n places: the file's questions, then 8, 9, 10, 11, 12.
/// "Places from p+n on are untouched."
pub fn schedule(
    file: &[u8],
    film: u64,
    prefetch: u64,
    reserve: u64,
    output: &mut [u64],
) -> Result<(), Refusal> {
    let films = decode(file)?;
    let film = find(&films, film)?;
    ask(prefetch <= MAX_PREFETCH, Refusal::PrefetchTooLong)?;
    ask(reserve <= MAX_RESERVE, Refusal::ReserveTooLarge)?;
    let sends = sends(prefetch, &film.sizes);
    ask(output.len() >= sends.len(), Refusal::ListTooShort)?;
    ask(exists(&sends, reserve), Refusal::NoSchedule)?;
    output[..sends.len()].copy_from_slice(&just_in_time(&sends, reserve));
    Ok(())
}

/// What a film, p and b read, send and hold in each round: the file's questions, then 8, 9, 10, 12.
pub fn rounds(file: &[u8], film: u64, prefetch: u64, reserve: u64) -> Result<Vec<Round>, Refusal> {
    let films = decode(file)?;
    let film = find(&films, film)?;
    ask(prefetch <= MAX_PREFETCH, Refusal::PrefetchTooLong)?;
    ask(reserve <= MAX_RESERVE, Refusal::ReserveTooLarge)?;
    let sends = sends(prefetch, &film.sizes);
    ask(exists(&sends, reserve), Refusal::NoSchedule)?;
    let reads = just_in_time(&sends, reserve);
    let held = held(&sends, &reads);
    let round = |t: usize| Round {
        read: reads[t] - before(&reads, t),
        send: sends[t],
        held: held[t],
    };
    Ok((0..sends.len()).map(round).collect())
}

/// The least reserve of a film, p and cap: the file's questions, then 8, 9, 13.
pub fn least_reserve(file: &[u8], film: u64, prefetch: u64, cap: u64) -> Result<u64, Refusal> {
    let films = decode(file)?;
    let film = find(&films, film)?;
    ask(prefetch <= MAX_PREFETCH, Refusal::PrefetchTooLong)?;
    let largest = film.sizes.iter().copied().max().map_or(0, u64::from);
    ask(cap >= largest, Refusal::CapTooSmall)?;
    Ok(smallest_reserve(&sends(prefetch, &film.sizes), cap))
}

#[cfg(test)]
mod tests {
    use super::*;
    use crate::film_file::{encode, Film};

    const FILM_1: [u32; 6] = [8, 8, 8, 2, 6, 4];

    fn file(sizes: &[u32]) -> Vec<u8> {
        encode(&[Film {
            number: 1,
            sizes: sizes.to_vec(),
        }])
    }

    fn held_by_film_1(prefetch: u64, reserve: u64) -> Option<Vec<u64>> {
        let sends = sends(prefetch, &FILM_1);
        exists(&sends, reserve).then(|| held(&sends, &just_in_time(&sends, reserve)))
    }

    #[test]
    fn figures_for_film_1() {
        let mut output = [99; 9];
        assert_eq!(schedule(&file(&FILM_1), 1, 1, 6, &mut output), Ok(()));
        assert_eq!(output, [6, 12, 18, 24, 26, 32, 36, 99, 99]);
        assert_eq!(held_by_film_1(1, 6), Some(vec![6, 12, 10, 8, 2, 6, 4]));
        assert_eq!(
            schedule(&file(&FILM_1), 1, 0, 7, &mut output),
            Err(Refusal::NoSchedule)
        );
        assert_eq!(held_by_film_1(0, 8), Some(vec![8, 8, 8, 2, 6, 4]));
        assert_eq!(held_by_film_1(1, 5), None);
        assert_eq!(held_by_film_1(2, 5).map(|held| peak(&held)), Some(14));
        assert_eq!(held_by_film_1(1, 7).map(|held| peak(&held)), Some(10));
        for (cap, expected) in [
            (12, Ok(6)),
            (11, Ok(7)),
            (8, Ok(8)),
            (7, Err(Refusal::CapTooSmall)),
        ] {
            assert_eq!(least_reserve(&file(&FILM_1), 1, 1, cap), expected);
        }
    }

    #[test]
    fn all_sizes_0_need_no_reserve() {
        for cap in [0, 1, 1_000] {
            assert_eq!(least_reserve(&file(&[0; 5]), 1, 3, cap), Ok(0));
        }
    }

    #[test]
    fn refusals_in_the_order_of_the_questions() {
        let file = file(&FILM_1);
        let mut none: [u64; 0] = [];
        let mut ask = |film, prefetch, reserve| schedule(&file, film, prefetch, reserve, &mut none);
        assert_eq!(ask(2, 257, 16_777_216), Err(Refusal::UnknownFilm));
        assert_eq!(ask(1, 257, 16_777_216), Err(Refusal::PrefetchTooLong));
        assert_eq!(ask(1, 256, 16_777_216), Err(Refusal::ReserveTooLarge));
        assert_eq!(ask(1, 256, 0), Err(Refusal::ListTooShort));
    }
}

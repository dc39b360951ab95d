//! Small cases decided by trying every schedule there is.

use crate::plain_day::{disk_and_cabs_kept, Opening, Placed};
use crate::schedule::{held, peak};

/// Every schedule of what is sent and a reserve, by the definition of a schedule and nothing else: read totals that never
/// fall, rise by at most the reserve, never underflow and end at the film's total.
pub fn every_schedule(sends: &[u64], reserve: u64) -> Vec<Vec<u64>> {
    let total: u64 = sends.iter().sum();
    let mut schedules = vec![Vec::new()];
    let mut sent = 0;
    for &bytes in sends {
        sent += bytes;
        let mut longer = Vec::new();
        for reads in schedules {
            let read = reads.last().copied().unwrap_or(0);
            for next in read..=read + reserve {
                if sent <= next && next <= total {
                    let mut reads: Vec<u64> = reads.clone();
                    reads.push(next);
                    longer.push(reads);
                }
            }
        }
        schedules = longer;
    }
    schedules.retain(|reads| reads.last() == Some(&total));
    schedules
}

/// The smallest reserve for which some schedule at all has its peak within the cap, reserves tried from 0 on.
pub fn least_reserve(sends: &[u64], cap: u64) -> Option<u64> {
    let total: u64 = sends.iter().sum();
    (0..=total).find(|&reserve| {
        every_schedule(sends, reserve)
            .iter()
            .any(|reads| peak(&held(sends, reads)) <= cap)
    })
}

/// "there are schedules, for this booking there and for each standing one at its own start, each with its own film, p and b,
/// with which in every round of the day" disk, memory and cabs are kept: every choice of schedules is tried.
pub fn fit(opening: &Opening, bookings: &[Placed]) -> bool {
    let held = vec![0; opening.rounds as usize];
    disk_and_cabs_kept(opening, bookings) && some_choice_fits(opening.memory, bookings, &held)
}

/// Whether schedules can be chosen for the bookings so that what they hold, on top of what is held already, keeps the limit.
fn some_choice_fits(memory: u64, bookings: &[Placed], already: &[u64]) -> bool {
    if already.iter().any(|&bytes| bytes > memory) {
        return false;
    }
    let Some((booking, others)) = bookings.split_first() else {
        return true;
    };
    let sends = booking.sends();
    every_schedule(&sends, booking.reserve).iter().any(|reads| {
        let mut sums = already.to_vec();
        for (t, bytes) in held(&sends, reads).iter().enumerate() {
            sums[booking.start as usize + t] += bytes;
        }
        some_choice_fits(memory, others, &sums)
    })
}

#[cfg(test)]
mod tests {
    use super::*;
    use crate::cases::random::Random;
    use crate::schedule::{exists, held, is_schedule, just_in_time, peak, sends, smallest_reserve};

    fn drawn_sends(random: &mut Random) -> Vec<u64> {
        let rounds = 1 + random.below(4);
        let sizes: Vec<u32> = (0..rounds).map(|_| random.below(5) as u32).collect();
        sends(random.below(3), &sizes)
    }

    #[test]
    fn just_in_time_exists_exactly_if_any_schedule_does_and_holds_least() {
        let mut random = Random::new(1);
        for _ in 0..300 {
            let sends = drawn_sends(&mut random);
            for reserve in 0..7 {
                let schedules = every_schedule(&sends, reserve);
                assert!(schedules
                    .iter()
                    .all(|reads| is_schedule(&sends, reserve, reads)));
                assert_eq!(exists(&sends, reserve), !schedules.is_empty());
                if schedules.is_empty() {
                    continue;
                }
                let reads = just_in_time(&sends, reserve);
                assert!(schedules.contains(&reads));
                let least = held(&sends, &reads);
                for other in &schedules {
                    let held = held(&sends, other);
                    assert!((0..held.len()).all(|t| least[t] <= held[t]));
                }
            }
        }
    }

    #[test]
    fn least_reserve_is_the_least_over_all_schedules() {
        let mut random = Random::new(2);
        for _ in 0..200 {
            let sends = drawn_sends(&mut random);
            let largest = peak(&sends);
            for cap in 0..12 {
                let least = least_reserve(&sends, cap);
                if cap < largest {
                    assert_eq!(least, None);
                } else {
                    assert_eq!(least, Some(smallest_reserve(&sends, cap)));
                }
            }
        }
    }
}

//! The study's ways of reserving, its tables and its picture.

mod charts;
mod claims;
mod tables;

use super::film::{file_of, least_reserve, trace, SHAPE};
use super::policy::{Disk, Memory, Policy};
use super::trial::{best, run, Outcome, Trial};
use playback::limits::MAX_MEMORY;

/// A million bytes.
const MILLION: u64 = 1_000_000;
/// Reserves are tried at multiples of this many bytes per round, 0.2 Mbit/s.
const INCREMENT: u64 = 12_500;
/// Rounds of a group (004's generalised constant time length with four seconds a group).
const GROUP: usize = 8;

/// The film with its file.
pub struct Study {
    sizes: Vec<u32>,
    file: Vec<u8>,
}

/// A way of reserving with its name in the tables.
#[derive(Clone, Copy)]
enum Way {
    Fixed {
        prefetch: u64,
        reserve: u64,
        disk: Disk,
    },
    Best {
        prefetch: u64,
        disk: Disk,
        memory: Memory,
    },
    ConstantRate,
}

const fn best_way(prefetch: u64, disk: Disk, memory: Memory) -> Way {
    Way::Best {
        prefetch,
        disk,
        memory,
    }
}

impl Default for Study {
    fn default() -> Study {
        let sizes = trace();
        Study {
            file: file_of(sizes.clone()),
            sizes,
        }
    }
}

impl Study {
    /// The largest mean of a group's rounds, wherever the group begins.
    fn group_mean(&self) -> u64 {
        let sums = self.sizes.windows(GROUP);
        let sums = sums.map(|group| group.iter().map(|&size| u64::from(size)).sum::<u64>());
        sums.max().unwrap_or(0).div_ceil(GROUP as u64)
    }

    fn ways(&self) -> Vec<(&'static str, Way)> {
        let fixed = |prefetch, reserve, disk| Way::Fixed {
            prefetch,
            reserve,
            disk,
        };
        let peak = SHAPE.peak;
        vec![
            ("peak rate, p 0 (000's CT)", fixed(0, peak, Disk::Reserve)),
            ("constant rate (000's CD)", Way::ConstantRate),
            (
                "groups of 8 rounds, p 8 (004)",
                fixed(GROUP as u64, self.group_mean(), Disk::Reserve),
            ),
            (
                "just in time, p 4, peak charged (000's MR)",
                best_way(4, Disk::Reserve, Memory::Peak),
            ),
            (
                "just in time, p 20, peak charged (000's MR)",
                best_way(20, Disk::Reserve, Memory::Peak),
            ),
            (
                "just in time, p 4 (our desk)",
                best_way(4, Disk::Reserve, Memory::Held),
            ),
            (
                "just in time, p 20 (our desk)",
                best_way(20, Disk::Reserve, Memory::Held),
            ),
            (
                "exact reads, no read-ahead (002)",
                fixed(0, peak, Disk::Reads),
            ),
            (
                "exact reads, just in time, p 20 (002)",
                best_way(20, Disk::Reads, Memory::Held),
            ),
        ]
    }

    /// Just-in-time policies of every reserve to be tried.
    fn policies(
        &self,
        prefetch: u64,
        disk: Disk,
        memory: Memory,
    ) -> impl Iterator<Item = Policy> + '_ {
        let least = least_reserve(&self.file, prefetch, MAX_MEMORY).expect("a reserve will do");
        let multiples = (0..=SHAPE.peak / INCREMENT).map(|count| count * INCREMENT);
        let reserves = std::iter::once(least).chain(multiples.filter(move |&b| b > least));
        reserves.filter_map(move |reserve| {
            Policy::just_in_time(&self.file, &self.sizes, prefetch, reserve, disk, memory)
        })
    }

    fn outcome(&self, way: Way, trial: Trial, memory: u64) -> (Policy, Outcome) {
        match way {
            Way::Fixed {
                prefetch,
                reserve,
                disk,
            } => {
                let policy = Policy::just_in_time(
                    &self.file,
                    &self.sizes,
                    prefetch,
                    reserve,
                    disk,
                    Memory::Held,
                )
                .expect("the reserve has a schedule");
                let outcome = run(trial, &self.sizes, &policy, memory);
                (policy, outcome)
            }
            Way::ConstantRate => {
                let policy = Policy::constant_rate(&self.file, &self.sizes);
                let outcome = run(trial, &self.sizes, &policy, memory);
                (policy, outcome)
            }
            Way::Best {
                prefetch,
                disk,
                memory: charged,
            } => {
                let policies = self.policies(prefetch, disk, charged);
                best(trial, &self.sizes, memory, policies).expect("some reserve is tried")
            }
        }
    }
}

//! Ways of reserving disk and memory for a stream.

use super::film::{constant_rate, file_of, peak, totals, FILM, SHAPE};
use playback::Request;

/// What a stream is charged of the disk.
#[derive(Clone, Copy, Debug, PartialEq, Eq)]
pub enum Disk {
    /// Its reserve in every round: the desk's own rule.
    Reserve,
    /// What its schedule reads in each round (002's admission test).
    Reads,
}

/// What a stream is charged of memory.
#[derive(Clone, Copy, Debug, PartialEq, Eq)]
pub enum Memory {
    /// What its schedule holds in each round: the desk's own rule.
    Held,
    /// The most that it holds, in every round (000's reservation).
    Peak,
}

/// How each stream of the film reads, and what it is charged.
#[derive(Clone, Debug)]
pub struct Policy {
    pub prefetch: u64,
    pub reserve: u64,
    pub disk: Disk,
    pub memory: Memory,
    /// The stream's peak in bytes.
    pub peak: u64,
    /// What its schedule reads in each round.
    reads: Vec<u32>,
}

impl Policy {
    /// Just-in-time reading; none where there is no schedule.
    pub fn just_in_time(
        file: &[u8],
        sizes: &[u32],
        prefetch: u64,
        reserve: u64,
        disk: Disk,
        memory: Memory,
    ) -> Option<Policy> {
        let totals = totals(file, prefetch, reserve)?;
        Some(Policy {
            prefetch,
            reserve,
            disk,
            memory,
            peak: peak(sizes, prefetch, &totals),
            reads: reads(&totals),
        })
    }

    /// Constant-rate reading at the mean, its buffer charged in every round (000's CD).
    pub fn constant_rate(file: &[u8], sizes: &[u32]) -> Policy {
        let (prefetch, totals) = constant_rate(file, SHAPE.mean);
        Policy {
            prefetch,
            reserve: SHAPE.mean,
            disk: Disk::Reserve,
            memory: Memory::Peak,
            peak: peak(sizes, prefetch, &totals),
            reads: reads(&totals),
        }
    }

    /// Rounds that a stream is open.
    pub fn rounds(&self) -> u64 {
        self.prefetch + SHAPE.rounds as u64
    }

    /// A request for the film itself.
    pub fn request(&self, name: u32, cabs: u64, first: u64, last: u64) -> Request {
        Request {
            name,
            film: FILM,
            prefetch: self.prefetch,
            reserve: self.reserve,
            cabs,
            first,
            last,
        }
    }

    /// A film that, read round by round as it is sent, holds in each round what the stream is charged beside the desk's own
    /// rule, in units: a desk whose memory limit is the limit of that charge decides it. None where the desk's rule is all.
    pub fn charge(&self) -> Option<Charge> {
        let (sizes, unit) = match (self.disk, self.memory) {
            (Disk::Reserve, Memory::Held) => return None,
            (Disk::Reads, _) => (self.reads.clone(), 1),
            (Disk::Reserve, Memory::Peak) => {
                let unit = 8;
                let size = self.peak.div_ceil(unit) as u32;
                (vec![size; self.rounds() as usize], unit)
            }
        };
        let largest = sizes.iter().copied().max().unwrap_or(0);
        Some(Charge {
            file: file_of(sizes),
            reserve: largest.into(),
            unit,
        })
    }
}

/// A film of charges and the unit in bytes that they are in.
pub struct Charge {
    pub file: Vec<u8>,
    pub reserve: u64,
    pub unit: u64,
}

impl Charge {
    pub fn request(&self, name: u32, cabs: u64, first: u64, last: u64) -> Request {
        Request {
            name,
            film: FILM,
            prefetch: 0,
            reserve: self.reserve,
            cabs,
            first,
            last,
        }
    }
}

fn reads(totals: &[u64]) -> Vec<u32> {
    let before = std::iter::once(&0).chain(totals);
    let reads = totals.iter().zip(before);
    reads
        .map(|(total, before)| (total - before) as u32)
        .collect()
}

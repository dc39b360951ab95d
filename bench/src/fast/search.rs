//! The first start of a window that fits. What disk and cabs rule out are intervals of starts; memory is tested start by start
//! where it could be exceeded at all.

use super::loss::loss;
use super::standing::{Segments, Stream};
use std::ops::Range;

/// The window's starts and what is to be tested at each.
pub struct Search<'a> {
    pub first: usize,
    pub last: usize,
    pub rounds: usize,
    pub disk: u64,
    pub memory: u64,
    /// The stream to place, whatever its own start, and what it holds by round.
    pub stream: &'a Stream<'a>,
    pub profile: &'a [u64],
    /// The most that the day holds in a round.
    pub largest: u64,
}

/// Starts from `from` to before `to`, packed so that they sort by `from`.
fn pack(from: usize, to: usize) -> u64 {
    (from as u64) << 32 | to as u64
}

impl Search<'_> {
    /// The first start that fits. `helds` gives the bytes held by round of the day, and is asked only where memory could be exceeded.
    pub fn first_start<T: AsRef<[u64]>>(
        &self,
        segments: &Segments,
        streams: &[Stream],
        helds: impl FnOnce() -> T,
    ) -> Option<usize> {
        let peak = self.profile.iter().copied().max().unwrap_or(0);
        if peak > self.memory {
            return None;
        }
        let helds = (peak + self.largest > self.memory).then(helds);
        let helds = helds.as_ref().map(AsRef::as_ref);
        let mut near = 0;
        let mut start = self.first;
        for ruled_out in self.ruled_out(segments, streams) {
            let from = (ruled_out >> 32) as usize;
            if start < from {
                let starts = start..from.min(self.last + 1);
                if let Some(found) = self.first_held(starts, helds, &mut near) {
                    return Some(found);
                }
            }
            start = start.max((ruled_out & 0xffff_ffff) as usize);
            if start > self.last {
                return None;
            }
        }
        self.first_held(start..self.last + 1, helds, &mut near)
    }

    /// The intervals of starts at which the disk would be passed in some round or a cab show two films, sorted.
    fn ruled_out(&self, segments: &Segments, streams: &[Stream]) -> Vec<u64> {
        let stream = self.stream;
        let mut intervals = Vec::with_capacity(segments.list().len() + streams.len());
        // Starts at which rounds from `open` on, `rounds` of them, meet those from `from` to before `to`.
        let mut put = |from: usize, to: usize, open: usize, rounds: usize| {
            let after = (from + 1).saturating_sub(open + rounds);
            let before = to.saturating_sub(open);
            if after < before && self.first < before && after <= self.last {
                intervals.push(pack(after, before));
            }
        };
        for (segment, end) in segments.with_ends(self.rounds) {
            if segment.reserves + stream.reserve + loss(segment.open + 1) > self.disk {
                put(segment.from, end, 0, stream.open_rounds());
            }
        }
        for other in streams {
            if other.cabs & stream.cabs != 0 {
                put(
                    other.shows(),
                    other.end(),
                    stream.prefetch,
                    stream.sizes.len(),
                );
            }
        }
        intervals.sort_unstable();
        intervals
    }

    /// The first of the starts that memory takes. `near` is a round of the stream's own in which a start before was refused: there
    /// the next one sends the same bytes, and in the round before it the day holds the same.
    fn first_held(
        &self,
        starts: Range<usize>,
        helds: Option<&[u64]>,
        near: &mut usize,
    ) -> Option<usize> {
        let Some(helds) = helds else {
            return (!starts.is_empty()).then_some(starts.start);
        };
        let rounds = self.profile.len();
        for start in starts {
            let held = &helds[start..start + rounds];
            let over = |round: usize| held[round] + self.profile[round] > self.memory;
            if over(*near) {
                continue;
            }
            if *near > 0 && over(*near - 1) {
                *near -= 1;
                continue;
            }
            match last_over(held, self.profile, self.memory) {
                None => return Some(start),
                Some(round) => *near = round,
            }
        }
        None
    }
}

/// Rounds that are tested together.
const TOGETHER: usize = 64;

/// The last round in which memory is passed. No sum reaches 2^63, so that a difference below 0 shows in the top bit.
fn last_over(held: &[u64], profile: &[u64], memory: u64) -> Option<usize> {
    let mut end = held.len();
    while end > 0 {
        let from = end.saturating_sub(TOGETHER);
        let (held, profile) = (&held[from..end], &profile[from..end]);
        let any = held.iter().zip(profile).fold(0, |any, (held, more)| {
            any | memory.wrapping_sub(held + more)
        });
        if any >> 63 != 0 {
            let over = |(held, more): (&u64, &u64)| held + more > memory;
            return held.iter().zip(profile).rposition(over).map(|at| from + at);
        }
        end = from;
    }
    None
}

//! Why no start of a window fits: for each start whether the disk, memory or a cab refuses it.

use super::record::film_rounds;
use crate::scheduler::Sheet;
use playback::limits::MAX_RESERVE;
use playback::{lent, Booking, Day, Request};
use reference::loss::loss;

/// For each start of a window, in order, what refuses it.
#[derive(Clone, Debug, Default, PartialEq, Eq)]
pub struct Blocked {
    pub disk: Vec<bool>,
    pub memory: Vec<bool>,
    pub cabs: Vec<bool>,
}

/// Rounds from `from` on, `count` of them.
#[derive(Clone, Copy)]
struct Rounds {
    from: u64,
    count: u64,
}

impl Rounds {
    fn meet(&self, other: &Rounds) -> bool {
        self.from < other.from + other.count && other.from < self.from + self.count
    }
}

/// What the stream of a request holds by round: its read totals less what it has sent before. Read at the largest reserve with no
/// pre-fetch, a film's totals are what it sends.
fn profile(file: &[u8], request: &Request, rounds: u64) -> Vec<u64> {
    let totals = |prefetch: u64, reserve: u64| {
        let mut totals = vec![0; (prefetch + rounds) as usize];
        lent::schedule(file, request.film, prefetch, reserve, &mut totals);
        totals
    };
    let sent = totals(0, MAX_RESERVE);
    let nothing = std::iter::repeat_n(&0, request.prefetch as usize + 1);
    let read = totals(request.prefetch, request.reserve);
    let before = nothing.chain(&sent);
    read.iter()
        .zip(before)
        .map(|(read, sent)| read - sent)
        .collect()
}

/// What refuses each start of a request that was refused 22, by the sheet of the standing bookings, which that leaves.
pub fn blocked(
    file: &[u8],
    day: &Day,
    standing: &[Booking],
    sheet: &Sheet,
    request: &Request,
) -> Blocked {
    let rounds = film_rounds(file, request.film);
    let profile = profile(file, request, rounds);
    let busy: Vec<Rounds> = standing
        .iter()
        .filter(|other| other.cabs & request.cabs != 0)
        .map(|other| Rounds {
            from: u64::from(other.start) + u64::from(other.prefetch),
            count: film_rounds(file, other.film.into()),
        })
        .collect();
    let disk_full = |round: &usize| {
        let demand = sheet.reserves[*round] + request.reserve;
        demand + loss(sheet.opens[*round] + 1) > day.disk
    };
    let all = 0..day.rounds as usize;
    let full: Vec<usize> = all.filter(|round| disk_full(round)).collect();
    let mut blocked = Blocked::default();
    for start in request.first..=request.last {
        let from = start as usize;
        let next_full = full.partition_point(|&round| round < from);
        let disk = full
            .get(next_full)
            .is_some_and(|&round| round < from + profile.len());
        let held = sheet.helds[from..].iter().zip(&profile);
        let memory = held
            .map(|(held, more)| held + more)
            .any(|held| held > day.memory);
        let shows = Rounds {
            from: start + request.prefetch,
            count: rounds,
        };
        blocked.disk.push(disk);
        blocked.memory.push(memory);
        blocked
            .cabs
            .push(busy.iter().any(|other| other.meet(&shows)));
    }
    blocked
}

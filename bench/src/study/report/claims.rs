//! What the papers claimed beside what is seen here.

use super::{best_way, Study, Way, MILLION};
use crate::document::sentences;
use crate::study::film::SHAPE;
use crate::study::policy::{Disk, Memory};
use crate::study::trial::{Trial, SCARCE, TOGETHER};

impl Study {
    /// What each paper claimed beside what is seen here; `found` has the counts row by row.
    pub(super) fn claims(&self, found: &[u32]) -> String {
        let row = |way: usize| &found[4 * way..4 * way + 4];
        let (ct, cd, mr, desk) = (row(0), row(1), row(4), row(6));
        let admitted = |way, trial: Trial, memory: u64| {
            eprintln!(
                "study: claims, {} requests, M {memory} million",
                trial.requests
            );
            self.outcome(way, trial, memory * MILLION).1.admitted
        };
        let wide = admitted(best_way(256, Disk::Reserve, Memory::Peak), TOGETHER, 150);
        let constant = admitted(Way::ConstantRate, TOGETHER, 150);
        let peak = |disk| Way::Fixed {
            prefetch: 0,
            reserve: SHAPE.peak,
            disk,
        };
        let exact = admitted(peak(Disk::Reads), SCARCE, 120);
        let ahead = admitted(best_way(20, Disk::Reads, Memory::Held), SCARCE, 120);
        let reserved = admitted(best_way(20, Disk::Reserve, Memory::Held), SCARCE, 120);
        let rows = [
            (
                "000, XI: with 120 MB and 10 s of pre-fetch, MR takes 50 % more streams than CT",
                format!("together, p 20, M 120: {}", compared(mr[1], ct[1])),
            ),
            (
                "000, XI: with 150 MB and 135 s, MR takes 275 % more than CD, which is memory bound",
                format!("together, p 256 (128 s), M 150: {}", compared(wide, constant)),
            ),
            (
                "000, VI and VIII: CT cannot use memory, MR trades memory for disk",
                format!(
                    "together, from M 60 to M 120: CT {} to {}, CD {} to {}, MR with p 20 {} to {}",
                    ct[0], ct[1], cd[0], cd[1], mr[0], mr[1]
                ),
            ),
            (
                "000, III: bandwidth and buffer are fixed for the whole session",
                format!(
                    "held bytes charged by round, not the peak: staggered, p 20, M 60: {}; M 120: {}; together no difference",
                    compared(desk[2], mr[2]),
                    compared(desk[3], mr[3])
                ),
            ),
            (
                "002, 4.2: each round's exact transfers are reserved",
                format!(
                    "staggered, D 10,000,000, M 120, p 20, exact reads against a constant reserve: {}",
                    compared(ahead, reserved)
                ),
            ),
            (
                "002, 5: reading ahead at the server adds 10 to 15 % to that",
                format!(
                    "staggered, D 10,000,000, M 120, exact reads, p 20 against no read-ahead: {}",
                    compared(ahead, exact)
                ),
            ),
            (
                "004, Tables 2 and 3: with one overload in 10,000 rounds, 28 to 130 % (24 Mbit/s) and 13 to 83 % (96 Mbit/s) more \
                 than deterministic admission",
                format!(
                    "no overload is ever admitted here; our desk with p 20 against peak rate, staggered, M 120: {}",
                    compared(desk[3], ct[3])
                ),
            ),
        ];
        let rows: Vec<_> = rows
            .iter()
            .map(|(claim, seen)| vec![claim.to_string(), seen.clone()])
            .collect();
        sentences(&["claimed", "seen here"], &rows)
    }
}

/// Two counts with the difference in percent.
fn compared(many: u32, few: u32) -> String {
    let percent = 100.0 * (f64::from(many) / f64::from(few.max(1)) - 1.0);
    format!("{many} against {few}, {percent:+.0} %")
}

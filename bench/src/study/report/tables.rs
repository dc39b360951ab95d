//! The tables of the film and of the streams admitted.

use super::{Study, MILLION};
use crate::document::{grouped, table};
use crate::study::film::{checksum, SEED, SHAPE};
use crate::study::policy::Policy;
use crate::study::trial::{DISK, STAGGERED, TOGETHER};
use playback::lent;

impl Study {
    /// The film's figures, by the library's summary.
    pub fn film_table(&self) -> String {
        let figures = lent::summary(&self.file, 1);
        let constant = Policy::constant_rate(&self.file, &self.sizes);
        let rows = [
            ("seed", SEED),
            ("rounds of half a second", SHAPE.rounds as u64),
            ("mean size, bytes (3.8 Mbit/s)", figures.mean),
            ("largest size, bytes (14 Mbit/s)", figures.largest),
            ("total, bytes", figures.total),
            ("checksum of the sizes", checksum(&self.sizes)),
            ("read at the mean rate: pre-fetch rounds", constant.prefetch),
            ("read at the mean rate: buffer, bytes", constant.peak),
            ("largest mean of 8 rounds, bytes", self.group_mean()),
        ];
        let rows: Vec<_> = rows
            .iter()
            .map(|&(name, value)| vec![name.to_string(), grouped(value)])
            .collect();
        table(&["film", ""], &rows)
    }

    /// Streams admitted under each way of reserving, and the figures that the claims want.
    pub fn tables(&self) -> (String, String, String) {
        let mut counts = Vec::new();
        let mut details = Vec::new();
        let mut found = Vec::new();
        for (name, way) in self.ways() {
            let mut row = vec![name.to_string()];
            for (trial, memory) in [
                (TOGETHER, 60),
                (TOGETHER, 120),
                (STAGGERED, 60),
                (STAGGERED, 120),
            ] {
                eprintln!(
                    "study: {name}, {} requests, M {memory} million",
                    trial.requests
                );
                let (policy, outcome) = self.outcome(way, trial, memory * MILLION);
                row.push(format!(
                    "{} ({})",
                    outcome.admitted,
                    grouped(policy.reserve)
                ));
                if (trial, memory) == (STAGGERED, 120) {
                    details.push(vec![
                        name.to_string(),
                        policy.prefetch.to_string(),
                        grouped(policy.reserve),
                        grouped(policy.peak),
                        outcome.admitted.to_string(),
                        outcome.open.to_string(),
                        format!("{:.1}", outcome.wait),
                        grouped(outcome.held),
                    ]);
                }
                found.push(outcome.admitted);
            }
            counts.push(row);
        }
        let counts = table(
            &[
                "way of reserving",
                "together, M 60",
                "together, M 120",
                "staggered, M 60",
                "staggered, M 120",
            ],
            &counts,
        );
        let details = table(
            &[
                "staggered, M 120",
                "p",
                "reserve",
                "stream's peak",
                "admitted",
                "most open",
                "mean wait, rounds",
                "most held",
            ],
            &details,
        );
        (counts, details, self.claims(&found))
    }

    /// The set-up in one line.
    pub fn setting() -> String {
        format!(
            "D {} bytes a round, house loss, {} requests together or {} every {} rounds with windows of {} starts.",
            grouped(DISK),
            TOGETHER.requests,
            STAGGERED.requests,
            STAGGERED.spacing,
            STAGGERED.window
        )
    }
}

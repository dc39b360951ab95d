//! Tables of times.

use super::cases::Case;
use super::contest::{contest, Call, Contest, Slow, State};
use crate::days::{day, Size};
use crate::document::{grouped, table};
use crate::measure::{seconds, Effort};

/// What a run measured: each case's name with the library's time and its ratio to the fast version's.
#[derive(Default)]
pub struct Measured(Vec<(String, f64, f64)>);

impl Measured {
    fn put(&mut self, name: &str, contest: &Contest) {
        let time = contest.library.median();
        self.0.push((name.to_string(), time, contest.ratio()));
    }

    /// The library's time in a case.
    pub fn time(&self, name: &str) -> Option<f64> {
        let found = self.0.iter().find(|(other, _, _)| other == name);
        found.map(|&(_, time, _)| time)
    }

    /// How many ratios are at most 1.0 and at most 1.2, and the largest; nothing where no case was measured.
    pub fn summary(&self) -> Option<String> {
        let at_most = |bound: f64| self.0.iter().filter(|case| case.2 <= bound).count();
        let (name, _, ratio) = self
            .0
            .iter()
            .max_by(|one, other| one.2.total_cmp(&other.2))?;
        Some(format!(
            "Of {} cases the library takes at most the fast version's time in {}, at most 1.2 times it in {}; the largest is {ratio:.2} ({name}).\n",
            self.0.len(),
            at_most(1.0),
            at_most(1.2),
        ))
    }
}

/// A row for each case.
pub fn cases_table(cases: &[Case], effort: Effort, measured: &mut Measured) -> String {
    let mut rows = Vec::new();
    for case in cases {
        eprintln!("bench: {}", case.name);
        let contest = contest(case.call, &case.state, effort, true);
        measured.put(&case.name, &contest);
        let library = contest.library.median();
        let (slow, ahead) = match contest.slow {
            Slow::NotTried => (String::new(), String::new()),
            Slow::Takes(time) => (seconds(time), format!("{:.0}", time / library)),
            Slow::Over(time) if time < library => {
                (format!("over {}", seconds(time)), "–".to_string())
            }
            Slow::Over(time) => (
                format!("over {}", seconds(time)),
                format!("over {:.0}", time / library),
            ),
        };
        rows.push(vec![
            case.name.clone(),
            seconds(library),
            match contest.library.runs() {
                1 => "one run".to_string(),
                _ => format!("{:.1} %", contest.library.spread()),
            },
            seconds(contest.fast.median()),
            format!("{:.1} %", contest.fast.spread()),
            format!("{:.2}", contest.ratio()),
            slow,
            ahead,
        ]);
    }
    table(
        &[
            "case",
            "library",
            "±",
            "fast Rust",
            "±",
            "library / fast",
            "obvious Rust",
            "obvious / library",
        ],
        &rows,
    )
}

const ROUNDS: [u64; 3] = [1_024, 8_192, 86_400];
const FILMS: [u64; 3] = [64, 512, 4_096];
const BOOKINGS: [u64; 4] = [1, 16, 64, 256];

/// Each call's times over the sizes of a day, and how far the obvious version is behind.
pub fn grid_tables(effort: Effort, measured: &mut Measured) -> Vec<(&'static str, String)> {
    let calls = [
        ("book", Call::Book),
        ("drop", Call::Drop),
        ("play", Call::Play),
    ];
    let mut rows: Vec<Vec<Vec<String>>> = vec![Vec::new(); calls.len()];
    let mut spreads: Vec<Vec<f64>> = vec![Vec::new(); calls.len()];
    for rounds in ROUNDS {
        for film in FILMS.into_iter().filter(|film| film + 20 < rounds) {
            let name = format!("{} / {}", grouped(rounds), grouped(film));
            let mut cells: Vec<Vec<String>> = vec![vec![name.clone()]; calls.len()];
            for bookings in BOOKINGS {
                let size = Size {
                    rounds,
                    bookings,
                    film,
                };
                if !size.possible() {
                    cells.iter_mut().for_each(|row| row.push("–".to_string()));
                    continue;
                }
                eprintln!("bench: {name}, {bookings} bookings");
                let state = State::new(day(size));
                for (place, &(call_name, call)) in calls.iter().enumerate() {
                    let mut state = state.clone();
                    if call == Call::Book && bookings == 256 {
                        // A full list takes no booking, so that one stands less.
                        state.fixture.day.count -= 1;
                        state.fixture.lay_sheet();
                    }
                    let contest = contest(call, &state, effort, true);
                    measured.put(&format!("{call_name}, {name}, {bookings}"), &contest);
                    spreads[place].push(contest.library.spread());
                    let mark = if contest.refusal == 0 { "" } else { " *" };
                    let (time, ratio) = (contest.library.median(), contest.ratio());
                    let behind = match contest.slow {
                        Slow::Takes(slow) => format!("{:.0}", slow / time),
                        Slow::Over(slow) => format!("over {:.0}", slow / time),
                        Slow::NotTried => "–".to_string(),
                    };
                    let cell = format!("{} ({ratio:.2}; {behind}){mark}", seconds(time));
                    cells[place].push(cell);
                }
            }
            for (rows, cells) in rows.iter_mut().zip(cells) {
                rows.push(cells);
            }
        }
    }
    let heads = |call: &'static str| {
        [
            call,
            "1 booking",
            "16 bookings",
            "64 bookings",
            "256 bookings",
        ]
    };
    let tables = calls.iter().zip(rows).zip(spreads);
    tables
        .map(|((&(call, _), rows), mut spreads)| {
            spreads.sort_by(f64::total_cmp);
            let spread = format!(
                "\nSpread: {:.1} % of the median in the middle case, {:.1} % in the widest.\n",
                spreads[spreads.len() / 2],
                spreads[spreads.len() - 1]
            );
            (call, table(&heads(call), &rows) + &spread)
        })
        .collect()
}

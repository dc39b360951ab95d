//! How times grow with the rounds of a day, its bookings and its films' rounds, each alone.

use super::contest::{contest, Call, State};
use crate::chart::{Axis, Panel, Series};
use crate::days::{day, Size};
use crate::document::{grouped, table};
use crate::measure::{seconds, slope, Effort};
use crate::svg::{colours, Anchor, Picture};

/// One size that grows.
struct Sweep {
    title: &'static str,
    axis: &'static str,
    sizes: Vec<(u64, Size)>,
}

fn sweeps() -> Vec<Sweep> {
    let sizes = |values: &[u64], size: &dyn Fn(u64) -> Size| {
        values.iter().map(|&value| (value, size(value))).collect()
    };
    vec![
        Sweep {
            title: "Rounds of the day",
            axis: "rounds (16 bookings of 512)",
            sizes: sizes(
                &[1_024, 2_048, 4_096, 8_192, 16_384, 32_768, 86_400],
                &|rounds| Size {
                    rounds,
                    bookings: 16,
                    film: 512,
                },
            ),
        },
        Sweep {
            title: "Bookings",
            axis: "bookings (8,192 rounds, films of 512)",
            sizes: sizes(&[1, 2, 4, 8, 16, 32, 64, 128, 255], &|bookings| Size {
                rounds: 8_192,
                bookings,
                film: 512,
            }),
        },
        Sweep {
            title: "Rounds of a film",
            axis: "rounds of each film (86,400 rounds, 64 bookings)",
            sizes: sizes(&[64, 128, 256, 512, 1_024, 2_048, 4_096], &|film| Size {
                rounds: 86_400,
                bookings: 64,
                film,
            }),
        },
    ]
}

const CALLS: [(&str, Call, &str); 3] = [
    ("book", Call::Book, colours::BLUE),
    ("drop", Call::Drop, colours::GREEN),
    ("play", Call::Play, colours::ORANGE),
];

/// The tables and the picture.
pub fn growth(effort: Effort) -> (String, String) {
    let mut text = String::new();
    let mut picture = Picture::new(1260.0, 400.0);
    for (place, sweep) in sweeps().into_iter().enumerate() {
        let mut library: Vec<Vec<(f64, f64)>> = vec![Vec::new(); CALLS.len()];
        let mut fast = library.clone();
        let mut rows = Vec::new();
        for &(value, size) in &sweep.sizes {
            eprintln!("bench: growth, {} {value}", sweep.title);
            let state = State::new(day(size));
            let mut row = vec![grouped(value)];
            for (call, &(_, kind, _)) in CALLS.iter().enumerate() {
                let contest = contest(kind, &state, effort, false);
                let (own, other) = (contest.library.median(), contest.fast.median());
                library[call].push((value as f64, own));
                fast[call].push((value as f64, other));
                row.push(seconds(own));
                row.push(seconds(other));
            }
            rows.push(row);
        }
        let mut slopes = vec!["slope".to_string()];
        let mut last = vec!["slope, last two".to_string()];
        for call in 0..CALLS.len() {
            for points in [&library[call], &fast[call]] {
                slopes.push(format!("{:.2}", slope(points)));
                last.push(format!("{:.2}", slope(&points[points.len() - 2..])));
            }
        }
        rows.push(slopes);
        rows.push(last);
        let heads = [sweep.axis, "book", "fast", "drop", "fast", "play", "fast"];
        text += &format!("\n{}", table(&heads, &rows));
        panel(place, &sweep, &library, &fast).draw(&mut picture);
    }
    let note = "points: library, with the slope of the line through them; dashed: fast Rust";
    picture.text(80.0, 390.0, Anchor::Start, "", note);
    (text, picture.finished())
}

fn panel(
    place: usize,
    sweep: &Sweep,
    library: &[Vec<(f64, f64)>],
    fast: &[Vec<(f64, f64)>],
) -> Panel {
    let values: Vec<f64> = sweep.sizes.iter().map(|&(value, _)| value as f64).collect();
    let ends = (values[0], values[values.len() - 1]);
    let ticks = values.iter().enumerate();
    let ticks = ticks.filter(|(place, _)| (values.len() - 1 - place).is_multiple_of(2));
    let ticks = ticks.map(|(_, &value)| (value, grouped(value as u64)));
    let across = Axis::logarithmic(sweep.axis, ends.0, ends.1, ticks.collect());
    let up = Axis::logarithmic(
        "time of a call",
        1e-6,
        1e-2,
        [1e-6, 1e-5, 1e-4, 1e-3, 1e-2]
            .map(|time: f64| {
                let text = if time < 1e-3 {
                    format!("{:.0} µs", time * 1e6)
                } else {
                    format!("{:.0} ms", time * 1e3)
                };
                (time, text)
            })
            .to_vec(),
    );
    let mut series = Vec::new();
    for (call, &(name, _, colour)) in CALLS.iter().enumerate() {
        let line = |name: String, points: &[(f64, f64)], dashed: bool| Series {
            name,
            colour,
            points: points.to_vec(),
            markers: !dashed,
            dashed,
        };
        let named = format!("{name} {:.2}", slope(&library[call]));
        series.push(line(named, &library[call], false));
        series.push(line(String::new(), &fast[call], true));
    }
    Panel {
        title: sweep.title.to_string(),
        corner: (80.0 + 415.0 * place as f64, 50.0),
        size: (260.0, 280.0),
        across,
        up,
        series,
        levels: Vec::new(),
    }
}

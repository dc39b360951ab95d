//! The study's picture.

use super::{best_way, Study, Way, MILLION};
use crate::chart::{Axis, Panel, Series};
use crate::study::film::{least_reserve, SHAPE};
use crate::study::policy::{Disk, Memory};
use crate::study::trial::{Trial, STAGGERED, TOGETHER};
use crate::svg::{colours, Picture};

impl Study {
    /// The film, what memory buys, and the streams admitted by memory.
    pub fn picture(&self) -> String {
        let mut picture = Picture::new(1220.0, 750.0);
        let millions = |bytes: f64| format!("{:.0}", bytes / 1e6);
        let (size, left, right) = ((400.0, 265.0), 75.0, 685.0);
        let (top, lower) = (50.0, 425.0);
        let panel = |title: &str, corner, across, up, series| Panel {
            title: title.to_string(),
            corner,
            size,
            across,
            up,
            series,
            levels: Vec::new(),
        };
        let trace = self.sizes.iter().enumerate();
        let trace = trace.map(|(round, &size)| (round as f64, f64::from(size)));
        let mut film = panel(
            "The film: bytes sent by round",
            (left, top),
            Axis::linear("round of half a second", 1_200.0, 6, |round| {
                format!("{round:.0}")
            }),
            Axis::linear("thousand bytes", 1e6, 5, |bytes| {
                format!("{:.0}", bytes / 1e3)
            }),
            vec![line("", colours::BLUE, trace.collect(), false)],
        );
        film.levels = vec![
            (
                SHAPE.mean as f64,
                "mean 237,500".to_string(),
                colours::BLACK,
            ),
            (
                SHAPE.peak as f64,
                "peak 875,000".to_string(),
                colours::BLACK,
            ),
        ];
        film.draw(&mut picture);
        panel(
            "What memory buys: least reserve by memory of one stream",
            (right, top),
            Axis::linear("memory cap of the stream, million bytes", 60e6, 6, millions),
            Axis::linear("reserve, thousand bytes a round", 1e6, 5, |bytes| {
                format!("{:.0}", bytes / 1e3)
            }),
            self.relations(),
        )
        .draw(&mut picture);
        let memory = || Axis::linear("memory limit M, million bytes", 160e6, 8, millions);
        let count = |value: f64| format!("{value:.0}");
        panel(
            "Streams that start together",
            (left, lower),
            memory(),
            Axis::linear("streams admitted, of 64", 64.0, 8, count),
            self.by_memory(TOGETHER, 10),
        )
        .draw(&mut picture);
        panel(
            "Streams that start staggered",
            (right, lower),
            memory(),
            Axis::linear("streams admitted, of 200", 200.0, 5, count),
            self.by_memory(STAGGERED, 20),
        )
        .draw(&mut picture);
        picture.finished()
    }

    /// The least reserve by the cap, for several pre-fetch times.
    fn relations(&self) -> Vec<Series> {
        let kinds = [
            (0, colours::ORANGE, "p 0"),
            (4, colours::SKY, "p 4 (2 s)"),
            (20, colours::BLUE, "p 20 (10 s)"),
            (256, colours::PURPLE, "p 256 (128 s)"),
        ];
        kinds
            .map(|(prefetch, colour, name)| {
                // Closer together where the reserve falls fast.
                let caps = (0..=80)
                    .map(|step| SHAPE.peak + step * step * (60 * MILLION - SHAPE.peak) / (80 * 80));
                let points = caps.filter_map(|cap| {
                    let reserve = least_reserve(&self.file, prefetch, cap)?;
                    Some((cap as f64, reserve as f64))
                });
                line(name, colour, points.collect(), false)
            })
            .to_vec()
    }

    /// The streams admitted by the memory limit, every `step` million bytes.
    fn by_memory(&self, trial: Trial, step: u64) -> Vec<Series> {
        let peak = Way::Fixed {
            prefetch: 0,
            reserve: SHAPE.peak,
            disk: Disk::Reserve,
        };
        let held = |prefetch| best_way(prefetch, Disk::Reserve, Memory::Held);
        let charged = best_way(20, Disk::Reserve, Memory::Peak);
        let exact = best_way(20, Disk::Reads, Memory::Held);
        let mut kinds = vec![
            ("peak rate", colours::ORANGE, peak, false),
            ("constant rate", colours::GREY, Way::ConstantRate, false),
            ("p 4", colours::SKY, held(4), false),
            ("p 20", colours::BLUE, held(20), false),
            ("p 20, peak charged", colours::BLUE, charged, true),
        ];
        if trial == STAGGERED {
            kinds.push(("p 20, exact reads", colours::GREEN, exact, true));
        }
        kinds
            .into_iter()
            .map(|(name, colour, way, dashed)| {
                let limits = (step..=160).step_by(step as usize);
                let points = limits.map(|memory| {
                    eprintln!(
                        "study: picture, {name}, {} requests, M {memory} million",
                        trial.requests
                    );
                    let (_, outcome) = self.outcome(way, trial, memory * MILLION);
                    ((memory * MILLION) as f64, f64::from(outcome.admitted))
                });
                Series {
                    markers: true,
                    ..line(name, colour, points.collect(), dashed)
                }
            })
            .collect()
    }
}

fn line(name: &str, colour: &'static str, points: Vec<(f64, f64)>, dashed: bool) -> Series {
    Series {
        name: name.to_string(),
        colour,
        points,
        markers: false,
        dashed,
    }
}

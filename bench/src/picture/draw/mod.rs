//! The picture of a recorded day.

mod cabs;
mod loads;
mod refusals;

use super::record::Record;
use crate::chart::round_step;
use crate::document::grouped;
use crate::svg::{colours, Anchor, Picture};

const LEFT: f64 = 112.0;
const WIDTH: f64 = 860.0;
const RIGHT: f64 = 300.0;
const HEIGHT: f64 = 120.0;
const GAP: f64 = 46.0;
/// Refused bookings that get a row; the rest are counted.
const MOST_REFUSED: usize = 40;
const REFUSED_ROW: f64 = 26.0;
/// Colours of films, in the order in which they are met.
const FILMS: [&str; 6] = [
    "#332288", "#44aa99", "#882255", "#999933", "#cc6677", "#88ccee",
];

struct Day<'a> {
    record: &'a Record,
    rounds: f64,
    films: Vec<u16>,
    cabs: Vec<u32>,
    cab_row: f64,
    bottom: f64,
}

/// The picture, as SVG.
pub fn draw(record: &Record) -> String {
    let named = record
        .accepted
        .iter()
        .fold(0, |all, one| all | one.booking.cabs);
    let cabs: Vec<u32> = (0..64).filter(|cab| named >> cab & 1 == 1).collect();
    let mut films: Vec<u16> = record.accepted.iter().map(|one| one.booking.film).collect();
    films.sort_unstable();
    films.dedup();
    let cab_row = if cabs.len() <= 24 { 18.0 } else { 11.0 };
    let shown = record.refused.len().min(MOST_REFUSED);
    let refused = if shown == 0 {
        0.0
    } else {
        GAP + REFUSED_ROW * shown as f64 + 32.0
    };
    let day = Day {
        record,
        rounds: record.day.rounds.max(1) as f64,
        films,
        cab_row,
        bottom: 80.0 + 2.0 * (HEIGHT + GAP) + cab_row * cabs.len() as f64 + refused,
        cabs,
    };
    let mut picture = Picture::new(LEFT + WIDTH + RIGHT, day.bottom + 50.0);
    day.draw_head(&mut picture);
    day.draw_now(&mut picture);
    let top = 80.0;
    day.draw_disk(&mut picture, top);
    let top = top + HEIGHT + GAP;
    day.draw_memory(&mut picture, top);
    let top = top + HEIGHT + GAP;
    day.draw_cabs(&mut picture, top);
    let top = top + day.cab_row * day.cabs.len() as f64 + GAP;
    day.draw_refused(&mut picture, top);
    day.draw_rounds(&mut picture);
    picture.finished()
}

fn count(number: usize, one: &str, more: &str) -> String {
    format!("{number} {}", if number == 1 { one } else { more })
}

impl Day<'_> {
    /// Where a round begins.
    fn at(&self, round: f64) -> f64 {
        LEFT + round / self.rounds * WIDTH
    }

    /// A film's colour; one for all where there are more films than colours.
    fn colour(&self, film: u16) -> &'static str {
        let place = self.films.iter().position(|&other| other == film);
        let few = self.films.len() <= FILMS.len();
        FILMS[place.filter(|_| few).unwrap_or(0)]
    }

    fn draw_head(&self, picture: &mut Picture) {
        let day = &self.record.day;
        let title = format!(
            "A day of {} rounds, disk limit {} bytes a round, memory limit {} bytes",
            grouped(day.rounds),
            grouped(day.disk),
            grouped(day.memory)
        );
        let bold = "font-size:15;font-weight:bold";
        picture.text(LEFT, 26.0, Anchor::Start, bold, &title);
        let dropped = self
            .record
            .accepted
            .iter()
            .filter(|one| one.dropped)
            .count();
        let text = format!(
            "{}, {} dropped, {} refused; the next round to play is {}",
            count(day.count as usize, "booking stands", "bookings stand"),
            dropped,
            self.record.refused.len(),
            grouped(day.now)
        );
        picture.text(LEFT, 45.0, Anchor::Start, "", &text);
    }

    /// What has been played is shaded.
    fn draw_now(&self, picture: &mut Picture) {
        let now = self.record.day.now;
        if now > 0 {
            let (x, top) = (self.at(now as f64), 62.0);
            let size = (x - LEFT, self.bottom - top);
            picture.rectangle((LEFT, top), size, "fill:#f3f3f3", "rounds played");
            picture.line(
                (x, top),
                (x, self.bottom),
                &format!("stroke:{};stroke-dasharray:2 3", colours::GREY),
            );
        }
    }

    fn draw_rounds(&self, picture: &mut Picture) {
        let style = format!("stroke:{}", colours::GREY);
        let y = self.bottom;
        picture.line((LEFT, y), (LEFT + WIDTH, y), &style);
        let step = round_step(self.rounds / 12.0).max(1.0);
        let mut tick = 0.0;
        while tick <= self.rounds {
            let x = self.at(tick);
            picture.line((x, y), (x, y + 4.0), &style);
            picture.text(x, y + 17.0, Anchor::Middle, "", &grouped(tick as u64));
            tick += step;
        }
        if self.record.day.now > 0 {
            let x = self.at(self.record.day.now as f64);
            picture.text(x + 4.0, y - 4.0, Anchor::Start, "font-size:11", "now");
        }
        picture.text(
            LEFT + WIDTH / 2.0,
            y + 35.0,
            Anchor::Middle,
            "",
            "round of the day",
        );
    }
}

/// Names with their colours, up to the right end of the rounds.
fn draw_legend(picture: &mut Picture, y: f64, entries: &[(&str, &str)]) {
    let width = |name: &str| 14.0 + 6.8 * name.len() as f64 + 12.0;
    let mut x = LEFT + WIDTH - entries.iter().map(|(name, _)| width(name)).sum::<f64>();
    for (name, colour) in entries {
        picture.rectangle((x, y - 9.0), (10.0, 10.0), &format!("fill:{colour}"), "");
        picture.text(x + 14.0, y, Anchor::Start, "font-size:11", name);
        x += width(name);
    }
}

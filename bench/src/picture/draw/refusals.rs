//! Refused bookings: their windows, and what refuses each start.

use super::{draw_legend, Day, LEFT, MOST_REFUSED, REFUSED_ROW, WIDTH};
use crate::document::grouped;
use crate::picture::record::Refused;
use crate::svg::{colours, Anchor, Picture};
use playback::Refusal;

/// Height of one of a refused booking's three strips.
const STRIP: f64 = 4.0;

impl Day<'_> {
    pub(super) fn draw_refused(&self, picture: &mut Picture, top: f64) {
        if self.record.refused.is_empty() {
            return;
        }
        let bold = "font-size:13;font-weight:bold";
        let title = "Refused bookings: the starts asked for (grey: the film after the last), what refuses each";
        picture.text(LEFT, top - 8.0, Anchor::Start, bold, title);
        let legend = [
            ("disk", colours::BLUE),
            ("memory", colours::GREEN),
            ("cab", colours::LIMIT),
        ];
        draw_legend(picture, top - 8.0, &legend);
        for (row, refused) in self.record.refused.iter().take(MOST_REFUSED).enumerate() {
            self.draw_refusal(picture, top + REFUSED_ROW * row as f64, refused);
        }
        let more = self.record.refused.len().saturating_sub(MOST_REFUSED);
        if more > 0 {
            let y = top + REFUSED_ROW * MOST_REFUSED as f64 + 12.0;
            let text = format!("and {more} more");
            picture.text(LEFT, y, Anchor::Start, "", &text);
        }
    }

    fn draw_refusal(&self, picture: &mut Picture, y: f64, refused: &Refused) {
        let request = &refused.request;
        let text = format!("{}, film {}", request.name, request.film);
        picture.text(LEFT - 6.0, y + 15.0, Anchor::End, "font-size:11", &text);
        let text = format!("NO {}: {}", refused.number, reason(refused));
        let style = format!("font-size:11;fill:{}", colours::LIMIT);
        picture.text(LEFT + WIDTH + 7.0, y + 15.0, Anchor::Start, &style, &text);
        let last_round = self.record.day.rounds;
        let first = request.first.min(last_round);
        let last = request.last.saturating_add(1).clamp(first, last_round);
        let (left, right) = (self.at(first as f64), self.at(last as f64));
        let width = (right - left).max(2.0);
        let title = format!(
            "booking {}: starts {} to {}, pre-fetch {}, reserve {}, cabs {}, film of {} rounds",
            request.name,
            grouped(request.first),
            grouped(request.last),
            grouped(request.prefetch),
            grouped(request.reserve),
            cab_names(request.cabs),
            grouped(refused.rounds)
        );
        let Some(blocked) = &refused.blocked else {
            let style = format!("fill:none;stroke:{}", colours::LIMIT);
            let height = 3.0 * STRIP + 4.0;
            picture.rectangle((left, y + 3.0), (width, height), &style, &title);
            let cross = [
                ((left, y + 3.0), (left + width, y + 3.0 + height)),
                ((left, y + 3.0 + height), (left + width, y + 3.0)),
            ];
            for (from, to) in cross {
                picture.line(from, to, &format!("stroke:{}", colours::LIMIT));
            }
            return;
        };
        let height = 3.0 * (STRIP + 2.0) + 1.0;
        let reach = request.prefetch + refused.rounds - 1;
        let end = (self.at((last + reach) as f64) - left).max(width);
        picture.rectangle((left, y + 2.0), (end, height), "fill:#e9e9e9", &title);
        let style = format!("fill:#ffffff;stroke:{}", colours::GREY);
        picture.rectangle((left, y + 2.0), (width, height), &style, &title);
        let strips = [
            (&blocked.disk, colours::BLUE),
            (&blocked.memory, colours::GREEN),
            (&blocked.cabs, colours::LIMIT),
        ];
        for (place, (strip, colour)) in strips.into_iter().enumerate() {
            let top = y + 3.5 + place as f64 * (STRIP + 2.0);
            let mut start = 0;
            for run in strip.chunk_by(|one, other| one == other) {
                if run[0] {
                    let from = self.at((request.first + start) as f64);
                    let to = self.at((request.first + start + run.len() as u64) as f64);
                    let size = ((to - from).max(0.8), STRIP);
                    picture.rectangle((from, top), size, &format!("fill:{colour}"), "");
                }
                start += run.len() as u64;
            }
        }
    }
}

/// What refused a booking, in a few words.
fn reason(refused: &Refused) -> String {
    let Some(blocked) = &refused.blocked else {
        let meaning = Refusal::from_number(refused.number).map(Refusal::meaning);
        return meaning.unwrap_or("").to_string();
    };
    let starts = |strip: &[bool]| strip.iter().filter(|&&refused| refused).count() as u64;
    let strips = [
        ("disk", &blocked.disk),
        ("memory", &blocked.memory),
        ("cab", &blocked.cabs),
    ];
    let refusing = strips.iter().filter(|(_, strip)| starts(strip) > 0);
    let refusing = refusing.map(|(name, strip)| format!("{name} {}", grouped(starts(strip))));
    let refusing: Vec<String> = refusing.collect();
    let all = grouped(blocked.disk.len() as u64);
    format!("{all} starts: {}", refusing.join(", "))
}

/// The cabs of a set, by number from 1.
fn cab_names(cabs: u64) -> String {
    let names = (0..64).filter(|cab| cabs >> cab & 1 == 1);
    let names: Vec<String> = names.map(|cab| (cab + 1).to_string()).collect();
    names.join(" ")
}

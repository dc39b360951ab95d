//! Bookings on their cabs.

use super::{count, draw_legend, Day, FILMS, LEFT, WIDTH};
use crate::document::grouped;
use crate::picture::record::Accepted;
use crate::svg::{colours, Anchor, Picture};

impl Day<'_> {
    pub(super) fn draw_cabs(&self, picture: &mut Picture, top: f64) {
        let bold = "font-size:13;font-weight:bold";
        picture.text(LEFT, top - 8.0, Anchor::Start, bold, "Cabs");
        let mut legend: Vec<(String, &str)> = Vec::new();
        if self.films.len() <= FILMS.len() {
            for &film in &self.films {
                legend.push((format!("film {film}"), self.colour(film)));
            }
        } else {
            legend.push((count(self.films.len(), "film", "films"), FILMS[0]));
        }
        legend.push(("pre-fetch, paler".to_string(), "#c9d6de"));
        let legend: Vec<(&str, &str)> = legend
            .iter()
            .map(|(name, colour)| (name.as_str(), *colour))
            .collect();
        draw_legend(picture, top - 8.0, &legend);
        for (row, cab) in self.cabs.iter().enumerate() {
            let y = top + self.cab_row * row as f64;
            let style = format!("stroke:{}", colours::LIGHT);
            let floor = y + self.cab_row;
            picture.line((LEFT, floor), (LEFT + WIDTH, floor), &style);
            let text = format!("cab {}", cab + 1);
            let size = format!("font-size:{}", (self.cab_row - 2.0).min(11.0));
            picture.text(LEFT - 6.0, floor - 4.0, Anchor::End, &size, &text);
            let on_cab = |one: &&Accepted| one.booking.cabs >> cab & 1 == 1;
            for one in self.record.accepted.iter().filter(on_cab) {
                self.draw_wait(picture, y, one);
            }
            for one in self.record.accepted.iter().filter(on_cab) {
                self.draw_booking(picture, y, one);
            }
        }
    }

    /// A line from the first start that was asked for to the start.
    fn draw_wait(&self, picture: &mut Picture, y: f64, one: &Accepted) {
        let start = u64::from(one.booking.start);
        if one.first < start && !one.dropped {
            let middle = y + self.cab_row / 2.0;
            let style = format!("stroke:{}", colours::GREY);
            let (from, to) = (self.at(one.first as f64), self.at(start as f64));
            picture.line((from, middle), (to, middle), &style);
            picture.line((from, middle - 3.0), (from, middle + 3.0), &style);
        }
    }

    /// A booking on one of its cabs: its pre-fetch rounds pale, those in which it shows full.
    fn draw_booking(&self, picture: &mut Picture, y: f64, one: &Accepted) {
        let booking = &one.booking;
        let start = u64::from(booking.start);
        let shows = start + u64::from(booking.prefetch);
        let end = shows + one.rounds;
        let x = |round: u64| self.at(round as f64);
        let (top, height) = (y + 2.0, self.cab_row - 4.0);
        let title = format!(
            "booking {}: film {}, asked for round {} on, starts in {}, shows in {} to {}, reserve {}{}",
            booking.name,
            booking.film,
            grouped(one.first),
            grouped(start),
            grouped(shows),
            grouped(end - 1),
            grouped(booking.reserve.into()),
            if one.dropped { ", dropped" } else { "" }
        );
        if one.dropped {
            let style = format!("fill:none;stroke:{};stroke-dasharray:3 2", colours::GREY);
            let size = (x(end) - x(start), height);
            picture.rectangle((x(start), top), size, &style, &title);
        } else {
            let colour = self.colour(booking.film);
            if booking.prefetch > 0 {
                let size = (x(shows) - x(start), height);
                picture.rectangle((x(start), top), size, "fill:#ffffff", "");
                let style = format!("fill:{colour};fill-opacity:0.4");
                picture.rectangle((x(start), top), size, &style, &title);
            }
            let size = ((x(end) - x(shows)).max(0.8), height);
            let style = format!("fill:{colour}");
            picture.rectangle((x(shows), top), size, &style, &title);
        }
        let name = booking.name.to_string();
        let room = x(end) - x(shows);
        if room > 7.0 * name.len() as f64 + 2.0 && self.cab_row >= 11.0 {
            let size = (self.cab_row - 5.0).min(11.0);
            let style = if one.dropped {
                format!("font-size:{size};fill:{}", colours::GREY)
            } else if self.colour(booking.film) == FILMS[5] {
                format!("font-size:{size}")
            } else {
                format!("font-size:{size};fill:#ffffff")
            };
            let middle = (x(shows) + x(end)) / 2.0;
            let line = y + self.cab_row / 2.0 + size * 0.36;
            picture.text(middle, line, Anchor::Middle, &style, &name);
        }
    }
}

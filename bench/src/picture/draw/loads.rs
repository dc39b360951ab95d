//! Disk and memory by round, with their limits.

use super::{draw_legend, Day, HEIGHT, LEFT, WIDTH};
use crate::chart::round_step;
use crate::document::grouped;
use crate::svg::{colours, Anchor, Picture};
use reference::loss::loss;

impl Day<'_> {
    /// The frame of a list by round up to `most`, with ticks and a limit.
    fn draw_frame(
        &self,
        picture: &mut Picture,
        top: f64,
        title: &str,
        most: f64,
        limit: u64,
        limit_name: &str,
    ) {
        let bold = "font-size:13;font-weight:bold";
        picture.text(LEFT, top - 8.0, Anchor::Start, bold, title);
        let height = |value: f64| top + HEIGHT * (1.0 - value / most);
        let step = round_step(most / 5.0);
        let mut tick = 0.0;
        while tick <= most {
            let y = height(tick);
            let style = format!("stroke:{}", colours::LIGHT);
            picture.line((LEFT, y), (LEFT + WIDTH, y), &style);
            let text = grouped(tick as u64);
            picture.text(LEFT - 6.0, y + 4.0, Anchor::End, "font-size:11", &text);
            tick += step;
        }
        let y = height(limit as f64);
        if y >= top - 1.0 {
            let style = format!(
                "stroke:{};stroke-width:1.5;stroke-dasharray:7 4",
                colours::LIMIT
            );
            picture.line((LEFT, y), (LEFT + WIDTH, y), &style);
            let text = format!("{limit_name} {}", grouped(limit));
            let style = format!("fill:{}", colours::LIMIT);
            picture.text(LEFT + WIDTH + 7.0, y + 4.0, Anchor::Start, &style, &text);
        } else {
            let text = format!("{limit_name} {} is above", grouped(limit));
            let style = format!("fill:{}", colours::LIMIT);
            picture.text(LEFT + WIDTH + 7.0, top + 8.0, Anchor::Start, &style, &text);
        }
    }

    /// The largest value of each column of the picture, with the round at which it stands: a column is a round, or more where the
    /// day has more rounds than the picture has columns.
    fn columns(&self, value: impl Fn(usize) -> u64) -> Vec<(f64, f64, usize)> {
        let rounds = self.record.day.rounds as usize;
        let columns = rounds.min(WIDTH as usize);
        let bounds = |column: usize| column * rounds / columns;
        let column = |column: usize| {
            let (from, to) = (bounds(column), bounds(column + 1));
            let largest = (from..to).max_by_key(|&round| value(round)).unwrap_or(from);
            (self.at(from as f64), self.at(to as f64), largest)
        };
        (0..columns).map(column).collect()
    }

    /// The area under a list's columns.
    fn draw_area(
        &self,
        picture: &mut Picture,
        top: f64,
        most: f64,
        columns: &[(f64, f64, usize)],
        value: impl Fn(usize) -> u64,
        colour: &str,
    ) {
        let ground = top + HEIGHT;
        let mut points = vec![(LEFT, ground)];
        for &(from, to, round) in columns {
            let y = ground - HEIGHT * value(round) as f64 / most;
            if points.last().is_some_and(|last| last.1 == y) {
                points.pop();
            } else {
                points.push((from, y));
            }
            points.push((to, y));
        }
        points.push((LEFT + WIDTH, ground));
        picture.path(&points, &format!("fill:{colour}"));
    }

    /// How high a panel goes: up to its limit, or where that is far above the load, to the load.
    fn most(limit: u64, load: u64) -> f64 {
        if load > 0 && limit > 5 * load {
            load as f64 * 1.25
        } else {
            limit.max(load).max(1) as f64 * 1.06
        }
    }

    pub(super) fn draw_disk(&self, picture: &mut Picture, top: f64) {
        let sheet = &self.record.sheet;
        let total = |round: usize| sheet.reserves[round] + loss(sheet.opens[round]);
        let columns = self.columns(total);
        let load = columns.iter().map(|&(_, _, round)| total(round)).max();
        let limit = self.record.day.disk;
        let most = Day::most(limit, load.unwrap_or(0));
        let title = "Disk, bytes a round";
        self.draw_frame(picture, top, title, most, limit, "limit");
        self.draw_area(picture, top, most, &columns, total, colours::SAND);
        let reserves = |round: usize| sheet.reserves[round];
        self.draw_area(picture, top, most, &columns, reserves, colours::BLUE);
        let legend = [("reserves", colours::BLUE), ("arm loss", colours::SAND)];
        draw_legend(picture, top - 8.0, &legend);
    }

    pub(super) fn draw_memory(&self, picture: &mut Picture, top: f64) {
        let held = |round: usize| self.record.sheet.helds[round];
        let columns = self.columns(held);
        let load = columns.iter().map(|&(_, _, round)| held(round)).max();
        let limit = self.record.day.memory;
        let most = Day::most(limit, load.unwrap_or(0));
        let title = "Memory held, bytes";
        self.draw_frame(picture, top, title, most, limit, "limit");
        self.draw_area(picture, top, most, &columns, held, colours::GREEN);
    }
}

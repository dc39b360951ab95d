//! A panel with two axes and lines over them.

use crate::svg::{colours, Anchor, Picture};

/// Height that a label needs.
const LABEL: f64 = 14.0;

/// An axis from `from` to `to`; a logarithmic one has ticks at powers of ten or as given.
#[derive(Clone, Debug)]
pub struct Axis {
    pub label: String,
    pub from: f64,
    pub to: f64,
    pub logarithmic: bool,
    pub ticks: Vec<(f64, String)>,
}

impl Axis {
    /// A linear axis from 0 with about `ticks` round ticks.
    pub fn linear(label: &str, to: f64, ticks: usize, text: impl Fn(f64) -> String) -> Axis {
        let step = round_step(to / ticks as f64);
        let count = (to / step + 0.001).floor() as usize;
        let places = (0..=count).map(|tick| tick as f64 * step);
        Axis {
            label: label.to_string(),
            from: 0.0,
            to,
            logarithmic: false,
            ticks: places.map(|place| (place, text(place))).collect(),
        }
    }

    /// A logarithmic axis with the ticks given.
    pub fn logarithmic(label: &str, from: f64, to: f64, ticks: Vec<(f64, String)>) -> Axis {
        Axis {
            label: label.to_string(),
            from,
            to,
            logarithmic: true,
            ticks,
        }
    }

    /// Where a value stands, from 0 to 1.
    fn place(&self, value: f64) -> f64 {
        if self.logarithmic {
            (value / self.from).ln() / (self.to / self.from).ln()
        } else {
            (value - self.from) / (self.to - self.from)
        }
    }
}

/// The next of 1, 2, 5, 10, .. from a step up.
pub fn round_step(step: f64) -> f64 {
    let power = 10_f64.powf(step.log10().floor());
    let factors = [1.0, 2.0, 5.0, 10.0];
    let factor = factors
        .iter()
        .find(|&factor| factor * power >= step * 0.999);
    factor.unwrap_or(&10.0) * power
}

/// A line with its name, which stands at its end.
#[derive(Clone, Debug)]
pub struct Series {
    pub name: String,
    pub colour: &'static str,
    pub points: Vec<(f64, f64)>,
    pub markers: bool,
    pub dashed: bool,
}

/// A panel whose axes cross at the lower left corner of its frame.
pub struct Panel {
    pub title: String,
    pub corner: (f64, f64),
    pub size: (f64, f64),
    pub across: Axis,
    pub up: Axis,
    pub series: Vec<Series>,
    /// Straight lines across, with their names.
    pub levels: Vec<(f64, String, &'static str)>,
}

impl Panel {
    fn at(&self, point: (f64, f64)) -> (f64, f64) {
        (
            self.corner.0 + self.across.place(point.0) * self.size.0,
            self.corner.1 + (1.0 - self.up.place(point.1)) * self.size.1,
        )
    }

    pub fn draw(&self, picture: &mut Picture) {
        self.draw_axes(picture);
        let right = self.corner.0 + self.size.0;
        for (level, _, colour) in &self.levels {
            let (_, y) = self.at((self.across.from, *level));
            let style = format!("stroke:{colour};stroke-dasharray:6 4");
            picture.line((self.corner.0, y), (right, y), &style);
        }
        for series in &self.series {
            self.draw_series(picture, series);
        }
        self.draw_names(picture);
    }

    fn draw_axes(&self, picture: &mut Picture) {
        let (left, top) = self.corner;
        let (right, bottom) = (left + self.size.0, top + self.size.1);
        picture.text(
            left,
            top - 12.0,
            Anchor::Start,
            "font-size:14;font-weight:bold",
            &self.title,
        );
        for (value, text) in &self.up.ticks {
            let (_, y) = self.at((self.across.from, *value));
            let style = format!("stroke:{}", colours::LIGHT);
            picture.line((left, y), (right, y), &style);
            picture.text(left - 6.0, y + 4.0, Anchor::End, "", text);
        }
        for (value, text) in &self.across.ticks {
            let (x, _) = self.at((*value, self.up.from));
            let style = format!("stroke:{}", colours::GREY);
            picture.line((x, bottom), (x, bottom + 4.0), &style);
            picture.text(x, bottom + 17.0, Anchor::Middle, "", text);
        }
        let style = format!("stroke:{}", colours::GREY);
        picture.line((left, bottom), (right, bottom), &style);
        let middle = (left + right) / 2.0;
        picture.text(
            middle,
            bottom + 35.0,
            Anchor::Middle,
            "",
            &self.across.label,
        );
        picture.upward(left - 52.0, (top + bottom) / 2.0, &self.up.label);
    }

    fn draw_series(&self, picture: &mut Picture, series: &Series) {
        let points: Vec<_> = series.points.iter().map(|&point| self.at(point)).collect();
        let dash = if series.dashed {
            ";stroke-dasharray:5 3"
        } else {
            ""
        };
        let style = format!("fill:none;stroke:{};stroke-width:1.8{dash}", series.colour);
        picture.path(&points, &style);
        if series.markers {
            for point in points {
                picture.circle(point, 2.6, &format!("fill:{}", series.colour));
            }
        }
    }

    /// Each line's name to the right of its end, moved apart where two would stand on each other.
    fn draw_names(&self, picture: &mut Picture) {
        let ends = self.series.iter().filter_map(|series| {
            let &last = series.points.last()?;
            Some((last, series.name.as_str(), series.colour))
        });
        let levels = self.levels.iter();
        let levels =
            levels.map(|(level, name, colour)| ((self.across.to, *level), name.as_str(), *colour));
        let named = ends.chain(levels).filter(|(_, name, _)| !name.is_empty());
        let mut names: Vec<((f64, f64), &str, &str)> = named
            .map(|(end, name, colour)| (self.at(end), name, colour))
            .collect();
        names.sort_by(|one, other| one.0 .1.total_cmp(&other.0 .1));
        for place in 1..names.len() {
            names[place].0 .1 = names[place].0 .1.max(names[place - 1].0 .1 + LABEL);
        }
        // What was pushed below the frame goes up again.
        let mut lowest = self.corner.1 + self.size.1;
        for name in names.iter_mut().rev() {
            name.0 .1 = name.0 .1.min(lowest);
            lowest = name.0 .1 - LABEL;
        }
        for ((x, y), name, colour) in names {
            picture.text(
                x + 7.0,
                y + 4.0,
                Anchor::Start,
                &format!("fill:{colour}"),
                name,
            );
        }
    }
}

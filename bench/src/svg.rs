//! SVG text.

use std::fmt::Write;

/// Colours that stay apart for colour-blind readers (Okabe and Ito), and greys.
pub mod colours {
    pub const BLUE: &str = "#0072b2";
    pub const ORANGE: &str = "#d55e00";
    pub const GREEN: &str = "#009e73";
    pub const PURPLE: &str = "#aa4499";
    pub const SKY: &str = "#56b4e9";
    pub const SAND: &str = "#e69f00";
    pub const BLACK: &str = "#222222";
    pub const GREY: &str = "#777777";
    pub const LIGHT: &str = "#e4e4e4";
    pub const LIMIT: &str = "#c00000";
}

/// Where a text stands at its point.
#[derive(Clone, Copy, Debug, PartialEq, Eq)]
pub enum Anchor {
    Start,
    Middle,
    End,
}

/// A picture under construction.
pub struct Picture {
    width: f64,
    height: f64,
    body: String,
}

/// A coordinate with at most one decimal place.
pub fn number(value: f64) -> String {
    let text = format!("{value:.1}");
    text.strip_suffix(".0").unwrap_or(&text).to_string()
}

pub fn escaped(text: &str) -> String {
    text.replace('&', "&amp;")
        .replace('<', "&lt;")
        .replace('>', "&gt;")
        .replace('"', "&quot;")
}

impl Picture {
    pub fn new(width: f64, height: f64) -> Picture {
        Picture {
            width,
            height,
            body: String::new(),
        }
    }

    pub fn text(&mut self, x: f64, y: f64, anchor: Anchor, style: &str, text: &str) {
        let anchor = match anchor {
            Anchor::Start => "",
            Anchor::Middle => " text-anchor=\"middle\"",
            Anchor::End => " text-anchor=\"end\"",
        };
        let _ = writeln!(
            self.body,
            "<text x=\"{}\" y=\"{}\"{anchor}{}>{}</text>",
            number(x),
            number(y),
            attributes(style),
            escaped(text)
        );
    }

    /// A text that runs upward.
    pub fn upward(&mut self, x: f64, y: f64, text: &str) {
        let (x, y) = (number(x), number(y));
        let _ = writeln!(
            self.body,
            "<text x=\"{x}\" y=\"{y}\" text-anchor=\"middle\" transform=\"rotate(-90 {x} {y})\">{}</text>",
            escaped(text)
        );
    }

    pub fn line(&mut self, from: (f64, f64), to: (f64, f64), style: &str) {
        let _ = writeln!(
            self.body,
            "<path d=\"M{} {}L{} {}\"{}/>",
            number(from.0),
            number(from.1),
            number(to.0),
            number(to.1),
            attributes(style)
        );
    }

    /// A rectangle; its title is what a viewer shows under the pointer.
    pub fn rectangle(&mut self, corner: (f64, f64), size: (f64, f64), style: &str, title: &str) {
        let title = match title {
            "" => String::new(),
            title => format!("<title>{}</title>", escaped(title)),
        };
        let _ = writeln!(
            self.body,
            "<rect x=\"{}\" y=\"{}\" width=\"{}\" height=\"{}\"{}>{title}</rect>",
            number(corner.0),
            number(corner.1),
            number(size.0),
            number(size.1),
            attributes(style)
        );
    }

    pub fn circle(&mut self, centre: (f64, f64), radius: f64, style: &str) {
        let _ = writeln!(
            self.body,
            "<circle cx=\"{}\" cy=\"{}\" r=\"{}\"{}/>",
            number(centre.0),
            number(centre.1),
            number(radius),
            attributes(style)
        );
    }

    /// A line through points, or the area within them.
    pub fn path(&mut self, points: &[(f64, f64)], style: &str) {
        let mut data = String::new();
        let mut last = None;
        for &(x, y) in points {
            let (x, y) = (number(x), number(y));
            let command = match &last {
                None => format!("M{x} {y}"),
                Some((_, before)) if *before == y => format!("H{x}"),
                Some((before, _)) if *before == x => format!("V{y}"),
                Some(_) => format!("L{x} {y}"),
            };
            data.push_str(&command);
            last = Some((x, y));
        }
        let _ = writeln!(self.body, "<path d=\"{data}\"{}/>", attributes(style));
    }

    pub fn finished(self) -> String {
        let (width, height) = (number(self.width), number(self.height));
        format!(
            "<svg xmlns=\"http://www.w3.org/2000/svg\" viewBox=\"0 0 {width} {height}\" width=\"{width}\" height=\"{height}\" \
             font-family=\"Helvetica, Arial, sans-serif\" font-size=\"12\" fill=\"{}\">\n\
             <rect width=\"{width}\" height=\"{height}\" fill=\"#ffffff\"/>\n{}</svg>\n",
            colours::BLACK,
            self.body
        )
    }
}

/// Attributes written as `name:value;name:value`.
fn attributes(style: &str) -> String {
    let mut text = String::new();
    for pair in style.split(';').filter(|pair| !pair.is_empty()) {
        let (name, value) = pair.split_once(':').expect("name:value");
        let _ = write!(text, " {name}=\"{value}\"");
    }
    text
}

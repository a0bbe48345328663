//! Lines, marks and text of a drawing in SVG.

use std::fmt::Write;

type Place = (f64, f64);

/// How a series is drawn: the mark of its points, and its colour.
#[derive(Clone, Copy)]
pub enum Mark {
    Circle(&'static str),
    Square(&'static str),
}

/// Which part of a text stands at its place.
#[derive(Clone, Copy)]
pub enum Anchor {
    Start,
    Middle,
    End,
}

/// A drawing that is not ended yet.
pub struct Svg(String);

impl Svg {
    /// A white sheet.
    pub fn new(width: f64, height: f64) -> Self {
        let mut svg = Self(String::new());
        svg.add(format_args!(
            "<svg xmlns=\"http://www.w3.org/2000/svg\" width=\"{width}\" height=\"{height}\" \
             viewBox=\"0 0 {width} {height}\" font-family=\"sans-serif\" font-size=\"11\">"
        ));
        svg.add(format_args!(
            "<rect width=\"{width}\" height=\"{height}\" fill=\"#fff\"/>"
        ));
        svg
    }

    pub fn end(mut self) -> String {
        self.add(format_args!("</svg>"));
        self.0
    }

    pub fn line(&mut self, color: &str, from: Place, to: Place) {
        let ((x1, y1), (x2, y2)) = (from, to);
        self.add(format_args!(
            "<line stroke=\"{color}\" x1=\"{x1:.1}\" y1=\"{y1:.1}\" x2=\"{x2:.1}\" y2=\"{y2:.1}\"/>"
        ));
    }

    /// A line through some places, with a mark at each.
    pub fn series(&mut self, mark: Mark, places: &[Place]) {
        let (Mark::Circle(color) | Mark::Square(color)) = mark;
        let points: Vec<String> = places
            .iter()
            .map(|(x, y)| format!("{x:.1},{y:.1}"))
            .collect();
        let points = points.join(" ");
        self.add(format_args!(
            "<polyline fill=\"none\" stroke=\"{color}\" stroke-width=\"1.5\" points=\"{points}\"/>"
        ));
        for (x, y) in places {
            match mark {
                Mark::Circle(color) => self.add(format_args!(
                    "<circle fill=\"{color}\" cx=\"{x:.1}\" cy=\"{y:.1}\" r=\"3\"/>"
                )),
                Mark::Square(color) => self.add(format_args!(
                    "<rect fill=\"{color}\" x=\"{:.1}\" y=\"{:.1}\" width=\"5\" height=\"5\"/>",
                    x - 2.5,
                    y - 2.5
                )),
            }
        }
    }

    pub fn text(&mut self, x: f64, y: f64, anchor: Anchor, text: &str) {
        let anchor = match anchor {
            Anchor::Start => "start",
            Anchor::Middle => "middle",
            Anchor::End => "end",
        };
        let text = escaped(text);
        self.add(format_args!(
            "<text x=\"{x:.1}\" y=\"{y:.1}\" text-anchor=\"{anchor}\">{text}</text>"
        ));
    }

    /// A text in bold letters.
    pub fn title(&mut self, x: f64, y: f64, text: &str) {
        let text = escaped(text);
        self.add(format_args!(
            "<text x=\"{x:.1}\" y=\"{y:.1}\" font-weight=\"bold\">{text}</text>"
        ));
    }

    /// A text that runs upward, with its middle at a place.
    pub fn upward_text(&mut self, x: f64, y: f64, text: &str) {
        let text = escaped(text);
        self.add(format_args!(
            "<text transform=\"translate({x:.1} {y:.1}) rotate(-90)\" text-anchor=\"middle\">{text}</text>"
        ));
    }

    fn add(&mut self, element: std::fmt::Arguments) {
        writeln!(self.0, "{element}").expect("a string takes all");
    }
}

fn escaped(text: &str) -> String {
    text.replace('&', "&amp;").replace('<', "&lt;")
}

/// A whole number, with a comma before each group of three digits.
pub fn grouped(number: f64) -> String {
    let digits = format!("{number:.0}");
    let mut out = String::new();
    for (i, digit) in digits.chars().enumerate() {
        if i != 0 && (digits.len() - i).is_multiple_of(3) {
            out.push(',');
        }
        out.push(digit);
    }
    out
}

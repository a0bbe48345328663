//! A plot of times that grow, as SVG: a panel for each series, with a point for each time.

use crate::svg::{Anchor, Mark, Svg, grouped};

/// Times of packets that grow, for both sides.
pub struct Series {
    pub title: &'static str,
    /// What a size counts.
    pub unit: &'static str,
    pub points: Vec<Point>,
}

/// A size, and nanoseconds per packet of each side.
pub struct Point {
    pub size: usize,
    pub rust: f64,
    pub port: f64,
}

const RUST: Mark = Mark::Circle("#b7410e");
const PORT: Mark = Mark::Square("#1f5fa8");

/// The space between the axes of a panel.
const WIDTH: f64 = 300.0;
const HEIGHT: f64 = 190.0;
/// What a panel has around it: titles and the axes' numbers.
const LEFT: f64 = 76.0;
const RIGHT: f64 = 44.0;
const ABOVE: f64 = 40.0;
const BELOW: f64 = 52.0;
/// Above all panels: title and legend. Below them: the caption.
const HEAD: f64 = 58.0;
const FOOT: f64 = 34.0;

/// How many panels stand in a row.
const COLUMNS: usize = 3;

/// Draws all series. The caption says where and when they were timed.
pub fn draw(all: &[Series], caption: &str) -> String {
    let (cell_width, cell_height) = (LEFT + WIDTH + RIGHT, ABOVE + HEIGHT + BELOW);
    let rows = all.len().div_ceil(COLUMNS) as f64;
    let width = COLUMNS as f64 * cell_width;
    let height = HEAD + rows * cell_height + FOOT;
    let mut svg = Svg::new(width, height);
    svg.title(LEFT, 24.0, "Time per packet, ntp-proto and the port");
    legend(&mut svg, LEFT, 44.0);
    for (i, series) in all.iter().enumerate() {
        let left = (i % COLUMNS) as f64 * cell_width + LEFT;
        let top = HEAD + (i / COLUMNS) as f64 * cell_height + ABOVE;
        Panel::new(left, top, series).draw(&mut svg);
    }
    svg.text(LEFT, height - 14.0, Anchor::Start, caption);
    svg.end()
}

fn legend(svg: &mut Svg, left: f64, y: f64) {
    for (x, mark, name) in [(left, RUST, "ntp-proto"), (left + 120.0, PORT, "port")] {
        svg.series(
            mark,
            &[(x, y - 4.0), (x + 14.0, y - 4.0), (x + 28.0, y - 4.0)],
        );
        svg.text(x + 36.0, y, Anchor::Start, name);
    }
}

/// An axis from 0 to its end, with a tick at each step.
struct Axis {
    end: f64,
    step: f64,
    length: f64,
}

impl Axis {
    /// An axis that ends with the largest value.
    fn ending_at(largest: f64, length: f64) -> Self {
        let step = step_for(largest);
        let end = largest.max(1.0);
        Self { end, step, length }
    }

    /// An axis that ends with the first tick that is not below the largest value.
    fn covering(largest: f64, length: f64) -> Self {
        let step = step_for(largest);
        let end = (largest / step).ceil().max(1.0) * step;
        Self { end, step, length }
    }

    /// How far from 0 a value is drawn.
    fn place(&self, value: f64) -> f64 {
        self.length * value / self.end
    }

    fn ticks(&self) -> impl Iterator<Item = f64> {
        let (count, step) = ((self.end / self.step).floor() as usize, self.step);
        (0..=count).map(move |i| i as f64 * step)
    }
}

/// A step of 1, 2 or 5 and zeros that cuts an axis into at most five parts.
fn step_for(largest: f64) -> f64 {
    let least = (largest / 5.0).max(1.0);
    let power = 10f64.powf(least.log10().floor());
    let steps = [1.0, 2.0, 5.0].map(|digit| digit * power);
    let fitting = steps.into_iter().find(|step| *step >= least);
    fitting.unwrap_or(10.0 * power)
}

/// One series between its two axes.
struct Panel<'a> {
    left: f64,
    bottom: f64,
    sizes: Axis,
    times: Axis,
    series: &'a Series,
}

impl<'a> Panel<'a> {
    fn new(left: f64, top: f64, series: &'a Series) -> Self {
        let points = series.points.iter();
        let slowest = points.clone().map(|point| point.rust.max(point.port));
        let largest = points.map(|point| point.size).max().unwrap_or(0);
        Self {
            left,
            bottom: top + HEIGHT,
            sizes: Axis::ending_at(largest as f64, WIDTH),
            times: Axis::covering(slowest.fold(0.0, f64::max), HEIGHT),
            series,
        }
    }

    fn draw(&self, svg: &mut Svg) {
        let (left, bottom, top) = (self.left, self.bottom, self.bottom - HEIGHT);
        let (across, up) = (left + WIDTH / 2.0, bottom - HEIGHT / 2.0);
        svg.text(left, top - 14.0, Anchor::Start, self.series.title);
        self.ticks(svg);
        svg.line("#444", (left, top), (left, bottom));
        svg.line("#444", (left, bottom), (left + WIDTH, bottom));
        svg.text(across, bottom + 36.0, Anchor::Middle, self.series.unit);
        svg.upward_text(left - 56.0, up, "ns per packet");
        let points = self.series.points.iter();
        let rust: Vec<_> = points.clone().map(|p| self.place(p.size, p.rust)).collect();
        let port: Vec<_> = points.map(|p| self.place(p.size, p.port)).collect();
        svg.series(RUST, &rust);
        svg.series(PORT, &port);
    }

    /// The numbers of both axes, and a faint line across at each time.
    fn ticks(&self, svg: &mut Svg) {
        let (left, bottom) = (self.left, self.bottom);
        for size in self.sizes.ticks() {
            let x = left + self.sizes.place(size);
            svg.line("#444", (x, bottom), (x, bottom + 5.0));
            svg.text(x, bottom + 18.0, Anchor::Middle, &grouped(size));
        }
        for time in self.times.ticks() {
            let y = bottom - self.times.place(time);
            svg.line("#ddd", (left, y), (left + WIDTH, y));
            svg.line("#444", (left - 5.0, y), (left, y));
            svg.text(left - 9.0, y + 4.0, Anchor::End, &grouped(time));
        }
    }

    fn place(&self, size: usize, time: f64) -> (f64, f64) {
        let x = self.left + self.sizes.place(size as f64);
        let y = self.bottom - self.times.place(time);
        (x, y)
    }
}

//! Curves as a picture: panels in rows, each with the times over the sizes.

use crate::curves::{Curve, Point};
use crate::tool::svg::scale::every;
use crate::tool::svg::sheet::{Anchor, Sheet};

/// The drawing of a panel, and the space around it for its words.
const WIDTH: f64 = 230.0;
const HEIGHT: f64 = 160.0;
const LEFT: f64 = 52.0;
const RIGHT: f64 = 18.0;
const ABOVE: f64 = 52.0;
const BELOW: f64 = 46.0;
/// The space for the legend.
const LEGEND: f64 = 56.0;
const LEGEND_WIDTH: f64 = 200.0;
/// The most marks of an axis beside 0.
const MARKS: u64 = 5;
const AXIS: &str = "stroke=\"#222\"";
const GRID: &str = "stroke=\"#ddd\"";

/// A line of each panel: whose times, and how it is drawn.
struct Line {
    words: &'static str,
    style: &'static str,
    time: fn(&Point) -> f64,
}

const LIBRARY: Line = Line {
    words: "the proved library",
    style: "stroke=\"#1b6ca8\" stroke-width=\"2\"",
    time: |point| point.library,
};
const PLAIN: Line = Line {
    words: "plain Rust",
    style: "stroke=\"#c0562b\" stroke-width=\"2\"",
    time: |point| point.plain,
};
/// Wide, so that it is seen below a line at the same place.
const BEFORE: Line = Line {
    words: "the library before",
    style: "stroke=\"#bbb\" stroke-width=\"5\"",
    time: |point| point.library,
};

/// A curve and what was measured, now and perhaps before.
pub struct Panel<'a> {
    pub curve: &'a Curve,
    pub now: Vec<Point>,
    pub before: Option<Vec<Point>>,
}

impl Panel<'_> {
    /// The lines, those below first.
    fn lines(&self) -> Vec<(Line, &[Point])> {
        let before = self.before.iter().map(|points| (BEFORE, &points[..]));
        let now = [(PLAIN, &self.now[..]), (LIBRARY, &self.now[..])];
        before.chain(now).collect()
    }

    /// The longest time in whole nanoseconds.
    fn longest(&self) -> u64 {
        let lines = self.lines();
        let times = lines
            .iter()
            .flat_map(|(line, points)| points.iter().map(line.time));
        (times.fold(0.0, f64::max) * 1e3).ceil() as u64
    }
}

/// Where the sizes and times of a panel stand.
struct Frame {
    left: f64,
    base: f64,
    most_size: u64,
    most_time: u64,
}

impl Frame {
    fn of(left: f64, top: f64, panel: &Panel) -> Frame {
        let most_size = panel
            .curve
            .sizes
            .iter()
            .max()
            .map_or(1, |&most| most as u64);
        let longest = panel.longest();
        let mark = every(longest, MARKS);
        Frame {
            left,
            base: top + HEIGHT,
            most_size,
            most_time: (longest + mark - 1) / mark * mark,
        }
    }

    fn x(&self, size: f64) -> f64 {
        self.left + WIDTH * size / self.most_size as f64
    }

    /// Where a time in nanoseconds stands.
    fn y(&self, time: f64) -> f64 {
        self.base - HEIGHT * time / self.most_time as f64
    }
}

/// The picture: panels from left to right, so many in a row, and a legend below.
pub fn picture(panels: &[Panel], columns: usize) -> String {
    let (wide, high) = (LEFT + WIDTH + RIGHT, ABOVE + HEIGHT + BELOW);
    let rows = (panels.len() + columns - 1) / columns;
    let below = high * rows as f64;
    let mut sheet = Sheet::new(wide * columns as f64, below + LEGEND);
    for (at, panel) in panels.iter().enumerate() {
        let left = LEFT + wide * (at % columns) as f64;
        let top = ABOVE + high * (at / columns) as f64;
        draw(&mut sheet, &Frame::of(left, top, panel), panel);
    }
    if let Some(panel) = panels.first() {
        legend(&mut sheet, below + LEGEND / 2.0, panel);
    }
    sheet.finish()
}

fn draw(sheet: &mut Sheet, frame: &Frame, panel: &Panel) {
    let title = (frame.left, frame.base - HEIGHT - 22.0);
    sheet.text(title, Anchor::Start, 13, &panel.curve.title);
    times_axis(sheet, frame);
    sizes_axis(sheet, frame, panel.curve.axis);
    for (line, points) in panel.lines() {
        let place = |point: &Point| {
            let time = (line.time)(point) * 1e3;
            (frame.x(point.size as f64), frame.y(time))
        };
        let places: Vec<(f64, f64)> = points.iter().map(place).collect();
        sheet.path(&places, line.style);
    }
}

/// The axis at the left, in µs, with a line of the grid at each mark.
fn times_axis(sheet: &mut Sheet, frame: &Frame) {
    let (left, right) = (frame.left, frame.left + WIDTH);
    for time in marks(frame.most_time) {
        let y = frame.y(time);
        sheet.line((left, y), (right, y), GRID);
        let words = (time / 1e3).to_string();
        sheet.text((left - 8.0, y + 4.0), Anchor::End, 12, &words);
    }
    let top = frame.base - HEIGHT;
    sheet.text((left - 8.0, top - 12.0), Anchor::End, 12, "µs");
    sheet.line((left, top), (left, frame.base), AXIS);
}

/// The axis below, and what it counts.
fn sizes_axis(sheet: &mut Sheet, frame: &Frame, words: &str) {
    let (left, right, base) = (frame.left, frame.left + WIDTH, frame.base);
    sheet.line((left, base), (right, base), AXIS);
    for size in marks(frame.most_size) {
        let x = frame.x(size);
        sheet.line((x, base), (x, base + 5.0), AXIS);
        sheet.text((x, base + 18.0), Anchor::Middle, 12, &size.to_string());
    }
    let middle = left + WIDTH / 2.0;
    sheet.text((middle, base + 36.0), Anchor::Middle, 12, words);
}

/// The marks of an axis that ends so far out.
fn marks(most: u64) -> impl Iterator<Item = f64> {
    let apart = every(most, MARKS);
    (0..=most / apart).map(move |mark| (mark * apart) as f64)
}

fn legend(sheet: &mut Sheet, y: f64, panel: &Panel) {
    for (at, (line, _)) in panel.lines().iter().rev().enumerate() {
        let left = LEFT + LEGEND_WIDTH * at as f64;
        sheet.line((left, y), (left + 28.0, y), line.style);
        sheet.text((left + 36.0, y + 4.0), Anchor::Start, 13, line.words);
    }
}

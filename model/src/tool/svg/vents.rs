//! The vents over the turns: one line a bay.

use crate::limits::MAX_BAYS;
use crate::tool::run::history::History;
use crate::tool::run::image_view::Vent;
use crate::tool::run::report::{setting, WIDE_OPEN};
use crate::tool::svg::scale::Scale;
use crate::tool::svg::sheet::{Anchor, Sheet};

pub const HEIGHT: f64 = 320.0;
const LEGEND_LINE: f64 = 18.0;

/// The space above the highest setting and below 0, for lines that stand side by side.
const MARGIN: f64 = 18.0;
/// How far equal lines stand apart, where there is room.
const APART: f64 = 3.0;
/// The widest line.
const WIDEST: f64 = 2.0;

/// The ring where a vent begins to await a name.
const RING: f64 = 4.5;

/// How far the lines of the grid may stand apart: the last serves every num.
const STEPS: [u16; 7] = [200, 500, 1_000, 2_000, 5_000, 10_000, 20_000];

/// A colour for each bay; the bays from the ninth on are dashed too.
const COLOURS: [&str; MAX_BAYS] = [
    "#1f77b4", "#d62728", "#2ca02c", "#9467bd", "#e07b00", "#8c564b", "#d633a6", "#444444",
    "#00a3b4", "#7f0000", "#7d9a00", "#0b3d91", "#c29b00", "#006b54", "#ff6f91", "#5c7cfa",
];
const DASHED_FROM: usize = 8;

pub fn draw(sheet: &mut Sheet, top: f64, scale: &Scale, history: &History) {
    let heights = Heights::of(top, history);
    grid(sheet, &heights, scale);
    for bay in 0..history.vents.len() {
        bay_line(sheet, &heights, scale, history, bay);
    }
    scale.axis(sheet, top + HEIGHT);
    legend(sheet, top, scale, history);
}

/// How high settings stand: up to a vent that is wide open, or to the highest that is shown.
struct Heights {
    top: f64,
    most: u16,
}

impl Heights {
    fn of(top: f64, history: &History) -> Heights {
        let shown = history.vents.iter().flatten();
        let most = shown.filter_map(|(_, vent)| vent.opening()).max();
        Heights {
            top,
            most: most.map_or(WIDE_OPEN, |most| most.max(WIDE_OPEN)),
        }
    }

    fn y(&self, opening: u16) -> f64 {
        let whole = HEIGHT - 2.0 * MARGIN;
        self.top + HEIGHT - MARGIN - whole * f64::from(opening) / f64::from(self.most)
    }

    /// The settings with a line of their own, 0 and at most five others.
    fn lines(&self) -> impl Iterator<Item = u16> {
        let step = STEPS[STEPS.partition_point(|step| self.most / step > 5)];
        (0..=self.most).step_by(usize::from(step))
    }

    /// Whether all that is shown may be a vent's: then in percent, else as it is.
    fn are_vents(&self) -> bool {
        self.most <= WIDE_OPEN
    }

    fn title(&self) -> &'static str {
        if self.are_vents() {
            "vent"
        } else {
            "setting"
        }
    }

    fn label(&self, opening: u16) -> String {
        if self.are_vents() {
            format!("{} %", opening / 10)
        } else {
            opening.to_string()
        }
    }
}

/// How far the lines of that many bays stand apart.
fn apart(bays: usize) -> f64 {
    let room = 2.0 * (MARGIN - WIDEST);
    APART.min(room / bays.max(1) as f64)
}

/// How far a bay's line stands below its opening, so that no line hides an equal one.
fn lane(bay: usize, bays: usize) -> f64 {
    let middle = bays.saturating_sub(1) as f64 / 2.0;
    (bay as f64 - middle) * apart(bays)
}

fn grid(sheet: &mut Sheet, heights: &Heights, scale: &Scale) {
    let (left, right, top) = (scale.left, scale.left + scale.width, heights.top);
    for opening in heights.lines() {
        let y = heights.y(opening);
        sheet.line((left, y), (right, y), "stroke=\"#ddd\"");
        let label = heights.label(opening);
        sheet.text((left - 8.0, y + 4.0), Anchor::End, 12, &label);
    }
    let title = (left - 8.0, top - 10.0);
    sheet.text(title, Anchor::End, 12, heights.title());
    sheet.line((left, top), (left, top + HEIGHT), "stroke=\"#222\"");
}

/// No wider than the lines stand apart.
pub fn style(bay: usize, bays: usize) -> String {
    let colour = colour(bay);
    let dashes = if bay < DASHED_FROM {
        ""
    } else {
        " stroke-dasharray=\"8 3\""
    };
    let width = WIDEST.min(apart(bays));
    format!("stroke=\"{colour}\" stroke-width=\"{width:.1}\"{dashes}")
}

pub fn colour(bay: usize) -> &'static str {
    COLOURS[bay % COLOURS.len()]
}

fn solid(bay: usize) -> String {
    format!("stroke=\"{}\" stroke-width=\"2\"", colour(bay))
}

fn dotted(bay: usize) -> String {
    format!("{} stroke-dasharray=\"1.5 4\"", solid(bay))
}

/// A stair for each stretch in which the opening is known; where it is awaited, dots at the last known
/// opening, and a ring that holds the colour of the bay whose job is awaited.
fn bay_line(sheet: &mut Sheet, heights: &Heights, scale: &Scale, history: &History, bay: usize) {
    let bays = history.vents.len();
    let (style, lane) = (style(bay, bays), lane(bay, bays));
    let changes = &history.vents[bay];
    let mut points: Vec<(f64, f64)> = Vec::new();
    for (at, (turn, vent)) in changes.iter().enumerate() {
        let from = scale.x(*turn);
        let next = changes
            .get(at + 1)
            .map_or(history.turns + 1, |(turn, _)| *turn);
        match vent.opening() {
            Some(opening) => {
                let height = heights.y(opening) + lane;
                points.extend([(from, height), (scale.x(next), height)]);
            }
            None => {
                let before = points
                    .last()
                    .copied()
                    .unwrap_or((from, heights.y(0) + lane));
                flush(sheet, &mut points, &style);
                let after = (scale.x(next), before.1);
                sheet.line(before, after, &dotted(bay));
                let inside = awaited_bay(*vent, history).map_or("white", colour);
                let ring = format!("fill=\"{inside}\" {}", solid(bay));
                sheet.dot(before, RING, &ring);
            }
        }
        thin_out(&mut points);
    }
    flush(sheet, &mut points, &style);
}

/// The bay whose job a vent awaits.
fn awaited_bay(vent: Vent, history: &History) -> Option<usize> {
    match vent {
        Vent::Named(name, None) => history.bay_of(u64::from(name)),
        _ => None,
    }
}

fn flush(sheet: &mut Sheet, points: &mut Vec<(f64, f64)>, style: &str) {
    if !points.is_empty() {
        sheet.path(points, style);
        points.clear();
    }
}

/// Of steps narrower than a fifth of a pixel only the last is kept.
fn thin_out(points: &mut Vec<(f64, f64)>) {
    while let [.., a, _, c, d] = points.as_slice() {
        if d.0 - a.0 >= 0.2 {
            return;
        }
        let (from, d) = ((a.0, c.1), *d);
        points.truncate(points.len() - 4);
        points.extend([from, d]);
    }
}

fn legend(sheet: &mut Sheet, top: f64, scale: &Scale, history: &History) {
    let left = scale.left + scale.width + 20.0;
    for (bay, changes) in history.vents.iter().enumerate() {
        let y = top + 6.0 + LEGEND_LINE * bay as f64;
        let style = style(bay, history.vents.len());
        sheet.line((left, y), (left + 28.0, y), &style);
        let last = changes.last().map_or(Vent::Unknown, |(_, vent)| *vent);
        let value = match last {
            Vent::Open(value) | Vent::Named(_, Some(value)) => setting(value),
            Vent::Named(name, None) => format!("awaits {}", history.whose(u32::from(name))),
            Vent::Unknown => "?".to_owned(),
        };
        let label = format!("bay {bay}: {value}");
        sheet.text((left + 36.0, y + 4.0), Anchor::Start, 12, &label);
    }
    if history.vents.len() > 1 {
        let y = top + 18.0 + LEGEND_LINE * (history.vents.len() + 1) as f64;
        let words = "equal lines side by side";
        sheet.text((left, y), Anchor::Start, 12, words);
    }
    let awaited = |(_, vent): &(u64, Vent)| vent.opening().is_none();
    if history.vents.iter().flatten().any(awaited) {
        let y = top + 14.0 + LEGEND_LINE * history.vents.len() as f64;
        let ring = "fill=\"#bbb\" stroke=\"#222\" stroke-width=\"2\"";
        sheet.dot((left + 12.0, y), RING, ring);
        let dots = "stroke=\"#222\" stroke-width=\"2\" stroke-dasharray=\"1.5 4\"";
        sheet.line((left + 18.0, y), (left + 32.0, y), dots);
        let words = "awaits a name; dot: its bay";
        sheet.text((left + 36.0, y + 4.0), Anchor::Start, 12, words);
    }
}

//! What each thread did over the turns, and for which name of which bay it waited. The threads of a bay
//! stand together.

use crate::tool::refusals;
use crate::tool::run::history::{History, Span, State};
use crate::tool::svg::scale::Scale;
use crate::tool::svg::sheet::{Anchor, Sheet};
use crate::tool::svg::vents;

const ROW: f64 = 22.0;
const BAR: f64 = 16.0;
/// The stripe below a wait, in the colour of the bay that is waited for.
const STRIPE: f64 = 3.0;
/// The width of a character of the small labels.
const CHARACTER: f64 = 6.5;
const MOVING: &str = "#a6cbe3";
const WAITING: &str = "#ffd27f";
const REFUSED: &str = "#f4a6a0";
const DONE: &str = "#e4e4e4";
/// The least width of a refusal, which may come in the last of many turns, and of how a thread stands
/// after its move in the last one.
const LEAST: f64 = 6.0;
/// Refusals that end this near to the last one drawn are left out.
const NEAR: f64 = 1.0;
/// How many rules there are: Fig. 5's, and those that take a pair or a list apart.
const RULES: u32 = 9;

pub fn height(history: &History) -> f64 {
    ROW * history.threads.len().max(1) as f64
}

pub fn draw(sheet: &mut Sheet, top: f64, scale: &Scale, history: &History) {
    sheet.text(
        (scale.left - 8.0, top - 10.0),
        Anchor::End,
        12,
        "thread, bay",
    );
    let bottom = top + height(history);
    sheet.line((scale.left, top), (scale.left, bottom), "stroke=\"#222\"");
    let mut former = None;
    for (row, (thread, spans)) in by_bay(history).into_iter().enumerate() {
        let edge = top + ROW * row as f64;
        let y = edge + (ROW - BAR) / 2.0;
        let bay = history.bay_of(thread);
        if row > 0 && bay != former {
            draw_edge(sheet, edge, scale);
        }
        former = bay;
        draw_label(sheet, y, scale, history, thread);
        draw_spans(sheet, y, scale, history, (thread, spans));
        draw_rules(sheet, y, scale, history, thread);
        draw_end(sheet, y, scale, history, spans);
    }
    scale.axis(sheet, bottom);
    legend(sheet, bottom, scale, history);
}

/// The threads, bay by bay.
fn by_bay(history: &History) -> Vec<(u64, &[Span])> {
    let threads = history.threads.iter();
    let mut rows: Vec<(u64, &[Span])> = threads.map(|(t, spans)| (*t, &spans[..])).collect();
    rows.sort_by_key(|(thread, _)| (history.bay_of(*thread), *thread));
    rows
}

/// Where another bay's threads begin.
fn draw_edge(sheet: &mut Sheet, y: f64, scale: &Scale) {
    let right = scale.left + scale.width;
    sheet.line((0.0, y), (right, y), "stroke=\"#bbb\"");
}

/// The thread's number, and the bay that it belongs to with the bay's line.
fn draw_label(sheet: &mut Sheet, y: f64, scale: &Scale, history: &History, thread: u64) {
    let bay = match history.bay_of(thread) {
        Some(bay) => bay,
        None => {
            let label = thread.to_string();
            sheet.text((scale.left - 8.0, y + 12.0), Anchor::End, 12, &label);
            return;
        }
    };
    let label = format!("{thread}, bay {bay}");
    sheet.text((scale.left - 30.0, y + 12.0), Anchor::End, 12, &label);
    let style = vents::style(bay, history.vents.len());
    let middle = y + BAR / 2.0;
    let (from, to) = (scale.left - 26.0, scale.left - 6.0);
    sheet.line((from, middle), (to, middle), &style);
}

/// The stretches of a thread; those that end in the same tenth of a pixel are one.
fn draw_spans(
    sheet: &mut Sheet,
    y: f64,
    scale: &Scale,
    history: &History,
    (thread, spans): (u64, &[Span]),
) {
    let (mut drawn, mut refused) = (f64::MIN, f64::MIN);
    for (place, span) in spans.iter().enumerate() {
        let (mut from, to) = (scale.x(span.from), scale.x(span.to));
        let is_refusal = matches!(span.state, State::Refused(_));
        let is_last = place + 1 == spans.len();
        let is_at_end = is_last && span.from == span.to;
        let shown = is_at_end || is_refusal && (is_last || to - refused >= NEAR);
        if to - drawn < 0.1 && !shown {
            continue;
        }
        drawn = to;
        if is_refusal {
            refused = to;
        }
        if is_refusal || is_at_end {
            from = from.min(to - LEAST).max(scale.left);
        }
        draw_span(sheet, (from, to, y), history, (thread, span));
    }
}

fn draw_span(
    sheet: &mut Sheet,
    (from, to, y): (f64, f64, f64),
    history: &History,
    (thread, span): (u64, &Span),
) {
    let (fill, words) = match span.state {
        State::Moving => (MOVING, "moves".to_owned()),
        State::Done => (DONE, "is done".to_owned()),
        State::Waiting(name) => (WAITING, format!("waits for name {}", history.whose(name))),
        State::Refused(number) => (REFUSED, format!("refused {number}")),
    };
    let when = match span.to.checked_sub(1) {
        Some(last) if last >= span.from => format!("turns {} to {last}", span.from),
        _ => "after the last turn".to_owned(),
    };
    let words = format!("thread {thread} {words}, {when}");
    sheet.bar((from, y), (to - from, BAR), fill, &words);
    if let Some(bay) = awaited_bay(span.state, history) {
        let low = y + BAR - STRIPE;
        sheet.bar((from, low), (to - from, STRIPE), vents::colour(bay), &words);
    }
    if let Some(label) = fitting(&labels(span.state, history), to - from) {
        let middle = (from + to) / 2.0;
        sheet.text((middle, y + 12.0), Anchor::Middle, 11, label);
    }
}

/// The bay for whose name a thread waits.
fn awaited_bay(state: State, history: &History) -> Option<usize> {
    match state {
        State::Waiting(name) => history.bay_of(u64::from(name)),
        _ => None,
    }
}

/// The labels of a bar, the longest first.
fn labels(state: State, history: &History) -> Vec<String> {
    match state {
        State::Moving => Vec::new(),
        State::Done => vec!["done".to_owned()],
        State::Waiting(name) => {
            let whose = history.whose(name);
            vec![format!("waits for {whose}"), whose, name.to_string()]
        }
        State::Refused(number) => vec![format!("refused {number}"), number.to_string()],
    }
}

/// The longest label that has room in a bar of that width.
fn fitting(labels: &[String], width: f64) -> Option<&String> {
    let fits = |text: &&String| CHARACTER * text.chars().count() as f64 + 2.0 <= width;
    labels.iter().find(fits)
}

/// How a thread stands at the end, to the right of a bar that has no room for it.
fn draw_end(sheet: &mut Sheet, y: f64, scale: &Scale, history: &History, spans: &[Span]) {
    let last = match spans.last() {
        Some(last) if last.to == scale.end => last,
        _ => return,
    };
    let labels = labels(last.state, history);
    let inside = fitting(&labels, scale.x(last.to) - scale.x(last.from));
    let longest = labels.first().filter(|longest| inside != Some(longest));
    if let Some(longest) = longest {
        let right = scale.left + scale.width + 8.0;
        sheet.text((right, y + 12.0), Anchor::Start, 11, longest);
    }
}

/// Whether a rule's number has room at its turn.
fn rules_are_drawn(scale: &Scale) -> bool {
    scale.turn_width() >= CHARACTER + 3.0
}

/// In a short run each rule's number stands at its turn.
fn draw_rules(sheet: &mut Sheet, y: f64, scale: &Scale, history: &History, thread: u64) {
    if !rules_are_drawn(scale) {
        return;
    }
    for (turn, _, rule) in history.rules.iter().filter(|(_, own, _)| *own == thread) {
        let x = scale.x(*turn) + scale.turn_width() / 2.0;
        sheet.text((x, y + 12.0), Anchor::Middle, 11, &rule.to_string());
    }
}

/// Below the axis: the colours; where rules have numbers, their names; where a thread waits, its stripe.
fn legend(sheet: &mut Sheet, bottom: f64, scale: &Scale, history: &History) {
    let items = [
        (MOVING, "moves (the rule)"),
        (WAITING, "waits (for the name)"),
        (REFUSED, "refused (the number)"),
        (DONE, "done"),
    ];
    let wide = scale.width / items.len() as f64;
    for (place, (fill, words)) in items.iter().enumerate() {
        let left = scale.left + wide * place as f64;
        sheet.bar((left, bottom + 56.0), (28.0, 12.0), fill, words);
        let at = (left + 36.0, bottom + 67.0);
        sheet.text(at, Anchor::Start, 12, words);
    }
    if rules_are_drawn(scale) {
        let rules = (1..=RULES).map(|number| format!("{number} {}", refusals::rule(number)));
        let rules: Vec<String> = rules.collect();
        let words = format!("rules: {}", rules.join(" · "));
        sheet.text((scale.left, bottom + 92.0), Anchor::Start, 12, &words);
    }
    let waits = |span: &Span| matches!(span.state, State::Waiting(_));
    if history.threads.values().flatten().any(waits) {
        let words = "the stripe below a wait has the colour of the bay whose name is awaited";
        sheet.text((scale.left, bottom + 114.0), Anchor::Start, 12, words);
    }
}

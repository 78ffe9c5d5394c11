//! The numbers of curves as text: printed, and read again.

use crate::curves::{Curve, Point};

/// What the numbers of a curve are.
pub fn heading(curve: &Curve) -> String {
    let (title, axis) = (&curve.title, curve.axis);
    format!("{title}: {axis}, library µs, plain µs, plain / library")
}

/// The numbers of one size.
pub fn row(point: &Point) -> String {
    let (library, plain) = (point.library, point.plain);
    let ratio = plain / library;
    format!("{:>6} {library:>9.3} {plain:>9.3} {ratio:>6.2}", point.size)
}

/// The points of each curve from a text that was printed for the same curves, or what does not fit.
pub fn read<'c>(
    curves: impl Iterator<Item = &'c Curve>,
    text: &str,
) -> Result<Vec<Vec<Point>>, String> {
    let mut lines = (1..).zip(text.lines());
    let read = curves.map(|curve| read_curve(curve, &mut lines));
    let points = read.collect::<Result<_, _>>()?;
    match lines.next() {
        None => Ok(points),
        Some((number, _)) => Err(format!("line {number}: the text should end before it")),
    }
}

fn read_curve<'t>(
    curve: &Curve,
    lines: &mut impl Iterator<Item = (usize, &'t str)>,
) -> Result<Vec<Point>, String> {
    let heading = heading(curve);
    read_line(lines, &heading, |line| (line == heading).then_some(()))?;
    let rows = curve.sizes.iter().map(|&size| {
        let due = format!("{size}, library µs, plain µs, plain / library");
        read_line(lines, &due, |line| read_row(size, line))
    });
    rows.collect()
}

/// The next line, read; or that it is not what is due.
fn read_line<'t, T>(
    lines: &mut impl Iterator<Item = (usize, &'t str)>,
    due: &str,
    read: impl Fn(&str) -> Option<T>,
) -> Result<T, String> {
    match lines.next() {
        Some((number, line)) => {
            read(line).ok_or_else(|| format!("line {number}: this is due here: {due}"))
        }
        None => Err(format!("the text ends where this is due: {due}")),
    }
}

fn read_row(size: usize, line: &str) -> Option<Point> {
    let words: Vec<&str> = line.split_whitespace().collect();
    match words[..] {
        [first, library, plain, ratio] if first == size.to_string() => {
            positive(ratio)?;
            Some(Point {
                size,
                library: positive(library)?,
                plain: positive(plain)?,
            })
        }
        _ => None,
    }
}

/// A number above zero.
fn positive(word: &str) -> Option<f64> {
    let number: f64 = word.parse().ok()?;
    (number > 0.0 && number.is_finite()).then_some(number)
}

//! How the time of a step grows with the value that it copies and with the places of the variable: `weights OUT.svg [BEFORE]` measures
//! the library and the plain implementation in one run, prints the numbers, and draws them. BEFORE has what an earlier run printed, with
//! the library as it was: its times are drawn too.

use model::curves::picture::{picture, Panel};
use model::curves::{finish, save, text, Point};
use model::ffi::Library;
use model::weights::{all, Weighed, CURVES};
use std::process::ExitCode;

/// The points of each curve, from what an earlier run printed.
fn read_before(path: &str, all: &[Weighed]) -> Result<Vec<Vec<Point>>, String> {
    let curves = all.iter().map(|weighed| &weighed.curve);
    std::fs::read_to_string(path)
        .map_err(|error| error.to_string())
        .and_then(|printed| text::read(curves, &printed))
        .map_err(|error| format!("{path}: {error}"))
}

fn run() -> Result<(), String> {
    let arguments: Vec<String> = std::env::args().skip(1).collect();
    let (path, before) = match &arguments[..] {
        [path] => (path, None),
        [path, before] => (path, Some(before)),
        _ => return Err("use: weights OUT.svg [BEFORE]".to_owned()),
    };
    let all = all();
    let before = before.map(|path| read_before(path, &all)).transpose()?;
    all.iter().try_for_each(|weighed| weighed.check(&Library))?;
    let panels = all.iter().enumerate().map(|(at, weighed)| Panel {
        curve: &weighed.curve,
        now: weighed.curve.measure(&Library),
        before: before.as_ref().map(|before| before[at].clone()),
    });
    let panels: Vec<Panel> = panels.collect();
    save(path, &picture(&panels, CURVES))
}

fn main() -> ExitCode {
    finish(run())
}

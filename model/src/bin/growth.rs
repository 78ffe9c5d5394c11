//! How the time of a check and of a step grows with the input: `growth OUT.svg` measures the library and the plain implementation in one
//! run, prints the numbers, and draws them.

use model::answers::Implementation;
use model::curves::inputs::{image_of, value_of};
use model::curves::picture::{picture, Panel};
use model::curves::{finish, save, step, Curve};
use model::editions;
use model::ffi::Library;
use model::format::write_parts;
use model::timing::opaque;
use std::process::ExitCode;

fn check(implementation: &dyn Implementation, file: &[u8], _: &mut [u8]) {
    opaque(implementation.check(opaque(file)));
}

/// (λx. x) unit, which rule 1 moves.
fn identity() -> Vec<u8> {
    vec![2, 1, 0, 0, 0, 3]
}

/// A finished thread of so many nodes beside one that moves.
fn image_of_nodes(nodes: usize) -> Vec<u8> {
    image_of(&[identity(), value_of(nodes)])
}

/// So many finished threads beside one that moves.
fn image_of_names(names: usize) -> Vec<u8> {
    let mut expressions = vec![vec![3]; names];
    expressions[0] = identity();
    image_of(&expressions)
}

/// A recipe of one bay that nests so deep: unit under functions from unit to the function before.
fn recipe_of_nesting(nesting: usize) -> Vec<u8> {
    let mut table = vec![0, 0, 0, 1, 0, 0, 2, 1, 0];
    let mut term = vec![3];
    for depth in 1..nesting {
        let result = if depth == 1 { 0 } else { depth + 1 };
        table.extend([4, 0, result as u8]);
        term.splice(0..0, [1, (depth + 2) as u8]);
    }
    write_parts(editions::FIRST.number, &[table, term])
}

fn curves() -> [Curve; 3] {
    [
        Curve {
            title: "step, image of so many nodes".to_owned(),
            axis: "nodes",
            sizes: (1..=8).map(|k| k * 510).collect(),
            call: step,
            input: Box::new(image_of_nodes),
        },
        Curve {
            title: "step, image of so many names".to_owned(),
            axis: "names",
            sizes: (1..=8).map(|k| k * 32).collect(),
            call: step,
            input: Box::new(image_of_names),
        },
        Curve {
            title: "check, recipe that nests so deep".to_owned(),
            axis: "nesting",
            sizes: (1..=10).map(|k| k * 10).collect(),
            call: check,
            input: Box::new(recipe_of_nesting),
        },
    ]
}

fn run() -> Result<(), String> {
    let path = std::env::args().nth(1).ok_or("use: growth OUT.svg")?;
    let curves = curves();
    let panels = curves.iter().map(|curve| Panel {
        curve,
        now: curve.measure(&Library),
        before: None,
    });
    let panels: Vec<Panel> = panels.collect();
    save(&path, &picture(&panels, panels.len()))
}

fn main() -> ExitCode {
    finish(run())
}

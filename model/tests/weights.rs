//! The inputs of `weights` are what they are meant to be, and its text is read again as it was printed and no other.

use model::answers::{Implementation, Model, Plain};
use model::command::on_deep_stack;
use model::curves::inputs::value_of;
use model::curves::text::{heading, read, row};
use model::curves::{Curve, Point};
use model::nodes::{read_term, FORMS};
use model::weights::{all, Weighed};

fn every_step_is_answered_as_meant(implementation: &(dyn Implementation + Sync)) {
    on_deep_stack(|| {
        for weighed in all() {
            assert_eq!(weighed.check(implementation), Ok(()));
        }
    });
}

#[test]
fn the_model_answers_as_meant() {
    every_step_is_answered_as_meant(&Model);
}

#[test]
fn the_plain_twin_answers_as_meant() {
    every_step_is_answered_as_meant(&Plain);
}

#[cfg(feature = "library")]
#[test]
fn the_library_answers_as_meant() {
    every_step_is_answered_as_meant(&model::ffi::Library);
}

#[test]
fn a_curve_has_eight_sizes() {
    for weighed in all() {
        assert_eq!(weighed.curve.sizes.len(), 8, "{}", weighed.curve.title);
    }
}

#[test]
fn a_value_has_so_many_nodes() {
    for nodes in (2..=4_000).step_by(2) {
        let read = read_term(&FORMS, &value_of(nodes)).map(|term| term.len());
        assert_eq!(read, Some(nodes));
    }
}

/// The text of a curve with times that are printed without loss.
fn printed(curve: &Curve) -> String {
    let rows = points(curve).iter().map(row).collect::<Vec<_>>();
    format!("{}\n{}\n", heading(curve), rows.join("\n"))
}

fn points(curve: &Curve) -> Vec<Point> {
    let point = |&size: &usize| Point {
        size,
        library: size as f64 / 8.0,
        plain: size as f64 / 4.0,
    };
    curve.sizes.iter().map(point).collect()
}

fn read_all(all: &[Weighed], text: &str) -> Result<Vec<Vec<Point>>, String> {
    read(all.iter().map(|weighed| &weighed.curve), text)
}

#[test]
fn what_is_printed_is_read_again() {
    let all = all();
    let text: String = all.iter().map(|weighed| printed(&weighed.curve)).collect();
    let due = all.iter().map(|weighed| points(&weighed.curve)).collect();
    assert_eq!(read_all(&all, &text), Ok(due));
}

#[test]
fn no_other_text_is_read() {
    let all = &all()[..1];
    let text = printed(&all[0].curve);
    assert!(read_all(all, &text).is_ok());
    let last = text.lines().last().expect("a line");
    let others = [
        String::new(),
        text.replacen("refused", "goes", 1),
        text.replacen("  500 ", "  501 ", 1),
        text.replacen(" 62.500 ", " 62,500 ", 1),
        text.replacen(" 62.500 ", " inf ", 1),
        text.replacen(" 62.500 ", " 0 ", 1),
        text.replacen(" 62.500 ", " -62.5 ", 1),
        text.replacen(" 62.500 ", " ", 1),
        text.replacen(" 62.500 ", " 62.500 62.500 ", 1),
        text.replace(last, ""),
        text.replace(&format!("{last}\n"), ""),
        format!("{text}{last}\n"),
        format!("\n{text}"),
    ];
    for other in others {
        assert_ne!(other, text);
        assert!(read_all(all, &other).is_err(), "{other}");
    }
}

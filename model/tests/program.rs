//! The program gives the model's lines: on the examples, and where a file is too long or too short. The variable RECIPE_IMAGE names the program; without it nothing is run.

mod program_common;

use model::examples;
use model::format::hexadecimal;
use model::limits;
use model::load::starting_image;
use model::verdict::verdict;
use program_common::written;

/// "two lines: the word verdict and the number (0 for accepted), then, if accepted, the word image
/// and the image in upper-case hexadecimal"
fn lines(file: &[u8]) -> String {
    let number = verdict(file).number();
    let first = format!("verdict {number}\n");
    if number != 0 {
        return first;
    }
    let image = starting_image(file).expect("an accepted recipe has a starting image");
    format!("{first}image {}\n", hexadecimal(&image))
}

fn files() -> Vec<Vec<u8>> {
    let mut files: Vec<Vec<u8>> = examples::all().iter().map(|e| e.file()).collect();
    let mut long = files[0].clone();
    long.resize(9_000, 0);
    files.push(long);
    for length in [
        0,
        limits::MIN_FILE - 1,
        limits::MIN_FILE,
        limits::MAX_FILE,
        limits::MAX_FILE + 1,
        9_000,
    ] {
        files.push(vec![0; length]);
    }
    files
}

#[test]
fn the_program_writes_the_lines_of_the_model() {
    if let Some(program) = std::env::var_os("RECIPE_IMAGE") {
        for file in files() {
            assert_eq!(written(&program, &file), lines(&file));
        }
    }
}

#[test]
fn case_a_has_the_lines_of_document_01() {
    let file = model::format::bytes_of_hexadecimal(
        "4C 46 01 02 0C 00 09 00 15 00 01 00 00 00 00 01 00 00 02 01 00 03",
    );
    let text = "verdict 0\nimage 020002000E00030001001100010004000003\n";
    assert_eq!(lines(&file), text);
}

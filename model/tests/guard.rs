//! A guarded buffer traps: a read past its end stops the program.

use model::guard::Guarded;
use std::os::unix::process::ExitStatusExt;
use std::process::Command;

const SEGMENTATION_FAULT: i32 = 11;

#[test]
fn what_is_placed_stands_there() {
    let mut guarded = Guarded::new(100);
    assert_eq!(guarded.place(&[1, 2, 3]), [1, 2, 3]);
    assert_eq!(guarded.last(2), [2, 3]);
    assert_eq!(guarded.place(&[]), []);
}

/// Run by the test below, in a program of its own.
#[test]
#[ignore = "it must stop the program"]
fn reads_past_the_end() {
    let mut guarded = Guarded::new(100);
    let placed = guarded.place(&[1, 2, 3]);
    // SAFETY: none; the read is past the end on purpose, on a page that nobody may touch.
    let past = unsafe { std::ptr::read_volatile(placed.as_ptr().add(placed.len())) };
    println!("read {past}");
}

#[test]
fn a_read_past_the_end_stops_the_program() {
    let program = std::env::current_exe().expect("this program");
    let child = Command::new(program)
        .args(["--exact", "reads_past_the_end", "--ignored"])
        .output()
        .expect("it starts");
    assert_eq!(child.status.signal(), Some(SEGMENTATION_FAULT));
}

//! A program as a process: what it writes for what standard input gives.

use std::ffi::OsString;
use std::io::Write;
use std::process::{Command, Stdio};

/// What the program writes. It may leave a part of a long input unread.
pub fn written(program: &OsString, input: &[u8]) -> String {
    let mut child = Command::new(program)
        .stdin(Stdio::piped())
        .stdout(Stdio::piped())
        .spawn()
        .expect("the program starts");
    let mut pipe = child.stdin.take().expect("its input is a pipe");
    let _ = pipe.write_all(input);
    drop(pipe);
    let output = child.wait_with_output().expect("the program ends");
    assert!(output.status.success());
    String::from_utf8(output.stdout).expect("the lines are text")
}

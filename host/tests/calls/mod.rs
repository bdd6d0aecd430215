//! The tool as a person or a script calls it.
#![allow(dead_code)]

use std::ffi::OsStr;
use std::io::Write;
use std::path::PathBuf;
use std::process::{Command, Output, Stdio};

pub fn tool() -> Command {
    Command::new(env!("CARGO_BIN_EXE_dwg-hatch"))
}

pub fn call(words: &[impl AsRef<OsStr>], input: &[u8]) -> Output {
    let mut command = tool();
    command.args(words).stdin(Stdio::piped()).stdout(Stdio::piped()).stderr(Stdio::piped());
    let mut child = command.spawn().expect("the tool starts");
    let mut pipe = child.stdin.take().expect("a pipe");
    // Written while the answers are taken, since a pipe holds only so much. A tool that ends without reading its input has closed the
    // pipe; its answer is what is tested.
    std::thread::scope(|scope| {
        scope.spawn(move || drop(pipe.write_all(input)));
        child.wait_with_output().expect("the tool ends")
    })
}

/// What is printed where all is well.
pub fn answers(words: &[impl AsRef<OsStr>], input: &[u8]) -> String {
    let output = call(words, input);
    assert!(output.status.success() && output.stderr.is_empty(), "{output:?}");
    String::from_utf8(output.stdout).expect("UTF-8")
}

/// One line on standard error, nothing on standard output, and the status. Gives the line.
pub fn refuses(output: &Output, status: i32) -> String {
    assert_eq!(output.status.code(), Some(status), "{output:?}");
    assert!(output.stdout.is_empty(), "{output:?}");
    let text = String::from_utf8_lossy(&output.stderr).into_owned();
    assert!(text.starts_with("dwg-hatch: ") && text.ends_with('\n') && text.lines().count() == 1, "{text}");
    text
}

/// A file below target/ with these bytes. Each test names its own.
pub fn file(name: &str, bytes: &[u8]) -> PathBuf {
    let path = PathBuf::from(env!("CARGO_TARGET_TMPDIR")).join(name);
    std::fs::write(&path, bytes).expect("a file");
    path
}

//! How far long work is: said on a terminal alone, after a second.

use std::process::{Command, Stdio};

const TOOL: &str = env!("CARGO_BIN_EXE_dwg-hatch");

/// Work that takes more than a second, since its input is slow.
fn slowly(command: &str, output: &str) -> String {
    format!("(echo prefix 2 0 85D08740; sleep 1.5; echo nothing) | '{TOOL}' {command} >{output}")
}

#[test]
fn in_a_pipe_nothing_is_said() {
    for command in ["answer", "prefix --json"] {
        let output = Command::new("sh").args(["-c", &slowly(command, "/dev/null")]).stdin(Stdio::null()).output().expect("a shell");
        let said = String::from_utf8(output.stderr).expect("UTF-8");
        assert!(!said.contains('\r') && !said.contains("MB"), "{command}: {said}");
    }
}

/// `script` gives the command a terminal; where it is not at hand this is not looked at.
#[test]
fn on_a_terminal_a_line_moves_and_goes() {
    if Command::new("script").arg("--version").output().is_err() {
        return;
    }
    let on_terminal = |line: &str| {
        let output = Command::new("script").args(["-qec", &format!("sh -c \"{line}\""), "/dev/null"]).stdin(Stdio::null()).output().expect("script");
        String::from_utf8(output.stdout).expect("UTF-8")
    };
    let said = on_terminal(&slowly("prefix --json", "/dev/null"));
    assert!(said.contains("dwg-hatch: 0 MB\x1b[K\r"), "{said:?}");
    assert!(said.contains("dwg-hatch: standard input:2: there is no request"), "{said:?}");
    // Where standard output is the terminal too, what is read stands there alone.
    let both = on_terminal(&slowly("answer", "&1"));
    assert!(both.contains("bad request") && !both.contains("MB"), "{both:?}");
}

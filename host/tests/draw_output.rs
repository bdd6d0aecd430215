//! `draw --output`: a picture is written whole or not at all, and no file of the input is written to.

mod calls;
mod drawings;
mod svg_text;

use std::fs;
use std::os::unix::fs::{symlink, PermissionsExt};
use std::path::{Path, PathBuf};
use std::process::Command;

use calls::{answers, call, file, refuses, tool};
use drawings::{polyline, TRIANGLE};
use svg_text::elements;

/// A new folder below target/. Each test names its own.
fn folder(name: &str) -> PathBuf {
    let folder = PathBuf::from(env!("CARGO_TARGET_TMPDIR")).join(name);
    let _ = fs::remove_dir_all(&folder);
    fs::create_dir_all(&folder).expect("a folder");
    folder
}

fn names(folder: &Path) -> Vec<String> {
    let names = fs::read_dir(folder).expect("a folder").map(|entry| entry.expect("an entry").file_name().to_string_lossy().into_owned());
    let mut names: Vec<String> = names.collect();
    names.sort();
    names
}

#[test]
fn a_picture_is_written_to_its_file() {
    let folder = folder("draw-output");
    let (output, input) = (folder.join("a picture.svg"), folder.join("in.txt"));
    fs::write(&input, polyline(&TRIANGLE, None)).expect("a file");
    let words = ["draw".as_ref(), "--output".as_ref(), output.as_os_str(), input.as_os_str()];
    assert_eq!(answers(&words, b""), "");
    let first = fs::read_to_string(&output).expect("a picture");
    elements(&first);
    // An old file is replaced and keeps its permissions; a link stays one.
    fs::write(&output, "old").expect("a file");
    fs::set_permissions(&output, fs::Permissions::from_mode(0o640)).expect("permissions");
    let link = folder.join("link.svg");
    symlink("a picture.svg", &link).expect("a link");
    answers(&["draw".as_ref(), "--output".as_ref(), link.as_os_str(), input.as_os_str()], b"");
    assert_eq!(fs::read_to_string(&output).expect("a picture"), first);
    assert_eq!(fs::metadata(&output).expect("a file").permissions().mode() & 0o777, 0o640);
    assert!(fs::symlink_metadata(&link).expect("a link").is_symlink());
    assert_eq!(names(&folder), ["a picture.svg", "in.txt", "link.svg"]);
    let to_stdout = answers(&["draw".as_ref(), "--output=-".as_ref(), input.as_os_str()], b"");
    assert_eq!(to_stdout, first);
}

#[test]
fn a_failure_keeps_the_old_picture_and_leaves_nothing_else() {
    let folder = folder("draw-kept");
    let output = folder.join("old.svg");
    fs::write(&output, "old").expect("a file");
    let with = |file: &str, input: &[u8]| call(&["draw".as_ref(), "--output".as_ref(), output.as_os_str(), file.as_ref()], input);
    refuses(&with("no such file", b""), 1);
    refuses(&with("/", b""), 1);
    refuses(&with("-", b"hatch 3 0 C0\n"), 1);
    refuses(&with("-", b"nothing\n"), 2);
    assert_eq!((fs::read_to_string(&output).expect("a file").as_str(), names(&folder)), ("old", vec!["old.svg".to_string()]));
}

#[test]
fn outputs_that_cannot_be_written_are_one_line_and_status_1() {
    let folder = folder("draw-unwritable");
    let input = polyline(&TRIANGLE, None);
    for name in ["none/out.svg", ".", "..", "out.svg/", ""] {
        let output = folder.join(name);
        let said = refuses(&call(&["draw".as_ref(), "--output".as_ref(), output.as_os_str()], input.as_bytes()), 1);
        assert!(said.contains("cannot be written"), "{name}: {said}");
    }
    refuses(&call(&["draw", "--output", "/dev/null"], input.as_bytes()), 1);
    refuses(&call(&["draw", "--output", ""], input.as_bytes()), 1);
    assert!(names(&folder).is_empty() && !fs::metadata("/dev/null").expect("the null device").is_file());
}

/// The folder could be written to, and so the file could be replaced; its own rights say that it is not to be.
#[test]
fn a_file_that_may_not_be_written_is_not_replaced() {
    let folder = folder("draw-read-only");
    let output = folder.join("old.svg");
    fs::write(&output, "old").expect("a file");
    fs::set_permissions(&output, fs::Permissions::from_mode(0o444)).expect("permissions");
    symlink("old.svg", folder.join("link.svg")).expect("a link");
    for name in ["old.svg", "link.svg"] {
        let words = ["draw".into(), "--output".into(), folder.join(name).into_os_string()];
        let said = refuses(&call(&words, polyline(&TRIANGLE, None).as_bytes()), 1);
        assert!(said.contains(&format!("{name} cannot be written: its rights do not let it be written to")), "{said}");
    }
    assert_eq!((fs::read_to_string(&output).expect("a file").as_str(), names(&folder)), ("old", vec!["link.svg".to_string(), "old.svg".to_string()]));
}

/// A file that fails while it is written, here for a limit of its length, is named; the old one stays.
#[test]
fn a_picture_without_room_names_its_file() {
    let folder = folder("draw-no-room");
    let (output, input) = (folder.join("old.svg"), folder.join("in.txt"));
    fs::write(&output, "old").expect("a file");
    fs::write(&input, polyline(&TRIANGLE, None)).expect("a file");
    let line = "trap '' XFSZ; ulimit -f 0; exec \"$0\" draw --output \"$1\" \"$2\"";
    let given = Command::new("sh").args(["-c", line]).arg(tool().get_program()).args([&output, &input]).output().expect("a shell");
    let said = refuses(&given, 1);
    assert!(said.contains(&format!("{} cannot be written: File too large", output.display())), "{said}");
    assert_eq!((fs::read_to_string(&output).expect("a file").as_str(), names(&folder)), ("old", vec!["in.txt".to_string(), "old.svg".to_string()]));
}

#[test]
fn the_input_is_never_written_to() {
    let folder = folder("draw-input");
    let input = folder.join("in.txt");
    let text = polyline(&TRIANGLE, None);
    fs::write(&input, &text).expect("a file");
    symlink("in.txt", folder.join("link.txt")).expect("a link");
    for name in ["in.txt", "./in.txt", "link.txt"] {
        let output = tool().args(["draw", "--output", name, "in.txt"]).current_dir(&folder).output().expect("the tool starts");
        assert!(refuses(&output, 2).contains("is a file of the input"));
    }
    let words = ["draw", "--release=2", "--strings", "in.txt", "--output", "link.txt", "-"];
    refuses(&tool().args(words).current_dir(&folder).output().expect("the tool starts"), 2);
    assert_eq!(fs::read_to_string(&input).expect("a file"), text);
}

#[test]
fn a_full_disk_is_one_line_and_status_1() {
    let full = fs::OpenOptions::new().write(true).open("/dev/full").expect("the full device");
    let input = file("draw-full.txt", polyline(&TRIANGLE, None).as_bytes());
    let output = tool().arg("draw").arg(input).stdout(full).output().expect("the tool starts");
    assert!(refuses(&output, 1).contains("standard output (/dev/full) cannot be written: No space left on device"));
}

/// A limit on the length of files stops the picture's writing in its midst.
#[test]
fn a_write_that_fails_midway_keeps_the_old_picture() {
    let folder = folder("draw-midway");
    let points: Vec<(f64, f64)> = (0..1000).map(|at| (f64::from(at), f64::from(at % 7))).collect();
    let (input, picture) = (folder.join("in.txt"), folder.join("old.svg"));
    fs::write(&input, polyline(&points, None)).expect("a file");
    fs::write(&picture, "old").expect("a file");
    let limited = |blocks: &str| {
        let mut command = Command::new("sh");
        command.args(["-c", &format!("trap '' XFSZ; ulimit -f {blocks}; exec \"$0\" \"$@\""), env!("CARGO_BIN_EXE_dwg-hatch"), "draw", "--output"]);
        command.arg(&picture).arg(&input).output().expect("a shell")
    };
    assert!(refuses(&limited("4"), 1).contains("cannot be written"));
    assert_eq!((fs::read_to_string(&picture).expect("a file").as_str(), names(&folder)), ("old", vec!["in.txt".to_string(), "old.svg".to_string()]));
    assert!(limited("unlimited").status.success());
    elements(&fs::read_to_string(&picture).expect("a picture"));
}

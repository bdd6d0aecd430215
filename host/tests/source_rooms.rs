//! What the rooms of host/src may know of one another (docs/ARCHITECTURE.md), by the paths that stand in their files.

use std::fs;
use std::path::{Path, PathBuf};

/// A room, and what no file of it may name.
const RULES: [(&str, &[&str]); 6] = [
    ("boundary", &["crate::", "super::calls", "dwg_hatch::"]),
    ("calls", &["crate::protocol", "crate::commands"]),
    ("protocol", &["commands::", "boundary::"]),
    ("commands/read", &["commands::draw", "super::draw", "commands::cut", "super::cut", "boundary::"]),
    ("commands/draw", &["commands::read", "super::read", "commands::cut", "super::cut", "boundary::"]),
    ("commands/cut", &["commands::read", "super::read", "commands::draw", "super::draw::", "boundary::"]),
];

fn files(folder: &Path) -> Vec<PathBuf> {
    let entries = fs::read_dir(folder).unwrap_or_else(|error| panic!("{}: {error}", folder.display()));
    let paths: Vec<PathBuf> = entries.map(|entry| entry.expect("an entry").path()).collect();
    paths.into_iter().flat_map(|path| if path.is_dir() { files(&path) } else { vec![path] }).collect()
}

/// The lines of a file that are code: no comments.
fn code(path: &Path) -> Vec<String> {
    let text = fs::read_to_string(path).expect("a file");
    text.lines().filter(|line| !line.trim_start().starts_with("//")).map(str::to_string).collect()
}

#[test]
fn no_room_names_what_it_may_not_know() {
    let source = Path::new(env!("CARGO_MANIFEST_DIR")).join("src");
    for (room, forbidden) in RULES {
        let files = files(&source.join(room));
        assert!(!files.is_empty(), "{room}");
        for file in files {
            for line in code(&file) {
                let named = forbidden.iter().find(|name| line.contains(**name));
                assert!(named.is_none(), "{}: {room} may not name {}: {line}", file.display(), named.unwrap_or(&""));
            }
        }
    }
}

/// Unsafe code stands where the boundary is called, and where a closed stream is asked for.
#[test]
fn unsafe_code_stands_in_few_files() {
    let source = Path::new(env!("CARGO_MANIFEST_DIR")).join("src");
    let is_unsafe = |path: &PathBuf| code(path).iter().any(|line| line.contains("unsafe {") || line.contains("unsafe fn"));
    let name = |path: &PathBuf| path.strip_prefix(&source).expect("below src").display().to_string();
    let mut names: Vec<String> = files(&source).iter().filter(|path| is_unsafe(path)).map(name).collect();
    names.sort();
    let calls = ["code_pages", "codes", "hatch_record", "hatches", "moves", "prefixes", "texts"].map(|name| format!("calls/{name}.rs"));
    assert_eq!(names, [&calls[..], &["commands/streams.rs".to_string()]].concat());
}

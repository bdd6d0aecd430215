//! docs/PAYLOADS.md: every command on the page prints what the page says.

use std::path::PathBuf;
use std::process::Command;

/// The page's commands, each with the lines that it is to print: `    $ COMMAND`, and the lines below it that are as far indented.
fn commands(page: &str) -> Vec<(&str, Vec<&str>)> {
    let mut commands: Vec<(&str, Vec<&str>)> = Vec::new();
    let mut inside = false;
    for line in page.lines() {
        match (line.strip_prefix("    $ "), line.strip_prefix("    ")) {
            (Some(command), _) => commands.push((command, Vec::new())),
            (None, Some(printed)) if inside => commands.last_mut().expect("a command").1.push(printed),
            _ => {}
        }
        inside = line.starts_with("    ");
    }
    commands
}

#[test]
fn every_command_prints_what_the_page_says() {
    const END: &str = "=== here the command ends";
    let root = PathBuf::from(env!("CARGO_MANIFEST_DIR")).join("..");
    let page = std::fs::read_to_string(root.join("docs/PAYLOADS.md")).expect("the page");
    let commands = commands(&page);
    let tool = format!("'{}'", env!("CARGO_BIN_EXE_dwg-hatch").replace('\'', "'\\''"));
    // One shell for all, since the first command is a function that others call.
    let script: String = commands.iter().map(|(command, _)| format!("{}\necho '{END}'\n", command.replace("./dwg-hatch", &tool))).collect();
    let output = Command::new("bash").arg("-c").arg(script).current_dir(root).output().expect("bash starts");
    assert!(output.stderr.is_empty(), "{}", String::from_utf8_lossy(&output.stderr));
    let printed = String::from_utf8(output.stdout).expect("UTF-8");
    let printed: Vec<&str> = printed.split_terminator(&format!("{END}\n")).collect();
    assert_eq!(printed.len(), commands.len());
    assert!(commands.len() > 30, "{}", commands.len());
    for ((command, expected), printed) in commands.iter().zip(printed) {
        assert_eq!(printed.lines().collect::<Vec<_>>(), *expected, "{command}");
    }
}

/// Every sample of an object is spoken of.
#[test]
fn every_object_is_on_the_page() {
    let root = PathBuf::from(env!("CARGO_MANIFEST_DIR")).join("..");
    let page = std::fs::read_to_string(root.join("docs/PAYLOADS.md")).expect("the page");
    let names = std::fs::read_dir(root.join("samples")).expect("samples").map(|entry| entry.expect("an entry").file_name().into_string().expect("a name"));
    let objects: Vec<String> = names.filter(|name| name.ends_with(".bin")).collect();
    assert_eq!(objects.len(), 7);
    for name in objects {
        assert!(page.contains(&format!("samples/{name}")), "{name}");
    }
}

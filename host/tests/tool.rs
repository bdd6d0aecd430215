//! The tool's words, and `answer`.

mod calls;

use std::ffi::OsStr;
use std::io::Write;
use std::os::unix::ffi::OsStrExt;
use std::process::Stdio;

use calls::{answers, call, file, refuses, tool};

#[test]
fn examples_are_answered() {
    let list = include_str!("examples.txt");
    let pairs: Vec<(&str, &str)> = list.lines().map(|line| line.split_once('\t').expect("REQUEST, tab, ANSWER")).collect();
    let requests: String = pairs.iter().map(|pair| format!("{}\n", pair.0)).collect();
    let answers = answers(&["answer"], requests.as_bytes());
    assert_eq!(answers.lines().collect::<Vec<_>>(), pairs.iter().map(|pair| pair.1).collect::<Vec<_>>());
}

/// Lengths whose texts are too long for the list of examples: 256, which has a tag of its own, with one closing zero of all zeros dropped;
/// and the greatest that a length code can name.
#[test]
fn long_texts_are_answered() {
    let zeros = |count| "00".repeat(count);
    let requests = [
        format!("tv 3 0 C0{}", zeros(256)),
        format!("tv 4 0 C0{}", zeros(512)),
        format!("tv 4 0 C0{}", zeros(511)),
        format!("tv 7 6 00FFFF{}", "41FF".repeat(65_535)),
    ];
    let expected = [
        format!("ok 2050 m:8:2:255:{}:1", zeros(255)),
        format!("ok 4098 m:16:2:255:{}:1", zeros(510)),
        "err 1 4090 0".to_string(),
        format!("ok 1048584 m:16:24:65535:{}:0", "ff41".repeat(65_535)),
    ];
    let given = answers(&["answer"], format!("{}\n", requests.join("\n")).as_bytes());
    assert!(given.lines().eq(expected.iter()), "{}", given.lines().map(|line| format!("{line:.60}\n")).collect::<String>());
}

/// Document 01's refusal 8: four XDATA blocks (size 1, empty handle, one zero) are 13 bytes, and 256 are refused whatever follows. From
/// the second block on there are 255, which are read.
#[test]
fn xdata_blocks_are_counted() {
    let blocks = "40400010100004040001010000".repeat(64);
    let requests = format!("prefix 2 0 {blocks}\nprefix 2 0 {blocks}85D08740\nprefix 2 26 {blocks}85D08740\n");
    let given = answers(&["answer"], requests.as_bytes());
    let given: Vec<&str> = given.lines().collect();
    assert_eq!(given[..2], ["err 8 6656 0", "err 8 6656 0"]);
    assert!(given[2].starts_with("ok 6682 0 rawmode=0 ") && given[2].contains(" color=256 "), "{given:?}");
    assert!(given[2].contains(" xdata=1 "), "{given:?}");
}

/// Both entries give the same answers but for NaNs, which the f64 entries give as one.
#[test]
fn prefixes_hatches_and_moves_are_answered_by_both_entries() {
    let taken = |line: &&str| ["prefix ", "hatch", "move "].iter().any(|kind| line.starts_with(kind));
    let examples: Vec<&str> = include_str!("examples.txt").lines().filter(taken).collect();
    let requests: String = examples.iter().filter_map(|line| line.split('\t').next()).map(|request| format!("{request}\n")).collect();
    let answered: Vec<&str> = examples.iter().filter_map(|line| line.split('\t').nth(1)).collect();
    let expected: Vec<String> = answered.iter().map(|answer| with_one_nan(answer)).collect();
    for kind in ["scale=fff", "nums=7ff", "gcols=7ff"] {
        assert!(answered.iter().zip(&expected).any(|(answer, one)| answer.contains(kind) && *answer != one), "no NaN as {kind}");
    }
    assert_eq!(answers(&["answer", "--f64"], requests.as_bytes()).lines().collect::<Vec<_>>(), expected);
}

/// An answer whose NaNs are written as the one: words of 16 digits.
fn with_one_nan(answer: &str) -> String {
    let ends = |letter: char| " ,;/=".contains(letter);
    let one = |part: &str| {
        let word = part.trim_end_matches(ends);
        let bits = u64::from_str_radix(word, 16).ok().filter(|_| word.len() == 16);
        let nan = bits.is_some_and(|bits| f64::from_bits(bits).is_nan());
        if nan { part.replace(word, "7ff8000000000000") } else { part.to_string() }
    };
    answer.split_inclusive(ends).map(one).collect()
}

#[test]
fn nans_keep_their_pattern_but_for_f64() {
    let requests = "rd 1 0 010000000000F07F\nbd 1 0 0040000000003c3fc0\nrd 1 0 000000000000F8FF\ndd 1 0 00 0000000000000001\n";
    let bits = "ok 64 7ff0000000000001\nok 66 fff0000000000001\nok 64 fff8000000000000\nok 2 0000000000000001\n";
    let nan = "ok 64 7ff8000000000000\nok 66 7ff8000000000000\nok 64 7ff8000000000000\nok 2 0000000000000001\n";
    assert_eq!(answers(&["answer"], requests.as_bytes()), bits);
    assert_eq!(answers(&["answer", "--f64"], requests.as_bytes()), nan);
}

#[test]
fn lines_of_any_bytes_are_answered() {
    assert_eq!(answers(&["answer"], b""), "");
    let lines = b"\n\xff\xfe\0\nb 1 0 \xc3\xa9\nb\t1\r0 80\r\nb 1 0 80";
    assert_eq!(answers(&["answer"], lines), "bad request\nbad request\nbad request\nok 1 1\nok 1 1\n");
}

#[test]
fn help_is_there_for_all_commands() {
    let help = answers(&["--help"], b"");
    for (command, option) in [("answer", "--f64"), ("read", "--json"), ("prefix", "--json"), ("draw", "--view"), ("cut", "--prefixes")] {
        assert!(help.contains(&format!("\n  {command} ")), "{command}");
        for word in ["--help", "-h"] {
            let help = answers(&[command, word], b"");
            assert!(help.contains(&format!("usage: dwg-hatch {command} ")) && help.contains(option), "{help}");
        }
    }
}

#[test]
fn help_is_a_command_too() {
    assert_eq!(answers(&["help"], b""), answers(&["--help"], b""));
    for command in ["read", "prefix", "draw", "cut", "answer"] {
        assert_eq!(answers(&["help", command], b""), answers(&[command, "--help"], b""));
    }
    for words in [&["help", "nothing"][..], &["help", "read", "draw"], &["help", ""], &["--help", "read"]] {
        refuses(&call(words, b""), 2);
    }
}

#[test]
fn the_version_is_the_crates() {
    for word in ["--version", "-V"] {
        assert_eq!(answers(&[word], b""), format!("dwg-hatch {}\n", env!("CARGO_PKG_VERSION")));
        refuses(&call(&[word, "read"], b""), 2);
    }
}

/// A closed stream is told, and so is a file without room; the line names which.
#[test]
fn streams_that_are_closed_or_full_are_one_line_and_status_1() {
    let requests = file("streams.txt", b"hatch 2 0 A9AAA0\n");
    let shell = |line: &str| {
        let mut shell = std::process::Command::new("sh");
        shell.args(["-c", line]).arg(tool().get_program()).arg(&requests).output().expect("a shell")
    };
    let closed = "standard output cannot be written: it is closed";
    let full = "standard output (/dev/full) cannot be written: No space left on device";
    for (to, told) in [(">&-", closed), (">/dev/full", full)] {
        for words in ["read \"$1\"", "read --json \"$1\"", "draw \"$1\"", "answer <\"$1\"", "help", "--version"] {
            let line = refuses(&shell(&format!("\"$0\" {words} {to}")), 1);
            assert!(line.contains(told), "{words} {to}: {line}");
        }
    }
    for command in ["read", "prefix", "draw", "cut", "answer", "read --release 2"] {
        let line = refuses(&shell(&format!("\"$0\" {command} <&-")), 1);
        assert!(line.contains("standard input cannot be read: it is closed"), "{command}: {line}");
    }
    // What is not written to may be closed.
    let picture = requests.with_file_name("streams.svg");
    let output = shell(&format!("\"$0\" draw --output '{}' \"$1\" >&- <&-", picture.display()));
    assert!(output.status.success() && output.stderr.is_empty() && picture.exists(), "{output:?}");
}

#[test]
fn bad_usage_is_one_line_and_status_2() {
    for words in [&[][..], &["nothing"], &["--f64"], &["--help", "answer"], &["answer", "file"], &["answer", "--f65"], &["", "\n"]] {
        refuses(&call(words, b"b 1 0 80\n"), 2);
    }
    let output = tool().arg(OsStr::from_bytes(b"\xff\n")).output().expect("the tool starts");
    refuses(&output, 2);
}

#[test]
fn an_unreadable_input_is_one_line_and_status_1() {
    let folder = std::fs::File::open("/").expect("the root folder");
    refuses(&tool().arg("answer").stdin(folder).output().expect("the tool starts"), 1);
}

#[test]
fn a_closed_pipe_ends_quietly() {
    let mut child = tool().arg("answer").stdin(Stdio::piped()).stdout(Stdio::piped()).stderr(Stdio::piped()).spawn().expect("the tool starts");
    drop(child.stdout.take());
    let mut input = child.stdin.take().expect("a pipe");
    let lines = b"b 1 0 80\n".repeat(1000);
    while input.write_all(&lines).is_ok() {}
    drop(input);
    let output = child.wait_with_output().expect("the tool ends");
    assert!(output.status.success() && output.stderr.is_empty(), "{output:?}");
}

#[test]
fn answers_come_before_the_input_ends() {
    use std::io::{BufRead, BufReader};
    let mut child = tool().arg("answer").stdin(Stdio::piped()).stdout(Stdio::piped()).spawn().expect("the tool starts");
    let mut input = child.stdin.take().expect("a pipe");
    let mut output = BufReader::new(child.stdout.take().expect("a pipe"));
    for (request, answer) in [("b 1 0 80\n", "ok 1 1\n"), ("bb 1 0 80\n", "ok 2 2\n")] {
        input.write_all(request.as_bytes()).expect("the tool reads");
        let mut line = String::new();
        output.read_line(&mut line).expect("the tool writes");
        assert_eq!(line, answer);
    }
    drop(input);
    assert!(child.wait().expect("the tool ends").success());
}

//! `read` and `prefix` as a person calls them: summaries, files, options, and input of every bad kind.

mod calls;
mod layouts;

use std::ffi::{OsStr, OsString};
use std::fs;
use std::os::unix::ffi::OsStrExt;
use std::os::unix::fs::PermissionsExt;
use std::process::Stdio;

use calls::{answers, call, file, refuses, tool};
use layouts::{Numbers, Plan};

const ROOT: &str = concat!(env!("CARGO_MANIFEST_DIR"), "/..");
const EMPTY: &str = "A9AAA0";

/// A hatch that is read, one that is refused (1 at bit 22), a prefix that is read, one that is refused (5 at bit 18), with a line that is no
/// request between.
const MIXED: &[u8] = b"# comment\n\nhatch 2 0 A9AAA0\nhatch 3 0 A9AAA0\n  nothing here\nprefix 2 0 85D08740\nprefix 2 0 404240\n";

fn words(line: &str) -> Vec<OsString> {
    line.split(' ').map(OsString::from).collect()
}

/// The samples' summary: rooms.txt has what was laid out, every coordinate with all its digits.
#[test]
fn the_samples_are_summarised() {
    let output = tool().current_dir(ROOT).args(["read", "samples/rooms.txt"]).output().expect("the tool starts");
    assert!(output.status.success() && output.stderr.is_empty(), "{output:?}");
    let expected = include_str!("rooms.txt");
    assert!(expected.contains("x 4712345.678901234 to 4718345.678901234, y 1187654.321098765 to 1192154.321098765"));
    assert_eq!(String::from_utf8(output.stdout).expect("UTF-8"), expected);
}

/// The doubles of a line that a summary has in brackets, as their bits: a number with all its digits, or a name and the bits.
fn doubles(line: &str) -> Vec<u64> {
    let inside = line.split_once('(').and_then(|(_, rest)| rest.split_once(')')).expect("brackets").0;
    let bits = |text: &str| match text.split_once(" 0x") {
        Some((name, digits)) => {
            let bits = u64::from_str_radix(digits, 16).expect("16 digits");
            assert_eq!((name, digits.len()), (f64::from_bits(bits).to_string().as_str(), 16));
            bits
        }
        None => text.parse::<f64>().expect("a number").to_bits(),
    };
    inside.split(", ").map(bits).collect()
}

#[test]
fn a_summary_keeps_every_digit() {
    let mut n = Numbers(0xfeed_beef);
    let mut compared = 0;
    for _ in 0..60 {
        let plan = Plan::new(&mut n, 7, false);
        let body = file("summary.bin", &plan.lay_out(&mut n, false)[0].bytes(200));
        let printed = answers(&[OsStr::new("read"), OsStr::new("--quiet"), OsStr::new("--release=7"), body.as_os_str()], b"");
        let found: Vec<Vec<u64>> = printed.lines().filter(|line| line.starts_with("  seed ")).map(doubles).collect();
        let seeds: Vec<Vec<u64>> = plan.seeds.iter().map(|seed| vec![seed.x, seed.y]).collect();
        assert_eq!(found, seeds);
        for (at, line) in plan.lines.iter().enumerate() {
            let origin = printed.lines().find(|text| text.starts_with(&format!("  line {} ", at + 1))).map(doubles);
            assert_eq!(origin, Some(vec![line.origin.x, line.origin.y]));
        }
        compared += seeds.len() + plan.lines.len();
    }
    assert!(compared > 100, "{compared}");
}

#[test]
fn what_is_refused_or_no_request_is_told_with_its_line_and_the_rest_is_read() {
    let path = file("mixed.txt", MIXED);
    let name = path.to_str().expect("UTF-8");
    let output = call(&["read", name], b"");
    let (printed, errors) = (String::from_utf8_lossy(&output.stdout), String::from_utf8_lossy(&output.stderr));
    let titles: Vec<&str> = printed.lines().filter(|line| !line.starts_with(' ')).collect();
    assert_eq!(titles, [
        format!("{name}:3: hatch, release 2 (R2000), bits 0 to 20 of 24"),
        format!("{name}:6: prefix, release 2 (R2000), bits 0 to 26 of 32"),
    ]);
    let cut = "too few bits are left for the next read; check that the payload is whole, the release and the start bit";
    let counter = "a handle's counter is above 8; check the release and the start bit, else the payload is damaged";
    assert_eq!(errors.lines().collect::<Vec<_>>(), [
        format!("dwg-hatch: {name}:4: refusal 1 at bit 22: {cut}"),
        format!("dwg-hatch: {name}:5: there is no request \"nothing\"; a line is hatch, hatchs or prefix, or starts with #"),
        format!("dwg-hatch: {name}:7: refusal 5 at bit 18: {counter}"),
    ]);
    assert_eq!(output.status.code(), Some(2));
    // Without the line that is no request, what is refused decides.
    assert_eq!(call(&["read"], b"hatch 2 0 A9AAA0\nhatch 3 0 A9AAA0\nhatch 2 0 A9AAA0\n").status.code(), Some(1));
    assert_eq!(call(&["read"], b"").status.code(), Some(0));
    // Nothing is written to the file.
    assert_eq!(fs::read(&path).expect("the file"), MIXED);
}

#[test]
fn a_string_start_past_its_payload_is_told() {
    let output = call(&["read"], b"hatchs 2 0 A9AAA0 32 33 40504000\nhatchs 2 0 A9AAA0 33 33 40504000\n");
    let errors = String::from_utf8_lossy(&output.stderr);
    assert_eq!(errors.lines().collect::<Vec<_>>(), [
        "dwg-hatch: standard input:1: refusal 1 at bit 8 of the main payload and bit 32 of the string payload: too few bits are left for the next read; \
         check that the payload is whole, the release and the start bit",
        "dwg-hatch: standard input:2: refusal 1 at bit 0 of the main payload and bit 32 of the string payload: the string reader's start bit lies past the \
         string payload, which ends there; check the string start, and that the string payload is whole and is the one that the start is counted in",
    ]);
    assert_eq!((output.status.code(), output.stdout), (Some(1), Vec::new()));
}

#[test]
fn prefix_reads_prefixes_alone() {
    let output = call(&["prefix"], MIXED);
    let errors = String::from_utf8_lossy(&output.stderr);
    assert_eq!((output.status.code(), errors.lines().count()), (Some(2), 4), "{errors}");
    assert!(errors.starts_with("dwg-hatch: standard input:3: a hatch is read by dwg-hatch read; here a line is prefix\n"), "{errors}");
    let printed = String::from_utf8_lossy(&output.stdout).into_owned();
    assert!(printed.starts_with("standard input:6: prefix, ") && printed.contains("\n  color     256; "), "{printed}");
    assert_eq!(printed, String::from_utf8_lossy(&call(&["read"], b"\n\n\n\n\nprefix 2 0 85D08740").stdout));
}

/// A binary file gives what a request line gives, but for the origin.
#[test]
fn binary_files_are_read_as_request_lines_are() {
    let main = file("main.bin", &[0xff, 0xa9, 0xaa, 0xa0]);
    let text = file("text.bin", &[0x40, 0x50, 0x40, 0x00]);
    let prefix = file("prefix.bin", &[0x85, 0xd0, 0x87, 0x40]);
    let [main, text, prefix] = [&main, &text, &prefix].map(|path| path.to_str().expect("UTF-8"));
    let cases = [
        (format!("read --release 2 --start 8 {main}"), "hatch 2 8 FFA9AAA0"),
        (format!("read --json --release=2 --start=8 {main}"), "hatch 2 8 FFA9AAA0"),
        (format!("read --json --release 2 --start 8 --strings {text} --string-start 0 --string-end 26 {main}"), "hatchs 2 8 FFA9AAA0 0 26 40504000"),
        (format!("read --json --release 2 --start 8 --strings {text} --string-start 2 {main}"), "hatchs 2 8 FFA9AAA0 2 32 40504000"),
        (format!("read --json --start 8 {main} --release 3"), "hatch 3 8 FFA9AAA0"),
        (format!("prefix --release 2 {prefix}"), "prefix 2 0 85D08740"),
        (format!("prefix --json --release 2 --start 3 -- {prefix}"), "prefix 2 3 85D08740"),
        (format!("read --release 8 {main}"), "hatch 8 0 FFA9AAA0"),
    ];
    for (line, request) in &cases {
        let binary = call(&words(line), b"");
        let json: &[&str] = if line.contains("--json") { &["read", "--json"] } else { &["read"] };
        let asked = call(json, request.as_bytes());
        let file = words(line).into_iter().rfind(|word| word == main || word == prefix).expect("a file");
        let moved = |bytes: &[u8]| String::from_utf8_lossy(bytes).replace("standard input:1", file.to_str().expect("UTF-8"));
        assert_eq!(String::from_utf8_lossy(&binary.stdout), moved(&asked.stdout), "{line}");
        assert_eq!((String::from_utf8_lossy(&binary.stderr).into_owned(), binary.status), (moved(&asked.stderr), asked.status), "{line}");
        assert!(!asked.stdout.is_empty() || !asked.stderr.is_empty());
    }
}

#[test]
fn standard_input_may_be_lines_or_bytes() {
    let lines = format!("\u{feff}hatch 2 0 {EMPTY}\r\n \t\r\n# {EMPTY}\r\n");
    let printed = answers(&["read", "-"], lines.as_bytes());
    assert!(printed.starts_with("standard input:1: hatch, release 2 (R2000), bits 0 to 20 of 24\n"), "{printed}");
    assert_eq!(answers(&["read"], lines.as_bytes()), printed);
    assert_eq!(answers(&["read", "--release", "2"], &[0xa9, 0xaa, 0xa0]), printed.replace("input:1", "input"));
}

/// A hatch that may have been read wrongly: all of it is printed, the status stays, and there is one line of warning unless none is asked for.
#[test]
fn what_may_be_read_wrongly_is_warned_of() {
    let cases = [
        ("hatch 2 0 A9AAA0", ""),
        ("hatch 2 0 A9AAA00000", "20 bits are left unread behind it; check the release and the start bit, and that the payload is its own"),
        ("hatch 5 0 AAAAA9AAA0", "it is read without strings, though R2010's drawings have them; lend them by hatchs or --strings"),
        ("hatchs 5 0 AAAAA6AA 0 0 -", ""),
        ("hatchs 2 0 A9AAA00000 0 0 -", "22 bits are left"),
        ("prefix 2 0 85D087400000000000", ""),
    ];
    for (line, told) in cases {
        for json in [&["read"][..], &["read", "--json"]] {
            let quiet = answers(&[json, &["--quiet"]].concat(), line.as_bytes());
            let output = call(json, line.as_bytes());
            assert!(output.status.success() && output.stdout == quiet.as_bytes() && !quiet.is_empty(), "{line}: {output:?}");
            let warned = String::from_utf8_lossy(&output.stderr).into_owned();
            match told {
                "" => assert_eq!(warned, "", "{line}"),
                _ => assert!(warned.starts_with(&format!("dwg-hatch: standard input:1: warning: {told}")) && warned.lines().count() == 1, "{line}: {warned}"),
            }
        }
    }
    // A refusal and a bad line are told all the same, and count.
    let output = call(&["read", "--quiet"], b"hatch 2 0 A9\nhatch 2 0 A9A\n");
    assert_eq!((output.status.code(), String::from_utf8_lossy(&output.stderr).lines().count()), (Some(2), 2));
    refuses(&call(&["prefix", "--quiet"], b""), 2);
}

#[test]
fn a_release_is_named_or_numbered() {
    let by = |release: &str| answers(&["read", "--release", release], &[0xa9, 0xaa, 0xa0]);
    let spellings = ["R2000", "r2000", "AC1015", "ac1015", "02"];
    assert!(spellings.iter().all(|release| by(release) == by("2")));
    assert_eq!(answers(&["prefix", "--release=R2018"], &[0x85; 40]), answers(&["prefix", "--release=7"], &[0x85; 40]));
    for unknown in ["R2001", "AC1016", "2000", "2.0", "R2000 "] {
        let output = call(&["read", "--release", unknown, "-"], &[0xa9, 0xaa, 0xa0]);
        match unknown {
            // Any number is handed to the library, which refuses it.
            "2000" => assert!(refuses(&output, 1).contains("refusal 9 at bit 0")),
            _ => assert!(refuses(&output, 2).contains("which is none of R14, R2000, R2004, R2007, R2010, R2013, R2018, nor a number")),
        }
    }
}

#[test]
fn lent_lengths_of_a_request_count() {
    let body = "A9AA9010".to_string() + &"00".repeat(16);
    let line = |lent: &str| format!("hatch 2 0 {body}{lent}\n");
    assert_eq!(answers(&["read"], line(" L 0 2").as_bytes()), answers(&["read"], line("").as_bytes()));
    let told = refuses(&call(&["read"], line(" L 0 1").as_bytes()), 1);
    assert!(told.contains("refusal 11 at bit 156: the hatch is readable, but a lent list is too short for it; "), "{told}");
}

/// Lines that are no requests, and what is said of each.
#[test]
fn bad_lines_are_told_in_one_line() {
    let cases = [
        ("hatch 2 0 A9A", "HEX has 3 digits, and a byte has two"),
        ("hatch 2 0 A9AG", "HEX has \"G\" as its digit 4, which is no hexadecimal digit"),
        ("hatchs 2 0 A9 0 16 4", "STRHEX has 1 digit, and a byte has two"),
        ("hatch 18446744073709551616 0 A9", "REL is \"18446744073709551616\", which is no decimal number from 0 to 18446744073709551615"),
        ("hatch 2 -1 A9", "START is \"-1\", which is no decimal number"),
        ("hatchs 2 0 A9 0 x 40", "STREND is \"x\""),
        ("hatch 2 0 z", "HEX is zN for N zero bytes, and N is \"\""),
        ("hatch 2 0 A9 L 1 1.5", "NNUMBERS is \"1.5\""),
        ("hatch 2 0 A9 M 1 1", "\"M\" stands where L NWORDS NNUMBERS may stand"),
        ("hatch 2 0", "hatch takes REL START HEX, and the line has 2 fields after it"),
        ("prefix 2", "prefix takes REL START HEX, and the line has 1 field after it"),
        ("prefix 2 0 - L 1 1", "prefix takes REL START HEX, and the line has 6 fields after it"),
        ("hatchs 2 0 A9", "hatchs takes REL START HEX STRSTART STREND STRHEX, and the line has 3 fields after it"),
        ("bs 2 0 3FFFC0", "bs is a single code, which dwg-hatch answer reads"),
        ("tv 9 0 80", "tv is a single code, which dwg-hatch answer reads"),
        ("HATCH 2 0 A9AAA0", "there is no request \"HATCH\""),
        ("{\"hatch\": 2}", "there is no request \"{\"hatch\":\""),
        ("h\u{e9} 2 0 A9", "there is no request \"h\u{e9}\""),
    ];
    for (line, told) in cases {
        let error = refuses(&call(&["read"], line.as_bytes()), 2);
        assert!(error.starts_with("dwg-hatch: standard input:1: ") && error.contains(told), "{line}: {error}");
    }
    refuses(&call(&["read"], format!("hatch 2 0 {}\n", "0".repeat(100_001)).as_bytes()), 2);
    let long = refuses(&call(&["read"], "x".repeat(100_000).as_bytes()), 2);
    assert!(long.len() < 400, "{long}");
}

/// A binary file among request lines, or a text in 16-bit units: one line, and not one for each of its lines.
#[test]
fn what_is_no_text_is_told_once() {
    let library = fs::read(env!("CARGO_BIN_EXE_dwg-hatch")).expect("a binary file");
    let utf16: Vec<u8> = "\u{feff}hatch 2 0 A9AAA0\nhatch 2 0 A9AAA0\n".encode_utf16().flat_map(u16::to_le_bytes).collect();
    for input in [&library[..], &utf16, b"hatch 2 0 \xff\xfe\n\xff\n", b"hatch 2 0 A9\0\nx\n", &[0; 70_000], &[0xff; 70_000]] {
        let told = refuses(&call(&["read"], input), 2);
        assert!(told.contains("standard input:1: ") && told.contains("is no text; a binary file is read with --release N"), "{told}");
    }
    let zeros = fs::File::open("/dev/zero").expect("/dev/zero");
    refuses(&tool().arg("read").stdin(zeros).output().expect("the tool starts"), 2);
    // A comment may have any letters, also where a part of the line ends within one, and a mark alone is no request.
    for marks in ["#", "# "] {
        assert_eq!(answers(&["read"], format!("{marks}{}\n", "\u{e9}".repeat(40_000)).as_bytes()), "");
    }
    assert_eq!(answers(&["read"], "\u{feff}".as_bytes()), "");
    assert_eq!(answers(&["read"], b"# caf\xe9\n"), "");
}

/// A request that is longer than the part of a line that is looked at first.
#[test]
fn long_lines_are_read() {
    for spare in [0, 1, 32_757, 32_758, 32_759, 32_760, 32_761, 200_000] {
        let printed = answers(&["read", "--quiet"], format!("hatch 2 0 {EMPTY}{}\n\nhatch 2 0 {EMPTY}", "00".repeat(spare)).as_bytes());
        let ends: Vec<&str> = printed.lines().filter(|line| !line.starts_with(' ')).filter_map(|line| line.split_once(" of ")).map(|title| title.0).collect();
        assert_eq!(ends, [1, 3].map(|line| format!("standard input:{line}: hatch, release 2 (R2000), bits 0 to 20")), "{spare}");
    }
}

#[test]
fn a_file_that_cannot_be_read_is_one_line_and_status_1() {
    let hidden = file("hidden.txt", b"hatch 2 0 A9AAA0\n");
    fs::set_permissions(&hidden, fs::Permissions::from_mode(0o000)).expect("permissions");
    // Who runs the tests as root may read every file.
    let unreadable = fs::read(&hidden).is_err();
    for before in ["read", "read --json", "prefix", "read --release 2", "prefix --release 2", "read --release 2 --strings"] {
        let with = |name: &OsStr| call(&[words(before), vec![name.to_os_string()]].concat(), &[0xa9]);
        assert!(refuses(&with(OsStr::new("/no/such/file")), 1).contains("/no/such/file cannot be read: No such file"));
        assert!(refuses(&with(OsStr::new("/")), 1).contains("/ cannot be read: Is a directory"));
        refuses(&with(OsStr::from_bytes(b"no\nsuch\xfffile")), 1);
        if unreadable {
            refuses(&with(hidden.as_os_str()), 1);
        }
    }
    let folder = fs::File::open("/").expect("the root folder");
    refuses(&tool().arg("read").stdin(folder).output().expect("the tool starts"), 1);
}

#[test]
fn bad_usage_is_one_line_and_status_2() {
    let lines = "read a b|read --release|read --release x a|read --release -1 a|read --release 18446744073709551616 a|read --release 2 --start 1.5 a\
        |read --release 2 --string-start 0 a|read --release 2 --string-end 0 a|read --start 0 a|read --strings a b|read --string-end 1\
        |read --release 2 --strings - -|read --release 2 --strings -|read --json --json|read --json=yes|read --release 2 --release 2 a|read --jason a\
        |read -x|read --release= a|prefix --strings a b|prefix --release 2 --string-end 1 a|prefix a b|prefix --f64|read -- a -- b\
        |prefix --names a|read --names --names|read --names=all a";
    for line in lines.split('|') {
        let told = refuses(&call(&words(line), b"hatch 2 0 A9AAA0\n"), 2);
        let command = line.split(' ').next().expect("a command");
        assert!(told.ends_with(&format!("; dwg-hatch {command} --help says more\n")), "{told}");
    }
    refuses(&call(&[OsStr::new("read"), OsStr::from_bytes(b"--\xff\n")], b""), 2);
}

/// A file's name may start with a dash, and need not be UTF-8.
#[test]
fn names_of_files_may_be_any_bytes() {
    let folder = file("names", b"").with_file_name("names.d");
    fs::create_dir_all(&folder).expect("a folder");
    for (name, shown) in [(&b"--json"[..], "--json:1: hatch"), (b"caf\xe9\n.txt", "caf\\xe9\\n.txt:1: hatch")] {
        fs::write(folder.join(OsStr::from_bytes(name)), format!("hatch 2 0 {EMPTY}\n")).expect("a file");
        let output = tool().current_dir(&folder).args([OsStr::new("read"), OsStr::new("--"), OsStr::from_bytes(name)]).output();
        let output = output.expect("the tool starts");
        assert!(output.status.success() && output.stdout.starts_with(shown.as_bytes()), "{output:?}");
    }
}

/// A payload above the limit is refused unread, however long the file is; numbers at the end of their range are no trouble.
#[test]
fn huge_input_is_refused() {
    let zeros = || Stdio::from(fs::File::open("/dev/zero").expect("/dev/zero"));
    let output = tool().args(["read", "--release", "2"]).stdin(zeros()).output().expect("the tool starts");
    assert!(refuses(&output, 1).contains("refusal 10 at bit 0: a payload is longer than 268,435,456 bytes"));
    let most = u64::MAX;
    let with_reader = format!("hatchs 2 {most} z{most} {most} {most} z{most} L {most} {most}");
    for line in [format!("hatch {most} {most} -"), with_reader, format!("prefix 7 {most} -")] {
        refuses(&call(&["read"], line.as_bytes()), 1);
    }
    let options = format!("read --release {most} --start {most} --strings /dev/null --string-start {most} --string-end {most}");
    refuses(&call(&words(&options), b""), 1);
}

#[test]
fn output_that_cannot_be_written_is_one_line_and_status_1() {
    let full = fs::OpenOptions::new().write(true).open("/dev/full").expect("/dev/full");
    let path = file("full.txt", format!("hatch 2 0 {EMPTY}\n").as_bytes());
    let output = tool().arg("read").arg(path).stdout(full).output().expect("the tool starts");
    assert!(refuses(&output, 1).contains("standard output (/dev/full) cannot be written: No space left on device"));
}

#[test]
fn a_closed_pipe_ends_quietly() {
    let path = file("many.txt", format!("hatch 2 0 {EMPTY}\n").repeat(10_000).as_bytes());
    let mut child = tool().arg("read").arg(path).stdout(Stdio::piped()).stderr(Stdio::piped()).spawn().expect("the tool starts");
    drop(child.stdout.take());
    let output = child.wait_with_output().expect("the tool ends");
    assert!(output.status.success() && output.stderr.is_empty(), "{output:?}");
}

//! What `cut`, `read`, `prefix` and `draw` make of drawings made here, whole and damaged at every byte: no panic, and not more work than the file is
//! long. In [`wrong`] each number is wrong in turn.

mod wrong;

#[path = "../../../tests/layouts/mod.rs"]
mod layouts;
#[path = "../../../tests/records/mod.rs"]
mod records;

use dwg_hatch::HatchPath;

use crate::commands::cut::{self, letters, CUT};
use crate::commands::failure::Failure;
use crate::commands::input::{Input, Kind};
use crate::commands::options::{Asked, Options};
use crate::commands::{draw, read};
use layouts::{Bits, Numbers, Plan};
use records::{drawing_of, Record, HATCH};

/// What a command gives: its status, what it writes, and its lines about what is wrong.
struct Given {
    status: u8,
    output: String,
    errors: Vec<String>,
}

/// What a command gives for these bytes, as a file of this test.
fn given(test: &str, bytes: &[u8], kind: Kind, command: impl FnOnce(&Input, &mut Vec<u8>, &mut Vec<u8>) -> Result<u8, Failure>) -> Given {
    let path = std::env::temp_dir().join(format!("dwg-hatch-{}-{test}.dwg", std::process::id()));
    std::fs::write(&path, bytes).expect("a file");
    let (mut output, mut errors) = (Vec::new(), Vec::new());
    let result = command(&Input::Requests(path.clone().into(), kind), &mut output, &mut errors);
    std::fs::remove_file(path).expect("the file");
    let [output, errors] = [output, errors].map(|text| String::from_utf8(text).expect("UTF-8"));
    let mut errors: Vec<String> = errors.lines().map(str::to_string).collect();
    let status = result.unwrap_or_else(|failure| {
        errors.push(format!("dwg-hatch: {failure}"));
        failure.status()
    });
    // What is told though all went well: that there is nothing to read, and warnings.
    let well = |line: &String| line.contains(": of its objects that can be read, ") || line.contains(": warning: ");
    assert_eq!(status == 0, errors.iter().all(well), "{errors:?}");
    Given { status, output, errors }
}

fn cut_of(test: &str, bytes: &[u8], word: &str) -> Given {
    let words: Vec<_> = word.split_whitespace().map(Into::into).collect();
    let Ok(Asked::Run { options, .. }) = CUT.parse(&words) else { panic!("{words:?}") };
    given(test, bytes, Kind::Hatch, |input, output, errors| cut::run(&options, input, output, errors))
}

fn read_of(test: &str, bytes: &[u8], kind: Kind) -> Given {
    given(test, bytes, kind, |input, output, errors| read::run(&read::READ, &Options::default(), input, output, errors))
}

fn draw_of(test: &str, bytes: &[u8]) -> Given {
    given(test, bytes, Kind::Hatch, |input, output, errors| draw::run(&Options::default(), input, output, errors))
}

/// A hatch's payload, from a plan of numbers of a generator.
fn hatch(handle: u64) -> Vec<u8> {
    let n = &mut Numbers(handle);
    let path = HatchPath { num_boundary_handles: 2, ..n.path(2) };
    let plan = Plan { paths: vec![path], lines: Vec::new(), ..Plan::new(n, 2, false) };
    let [fields, _] = plan.lay_out(n, false);
    record(handle, HATCH, fields, 2)
}

fn record(handle: u64, type_number: usize, fields: Bits, handles: usize) -> Vec<u8> {
    let record = Record { release: 2, type_number, handle, fields, strings: Bits(Vec::new()), handles: vec![handle; handles] };
    record.lay_out(&mut Numbers(handle)).bytes
}

/// A line along x, whose ends' z are 0, by the facts of R2000 drawings; its end's x and y are the default.
fn line(handle: u64) -> Vec<u8> {
    let mut fields = Bits(Vec::new());
    fields.number(1, 1);
    (0..2).for_each(|_| {
        fields.raw(2.5f64.to_bits(), 8);
        fields.number(0, 2);
    });
    fields.number(3, 2);
    record(handle, 19, fields, 1)
}

/// Two hatches, a line and an object that is no entity, the later handles first in the file; two pairs in a block.
fn small() -> Vec<u8> {
    let other = record(0x1b, 42, Bits(vec![true; 9]), 0);
    drawing_of(&[(0x2f1, hatch(0x2f1)), (0x2f0, hatch(0x2f0)), (0x20, line(0x20)), (0x1b, other)], 2)
}

#[test]
fn a_whole_drawing_is_cut() {
    let bytes = small();
    let all = cut_of("whole", &bytes, "--prefixes");
    assert_eq!((all.status, all.errors.len()), (0, 0), "{:?}", all.errors);
    let lines: Vec<&str> = all.output.lines().collect();
    let starts: Vec<String> = lines.iter().map(|line| line.split(' ').take(4).collect::<Vec<_>>().join(" ")).collect();
    assert_eq!(starts[1..3], ["# handle 20: LINE", &starts[2]]);
    let count = |start: &str| lines.iter().filter(|line| line.starts_with(start)).count();
    assert_eq!((count("prefix 2 "), count("hatch 2 "), count("# handle 2F"), count("#")), (3, 2, 2, 5));
    assert_eq!(lines.last(), Some(&"# 4 objects: hatches 2, other entities 1, of types that are not known as entities 1."));
    // Without the prefixes the same but for the line and the prefixes.
    let hatches: Vec<&str> = lines.iter().copied().filter(|line| !line.starts_with("prefix ") && !line.contains("LINE")).collect();
    assert_eq!(cut_of("whole", &bytes, "").output.lines().collect::<Vec<_>>(), hatches);
    // Each line that is cut is read, and from the drawing itself the same is read.
    let read = read_of("whole", &bytes, Kind::Hatch);
    assert_eq!((read.status, read.output.matches(": hatch, release 2 (R2000)").count()), (0, 2), "{:?}", read.errors);
    assert_eq!(read_of("whole", &bytes, Kind::Prefix).output.matches(": prefix, release 2 (R2000)").count(), 3);
}

/// Whatever is wrong: not more lines than ten objects, the hatches that are refused, the map and the count of what is not told; not more output than
/// the file's length allows.
fn bounded(given: &Given, bytes: &[u8], hatches: usize) {
    assert!(given.errors.len() <= 12 + hatches, "{:?}", given.errors);
    assert!(given.errors.iter().all(|line| line.starts_with("dwg-hatch: ") && line.len() < 600), "{:?}", given.errors);
    assert!(given.output.len() <= 1000 + 8 * bytes.len(), "{} bytes from {}", given.output.len(), bytes.len());
    assert!(given.status <= 2);
}

#[test]
fn a_drawing_that_ends_anywhere_is_told() {
    let bytes = small();
    for length in 0..bytes.len() {
        let given = cut_of("cut-short", &bytes[..length], "--prefixes");
        bounded(&given, &bytes, 2);
        // With fewer letters it is no drawing. The map lies last in it, so one line tells that its section passes the file's end.
        assert_eq!((given.status, given.errors.len()), (if length < letters::COUNT { 2 } else { 1 }, 1), "{length}: {:?}", given.errors);
    }
}

/// All commands on a damaged drawing. Gives whether something was told.
fn is_told(damaged: &[u8]) -> bool {
    let cut = cut_of("damaged", damaged, "--prefixes");
    bounded(&cut, damaged, 2);
    for given in [read_of("damaged", damaged, Kind::Hatch), read_of("damaged", damaged, Kind::Prefix), draw_of("damaged", damaged)] {
        assert!(given.status <= 2 && given.errors.len() <= 14, "{:?}", given.errors);
    }
    cut.status != 0
}

#[test]
fn a_drawing_with_any_bytes_changed_is_read_or_told() {
    let bytes = small();
    let mut told = 0;
    for at in 0..bytes.len() {
        for value in [0, 1, 0x7f, 0x80, 0xff, bytes[at] ^ 1, bytes[at] ^ 0x40] {
            let mut damaged = bytes.clone();
            damaged[at] = value;
            told += usize::from(is_told(&damaged));
        }
    }
    assert!(told > 100, "{told}");
    // Some bytes at once.
    let n = &mut Numbers(17);
    for _ in 0..1000 {
        let mut damaged = bytes.clone();
        for _ in 0..2 + n.below(5) {
            damaged[n.below(bytes.len() as u64) as usize] = if n.coin() { n.next() as u8 } else { [0, 0x7f, 0x80, 0xff][n.below(4) as usize] };
        }
        is_told(&damaged);
    }
}

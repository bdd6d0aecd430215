//! Code page 1252 by implementations that nobody here wrote: Python's codec and the iconv command, each where it is at hand. host/test says which were.

use std::io::Write;
use std::process::{Command, Stdio};

/// What one of them says: the unit of each byte and the byte of each unit, if there is one.
pub struct Judge {
    pub name: &'static str,
    pub units: Vec<Option<u16>>,
    pub bytes: Vec<Option<u8>>,
}

/// Those that are at hand.
pub fn judges() -> Vec<Judge> {
    let judges: Vec<Judge> = [python(), iconv()].into_iter().flatten().collect();
    for judge in &judges {
        assert_eq!((judge.units.len(), judge.bytes.len()), (256, 65_536), "{}", judge.name);
        let defined = [judge.units.iter().flatten().count(), judge.bytes.iter().flatten().count()];
        assert_eq!(defined, [251, 251], "{} is asked wrongly, or is no code page 1252", judge.name);
    }
    judges
}

/// Prints 256 lines and 65,536: what one byte, and one unit, becomes alone.
const PROGRAM: &str = "
def alone(convert, *words):
    try:
        return convert(*words)
    except UnicodeError:
        return '-'
for byte in range(256):
    print(alone(lambda: '%04x' % ord(bytes([byte]).decode('cp1252'))))
for unit in range(65536):
    print(alone(lambda: chr(unit).encode('cp1252').hex()))
";

fn python() -> Option<Judge> {
    if !Command::new("python3").args(["-c", ""]).output().is_ok_and(|output| output.status.success()) {
        eprintln!("python3 is not at hand: code page 1252 is NOT COMPARED with its codec");
        return None;
    }
    let output = Command::new("python3").args(["-c", PROGRAM]).output().expect("python3 starts");
    assert!(output.status.success(), "{output:?}");
    let printed = String::from_utf8(output.stdout).expect("ASCII");
    let entry = |line: &str| (line != "-").then(|| u16::from_str_radix(line, 16).expect("hexadecimal"));
    let mut entries = printed.lines().map(entry);
    let units = entries.by_ref().take(256).collect();
    let bytes = entries.map(|entry| entry.map(|byte| u8::try_from(byte).expect("one byte"))).collect();
    Some(Judge { name: "Python", units, bytes })
}

fn iconv() -> Option<Judge> {
    if !Command::new("iconv").arg("--version").output().is_ok_and(|output| output.status.success()) {
        eprintln!("iconv is not at hand: code page 1252 is NOT COMPARED with it");
        return None;
    }
    // One byte alone; a byte that is not in the page is an error.
    let unit = |byte: u8| match converted(&["-f", "CP1252", "-t", "UTF-16LE"], vec![byte]) {
        (true, output) => Some(u16::from_le_bytes(output.try_into().expect("one unit"))),
        (false, _) => None,
    };
    let units = (0..=u8::MAX).map(unit).collect();
    Some(Judge { name: "iconv", units, bytes: iconv_bytes() })
}

/// All units at once, each with a line end behind it. With -c what is not in the page is left out, and its line end is there alone. Halves of pairs are no
/// characters, and are not asked for.
fn iconv_bytes() -> Vec<Option<u8>> {
    const END: u16 = 10;
    let is_half = |unit: u16| (0xd800..0xe000).contains(&unit);
    let asked = (0..=u16::MAX).filter(|unit| !is_half(*unit)).flat_map(|unit| [unit, END]).flat_map(u16::to_le_bytes).collect();
    let output = converted(&["-c", "-f", "UTF-16LE", "-t", "CP1252"], asked).1;
    let mut rest = output.iter().copied().peekable();
    let byte = |unit: u16| {
        let byte = if is_half(unit) { return None } else { rest.next_if(|byte| u16::from(*byte) != END || unit == END) };
        assert_eq!(rest.next().map(u16::from), Some(END), "{unit:04x}");
        byte
    };
    let bytes = (0..=u16::MAX).map(byte).collect();
    assert_eq!(rest.next(), None);
    bytes
}

/// Whether iconv converts all, and what it writes.
fn converted(words: &[&str], input: Vec<u8>) -> (bool, Vec<u8>) {
    let mut child = Command::new("iconv").args(words).stdin(Stdio::piped()).stdout(Stdio::piped()).stderr(Stdio::null()).spawn().expect("iconv starts");
    let mut pipe = child.stdin.take().expect("a pipe");
    let output = std::thread::scope(|scope| {
        scope.spawn(move || drop(pipe.write_all(&input)));
        child.wait_with_output().expect("iconv ends")
    });
    (output.status.success(), output.stdout)
}

//! Request lines for hatches as the tests take them apart, apart from the tool's own way.
#![allow(dead_code)]

use dwg_hatch::{HatchBody, StringReader};

/// A hatch request with its payloads' bytes, zeros spelt out.
pub struct Request {
    payload: Vec<u8>,
    start: usize,
    release: u64,
    strings: Option<(Vec<u8>, usize, usize)>,
}

impl Request {
    /// The request of a line `hatch ...` or `hatchs ...`; lengths of lent lists are passed over.
    pub fn of(line: &str) -> Request {
        let fields: Vec<&str> = line.split(' ').collect();
        let number = |at: usize| fields[at].parse().expect("a number");
        let strings = match fields[0] {
            "hatch" => None,
            "hatchs" => Some((bytes(fields[6]), number(4), number(5))),
            name => panic!("{name} is no hatch"),
        };
        Request { payload: bytes(fields[3]), start: number(2), release: fields[1].parse().expect("a release"), strings }
    }

    /// The body that it names.
    pub fn body(&self) -> HatchBody<'_> {
        let strings = self.strings.as_ref().map(|(payload, start, end)| StringReader { payload, start: *start, end: *end });
        HatchBody { payload: &self.payload, start: self.start, release_number: self.release, strings }
    }
}

fn bytes(field: &str) -> Vec<u8> {
    if let Some(count) = field.strip_prefix('z') {
        return vec![0; count.parse().expect("a count")];
    }
    let digits = if field == "-" { "" } else { field };
    (0..digits.len()).step_by(2).map(|at| u8::from_str_radix(&digits[at..at + 2], 16).expect("two digits")).collect()
}

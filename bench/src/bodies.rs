//! The bodies that are timed, laid out from document 01's field order at release 5, each with the numbers that a reading must give.

use crate::rng::Rng;
use crate::writer::Writer;

pub struct Body {
    pub name: String,
    pub bytes: Vec<u8>,
    pub numbers: Vec<u64>,
    pub words: usize,
    /// Whether it is a body of polylines alone, which the plain Rust reads too.
    pub plain: bool,
}

/// How a BD is written: in all its bytes, or as the tag alone (1.0 and +0.0 in turn).
#[derive(Clone, Copy)]
enum Coded {
    Full,
    Short,
}

struct Pen {
    out: Writer,
    rng: Rng,
    numbers: Vec<u64>,
    words: usize,
}

impl Pen {
    /// A coordinate of a large campus, no short code.
    fn coordinate(&mut self) -> u64 {
        (1.0e6 + (self.rng.next() >> 11) as f64 / 1.0e9).to_bits()
    }

    fn bl(&mut self, value: u32) {
        self.out.put(0, 2);
        self.out.put_low_first(u64::from(value), 4);
    }

    fn word(&mut self, value: u32) {
        self.bl(value);
        self.words += 1;
    }

    fn switch(&mut self, value: bool) {
        self.out.put(u64::from(value), 1);
        self.words += 1;
    }

    fn rd(&mut self, count: usize) {
        for _ in 0..count {
            let value = self.coordinate();
            self.out.put_low_first(value, 8);
            self.numbers.push(value);
        }
    }

    fn bd(&mut self, coded: Coded) {
        let value = match coded {
            Coded::Full => self.coordinate(),
            Coded::Short if self.numbers.len() % 2 == 0 => 0,
            Coded::Short => 1.0f64.to_bits(),
        };
        match coded {
            Coded::Full => {
                self.out.put(0, 2);
                self.out.put_low_first(value, 8);
            }
            Coded::Short => self.out.put(if value == 0 { 2 } else { 1 }, 2),
        }
        self.numbers.push(value);
    }
}

/// A solid hatch with no gradient and no names; the paths are written by the caller's function.
fn body(name: impl Into<String>, paths: u32, mut path: impl FnMut(&mut Pen)) -> Body {
    let mut pen = Pen { out: Writer::new(), rng: Rng::new(7), numbers: Vec::new(), words: 0 };
    pen.out.put(0b10_10_10_10_10_10_10, 14); // gradient: BL flag, BL, BD angle, BD shift, BL single, BD tint, BL count, all 0
    pen.out.put(0b10, 2); // gradient name: BS 0
    pen.out.put(0b10_10_10_01, 8); // elevation 0, extrusion 0, 0, 1
    pen.out.put(0b10, 2); // pattern name: BS 0
    pen.out.put(0b10, 2); // solid, not associative
    pen.bl(paths);
    for _ in 0..paths {
        path(&mut pen);
        pen.out.put(0b10, 2); // no boundary handles
        pen.words += 1;
    }
    pen.out.put(0b10_10_10, 6); // style 0, type 0, no seeds
    Body { name: name.into(), bytes: pen.out.bytes, numbers: pen.numbers, words: pen.words, plain: false }
}

fn polylines(name: impl Into<String>, paths: u32, vertices: u32, bulge: Option<Coded>) -> Body {
    let laid = body(name, paths, |pen| {
        pen.word(3); // external, polyline
        pen.switch(bulge.is_some());
        pen.switch(true);
        pen.word(vertices);
        for _ in 0..vertices {
            pen.rd(2);
            if let Some(coded) = bulge {
                pen.bd(coded);
            }
        }
    });
    Body { plain: paths > 0, ..laid }
}

fn lines(name: &str, paths: u32, edges: u32) -> Body {
    body(name, paths, |pen| {
        pen.word(1); // external, edges
        pen.word(edges);
        for _ in 0..edges {
            pen.out.put(1, 8); // a line
            pen.words += 1;
            pen.rd(4);
        }
    })
}

fn splines(name: &str, paths: u32, edges: u32, knots: u32, controls: u32, fits: u32) -> Body {
    body(name, paths, |pen| {
        pen.word(1); // external, edges
        pen.word(edges);
        for _ in 0..edges {
            pen.out.put(4, 8); // a spline
            pen.words += 1;
            pen.word(3); // degree
            pen.switch(false);
            pen.switch(false);
            pen.word(knots);
            pen.word(controls);
            for _ in 0..knots {
                pen.bd(Coded::Full);
            }
            pen.rd(2 * controls as usize);
            pen.word(fits);
            if fits != 0 {
                pen.rd(2 * (fits as usize + 2)); // and two tangents
            }
        }
    })
}

/// A row of a table: its name, and what makes its body.
pub type Named = (&'static str, fn(&str) -> Body);

pub const LARGE: [Named; 5] = [
    ("100 paths, 1,000 vertices each, no bulges", |name| polylines(name, 100, 1_000, None)),
    ("the same, bulges in all their bytes", |name| polylines(name, 100, 1_000, Some(Coded::Full))),
    ("the same, bulges as tags alone", |name| polylines(name, 100, 1_000, Some(Coded::Short))),
    ("1,000 splines, 100 knots, 100 control points, 50 fit points each", |name| splines(name, 100, 10, 100, 100, 50)),
    ("1,000 splines, 1,000 knots, 10 control points each", |name| splines(name, 100, 10, 1_000, 10, 0)),
];

pub const SMALL: [Named; 4] = [
    ("hatch, no path", |name| polylines(name, 0, 0, None)),
    ("hatch, 1 path, 4 vertices, no bulges", |name| polylines(name, 1, 4, None)),
    ("hatch, 1 path, 4 vertices, bulges in all their bytes", |name| polylines(name, 1, 4, Some(Coded::Full))),
    ("hatch, 1 path, 4 lines", |name| lines(name, 1, 4)),
];

/// Bodies whose origin is moved.
pub const MOVED: [Named; 2] = [
    ("origin moved, 100 paths, 1,000 vertices each, no bulges", |name| polylines(name, 100, 1_000, None)),
    ("the same, with bulges", |name| polylines(name, 100, 1_000, Some(Coded::Full))),
];

pub const MOVED_SMALL: [Named; 1] = [("origin moved, 1 path, 4 vertices", |name| polylines(name, 1, 4, None))];

/// So many megabytes (1,048,576 bytes) and a few bytes: four paths to each.
pub fn of_megabytes(megabytes: u32, bulges: bool) -> Body {
    let (vertices, bulge, name) = match bulges {
        false => (16_384, None, "vertices without bulges"),
        true => (10_810, Some(Coded::Full), "vertices with bulges in all their bytes"),
    };
    polylines(format!("{megabytes} MB of {name}"), 4 * megabytes, vertices, bulge)
}

/// An entity prefix: colour 256, scale 1.0, lineweight 29; or with an XDATA block of 20 bytes, 4 bytes of graphics and a colour with rgb.
pub fn prefix(more: bool) -> Vec<u8> {
    let mut out = Writer::new();
    if more {
        out.put(0b01, 2);
        out.put(20, 8); // XDATA: its size, a handle, the bytes
        out.put(0x510f, 16);
        (0..20).for_each(|byte| out.put(byte, 8));
    }
    out.put(0b10, 2); // no more XDATA
    out.put(u64::from(more), 1);
    if more {
        out.put(0b001, 3);
        out.put(4, 8); // graphics: BLL size, the bytes
        out.put(0x0102_0304, 32);
    }
    out.put(0b00_10_1, 5); // mode 0, no reactors, no dictionary
    if more {
        out.put(0, 2);
        out.put_low_first(0x8000, 2); // a colour with rgb
        out.put(0, 2);
        out.put_low_first(0xc2ff_8040, 4);
    } else {
        out.put(0b11, 2); // colour 256
    }
    out.put(0b01, 2); // scale 1.0
    out.put(0, 6 + 8 + 3); // linetype, plot style, material, shadow, visual styles
    out.put(0b10, 2); // invisibility 0
    out.put(29, 8); // lineweight
    out.bytes
}

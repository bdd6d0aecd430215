//! Hatch bodies, from document 01's field order for `decode_with_strings`.

use crate::doubles;
use crate::encode::Pen;
use crate::encode_path;
use crate::encode_text;

pub const COLOURS: u64 = 16;
pub const PATHS: u64 = 10_000;
pub const LINES: u64 = 4_096;
pub const DASHES: u64 = 64;
pub const SEEDS: u64 = 1_024;

/// Writes texts: into the string payload, in 16-bit units at every release, or inline.
pub struct Texts<'a> {
    pub strings: Option<&'a mut Pen>,
}

impl Texts<'_> {
    fn text(&mut self, main: &mut Pen, release: u64, name: &'static str) {
        let text = match &mut self.strings {
            Some(pen) => encode_text::text(pen, 16),
            None => encode_text::text(main, encode_text::width(release)),
        };
        main.laid.texts.insert(name, text);
    }
}

pub fn hatch(pen: &mut Pen, texts: &mut Texts<'_>, release: u64) {
    let solid = head(pen, texts, release);
    let paths = pen.rng.pick(&[0, 0, 1, 1, 2, 3]);
    pen.count(paths, PATHS);
    let mut pixel_size = false;
    for _ in 0..paths {
        pixel_size |= encode_path::path(pen, release);
    }
    pen.laid.number("npaths", paths);
    tail(pen, solid, pixel_size);
}

/// Up to the associative switch; answers whether the hatch is solid.
pub fn head(pen: &mut Pen, texts: &mut Texts<'_>, release: u64) -> bool {
    if release >= 3 {
        gradient(pen, texts, release);
    }
    for name in ["elev", "extx", "exty", "extz"] {
        let value = pen.bd();
        pen.laid.double(name, value);
    }
    texts.text(pen, release, "name");
    let (solid, associative) = (pen.rng.bit(), pen.rng.bit());
    pen.b(solid);
    pen.b(associative);
    pen.laid.number("solid", u64::from(solid));
    pen.laid.number("assoc", u64::from(associative));
    solid
}

/// BL flag, BL ignored, BD angle, BD shift, BL single, BD tint, BL count, colours (BD, BS, BL rgb, RC), text; also
/// where the flag is 0.
fn gradient(pen: &mut Pen, texts: &mut Texts<'_>, release: u64) {
    let any = pen.rng.next() as u32;
    let flag = pen.rng.pick(&[0, 1, 1, 2, 256, 0x8000_0000, any]);
    pen.bl(flag);
    let ignored = pen.rng.pick(&[0, 0, 7, any]);
    pen.bl(ignored);
    let (angle, shift) = (pen.bd(), pen.bd());
    let single = pen.rng.pick(&[0, 1, 2, 255, 256, 0xffff_ffff]);
    pen.bl(single);
    let tint = pen.bd();
    let count = pen.rng.pick(&[0, 0, 1, 2, 2, 3, 4, 15, 16, 17]);
    let count = if pen.clean { count.min(COLOURS) } else { count };
    pen.count(count, COLOURS);
    let colours: Vec<String> = (0..count).map(|_| colour(pen)).collect();
    texts.text(pen, release, "gname");
    if flag == 0 {
        pen.laid.texts.remove("gname"); // read, and then all gradient answers are zero and absent
        return;
    }
    pen.laid.number("grad", 1);
    for (name, value) in [("gangle", angle), ("gshift", shift), ("gtint", tint)] {
        pen.laid.double(name, value);
    }
    pen.laid.number("gsingle", u64::from(single));
    pen.laid.number("gn", count);
    pen.laid.list("gcols", ";", &colours);
}

/// BD, BS signed, BL rgb, RC; answers the colour as an answer has it.
fn colour(pen: &mut Pen) -> String {
    let double = pen.bd();
    let short = pen.rng.next() as u16;
    let short = pen.rng.pick(&[0, 5, 256, 0x7fff, 0x8000, 0xffff, short]);
    pen.bs(short);
    let rgb = pen.rng.next() as u32;
    let rgb = pen.rng.pick(&[0, 0xc200_00ff, rgb]);
    pen.bl(rgb);
    let byte = pen.rng.below(256);
    pen.bytes(byte, 1);
    format!("{double:016x}/{}/{rgb}/{byte}", short as i16)
}

/// From the style on.
pub fn tail(pen: &mut Pen, solid: bool, pixel_size: bool) {
    for name in ["style", "type"] {
        let any = pen.rng.next() as u16;
        let value = pen.rng.pick(&[0, 0, 1, 2, 255, 256, 0x8000, 0xffff, any]);
        pen.bs(value);
        pen.laid.number(name, u64::from(value));
    }
    if !solid {
        pattern(pen);
    }
    if pixel_size {
        let value = pen.bd();
        pen.laid.double("pixel", value);
    }
    let seeds = pen.rng.pick(&[0, 0, 1, 1, 2, 3]);
    pen.count(seeds, SEEDS);
    pen.laid.number("nseeds", seeds);
    for _ in 0..2 * seeds {
        let value = pen.rd();
        pen.laid.numbers.push(value);
    }
}

/// BD angle, BD scale, B double, BS count, lines (5 BD, BS count, dashes BD).
fn pattern(pen: &mut Pen) {
    for name in ["pangle", "pscale"] {
        let value = pen.bd();
        pen.laid.double(name, value);
    }
    let double = pen.rng.bit();
    pen.b(double);
    pen.laid.number("pdouble", u64::from(double));
    let lines = pen.rng.pick(&[0, 0, 1, 2, 3]);
    pen.count_bs(lines, LINES);
    pen.laid.number("nlines", lines);
    for _ in 0..lines {
        line(pen);
    }
}

fn line(pen: &mut Pen) {
    for _ in 0..5 {
        let value = pen.bd();
        pen.laid.numbers.push(value);
    }
    let many = pen.rng.pick(&[63, 64, 65]);
    let few = pen.rng.pick(&[0, 0, 1, 2, 4]);
    let dashes = if pen.seldom_bad(30) { many } else { few };
    pen.count_bs(dashes, DASHES);
    pen.laid.words.push(dashes as u32);
    for _ in 0..dashes {
        let value = if dashes == many { 0 } else { doubles::pattern(&mut pen.rng) };
        pen.bd_of(value);
        pen.laid.numbers.push(value);
    }
}

//! Entity prefixes, from document 01's field order for `read_common_entity_data`.

use crate::bits::Site;
use crate::encode::Pen;
use crate::encode_text;

pub fn prefix(pen: &mut Pen, release: u64) {
    xdata(pen);
    graphics(pen, release);
    after_graphics(pen, release);
}

/// One block of XDATA and graphics, of so many bytes each, and the other fields.
pub fn long(pen: &mut Pen, release: u64, xdata: u64, graphics: u64) {
    pen.size_bs(xdata);
    pen.handle();
    random_bytes(pen, xdata);
    pen.bs(0);
    pen.laid.number("xdata", 1);
    pen.b(true);
    graphics_size(pen, release, graphics);
    random_bytes(pen, graphics);
    pen.laid.number("gfx", 1);
    after_graphics(pen, release);
}

fn after_graphics(pen: &mut Pen, release: u64) {
    if release == 1 {
        let end = pen.rng.next() & 0xffff_ffff;
        pen.bytes(end, 4);
        pen.laid.present("dataend", end);
    }
    mode(pen, release);
    colour(pen, release);
    let scale = pen.bd();
    pen.laid.double("scale", scale);
    last_fields(pen, release);
}

/// Blocks of BS size, handle, bytes; a size 0 ends them. 256 nonzero ones are refused, even where a size 0 follows.
fn xdata(pen: &mut Pen) {
    let many = pen.rng.pick(&[255, 256, 257]);
    let few = pen.rng.pick(&[0, 0, 0, 0, 0, 1, 1, 2, 3]);
    let blocks = if pen.seldom_bad(60) { many } else { few };
    pen.laid.number("xdata", u64::from(blocks > 0));
    for _ in 0..blocks {
        let size = if blocks > 9 { 1 } else { 1 + pen.rng.below(6) };
        let size = if blocks == 1 && pen.rng.one_in(12) { 256 } else { size };
        pen.size_bs(size);
        if blocks > 9 {
            pen.raw(0, 8); // an empty handle
        } else {
            pen.handle();
        }
        random_bytes(pen, size);
    }
    pen.bs(0);
}

fn random_bytes(pen: &mut Pen, count: u64) {
    for _ in 0..count {
        let byte = pen.rng.below(256);
        pen.out.put(byte, 8);
    }
    pen.out.end_field();
}

/// B; if set, RL to release 4 or BLL from 5, and that many bytes.
fn graphics(pen: &mut Pen, release: u64) {
    let present = pen.rng.one_in(4);
    pen.b(present);
    pen.laid.number("gfx", u64::from(present));
    if !present {
        return;
    }
    let stored = pen.rng.pick(&[0, 1, 2, 3, 5, 20]);
    let too_long = pen.rng.pick(&[stored + 1, 255, 65_535, 0xffff_ffff, (1 << 56) - 1]);
    let size = if pen.seldom_bad(6) { too_long } else { stored };
    graphics_size(pen, release, size);
    random_bytes(pen, stored);
}

fn graphics_size(pen: &mut Pen, release: u64, size: u64) {
    if release >= 5 {
        pen.bll(size);
    } else {
        pen.out.sites.push(Site::Size { value_at: pen.out.place(), bytes: 4 });
        pen.bytes(size.min(0xffff_ffff), 4);
    }
}

/// BB mode; BL reactors; from 3 B; 6 and 7 B; 1 B; 1 and 2 B.
fn mode(pen: &mut Pen, release: u64) {
    let mode = pen.rng.below(4);
    pen.raw(mode, 2);
    pen.laid.number("rawmode", mode);
    let any = pen.rng.next() as u32;
    let reactors = pen.rng.pick(&[0, 0, 1, 3, 255, 256, 0x8000_0000, 0xffff_ffff, any]);
    pen.bl(reactors);
    pen.laid.number("reactors", u64::from(reactors));
    let bits = [("nodict", release >= 3), ("chain", release >= 6), ("bylayer", release == 1), ("nolinks", release <= 2)];
    for (name, present) in bits {
        if present {
            let bit = pen.rng.bit();
            pen.b(bit);
            pen.laid.number(name, u64::from(bit));
        }
    }
}

/// BS; from 3, by its high byte, BL rgb (80 and not 40), BL alpha (20), inline texts (41 all set; 42 all set).
fn colour(pen: &mut Pen, release: u64) {
    let any = pen.rng.below(256) as u16;
    let flags = pen.rng.pick(&[0, 0, 0, 1, 0x41, 0x42, 0x43, 0xc0, 0x80, 0x20, 0xa0, 0xe3, 0xc1, 0x40, 0x01, 0x03, any]);
    let index = pen.rng.below(256) as u16;
    let value = pen.rng.pick(&[256, flags << 8 | index, flags << 8 | index, flags << 8]);
    pen.bs(value);
    pen.laid.number("color", u64::from(value));
    if release < 3 {
        return;
    }
    let flags = value >> 8;
    for (name, present) in [("rgb", flags & 0xc0 == 0x80), ("alpha", flags & 0x20 != 0)] {
        if present {
            let any = pen.rng.next() as u32;
            let word = pen.rng.pick(&[0, 200, 0xc200_0000, any]);
            pen.bl(word);
            pen.laid.present(name, u64::from(word));
        }
    }
    for name in [0x41, 0x42] {
        if flags & name == name {
            encode_text::text(pen, encode_text::width(release));
        }
    }
}

/// From 2 BB, BB; from 4 BB, RC; from 5 three B; BS invisibility; from 2 RC lineweight.
fn last_fields(pen: &mut Pen, release: u64) {
    let fields = [("ltype", 2), ("plot", 2), ("material", 2), ("shadow", 8), ("full", 1), ("face", 1), ("edge", 1)];
    let here = match release {
        1 => 0,
        2 | 3 => 2,
        4 => 4,
        _ => 7,
    };
    for (name, width) in &fields[..here] {
        let value = pen.rng.next() & ((1 << width) - 1);
        pen.raw(value, *width);
        pen.laid.number(name, value);
    }
    let any = pen.rng.next() as u16;
    let invisibility = pen.rng.pick(&[0, 0, 1, 255, 256, 0x7fff, 0x8000, 0xffff, any]);
    pen.bs(invisibility);
    pen.laid.set("invis", (invisibility as i16).to_string());
    if release >= 2 {
        let weight = pen.rng.below(256);
        pen.bytes(weight, 1);
        pen.laid.number("weight", weight);
    }
}

//! The tables: which rows they have, and how a row is printed, as Markdown.

use std::time::Instant;

use crate::bodies::{self, Named};
use crate::conversions::{self, NAME, WITH_DASH};
use crate::moves;
use crate::sides::{self, Repeat, Row};
use crate::starts::{self, TEXT_BITS};

/// What makes a row, when it is its turn, since the large ones take much room; with `true` it is first looked that both sides read it.
pub type Make = Box<dyn Fn(bool) -> Result<Row, String>>;

/// The rows of a table.
pub type Rows = Vec<Make>;

fn named(list: &'static [Named]) -> Rows {
    list.iter().map(|(name, make)| Box::new(move |checked| sides::of_body(make(name), checked)) as Make).collect()
}

pub fn large() -> Rows {
    named(&bodies::LARGE)
}

pub fn small() -> Rows {
    let mut rows = named(&bodies::SMALL);
    rows.push(Box::new(|checked| sides::of_prefix("prefix, 39 bits", bodies::prefix(false), checked)));
    rows.push(Box::new(|checked| sides::of_prefix("prefix with XDATA, graphics and an rgb", bodies::prefix(true), checked)));
    rows.extend(moved(&bodies::MOVED_SMALL));
    rows
}

/// Starts in a string payload of so many bytes, for tables in which the fourth side is the plain Rust: of theirs the first three alone.
pub fn string_starts(length: usize) -> Rows {
    let row = |name: &'static str, bit: usize| {
        let make = move |checked: bool| {
            let mut row = starts::of_start(name, length, bit, if checked { &[0, 1, 2] } else { &[] })?;
            row.sides.truncate(3);
            Ok(row)
        };
        Box::new(make) as Make
    };
    vec![row("string start at bit 0", 0), row("string start at the end", 8 * length - TEXT_BITS)]
}

/// The starts of bench/starts, with all their sides, of which it is looked that those of `checked` read them; at the last there is no text.
pub fn starts(length: usize, checked: Vec<usize>) -> Rows {
    let end = 8 * length;
    let places = [("start at bit 0", 0), ("in the middle", end / 2), ("at the last text", end - TEXT_BITS), ("at the payload's end, no text", end)];
    let row = |(name, bit)| {
        let checked = checked.clone();
        Box::new(move |look| starts::of_start(name, length, bit, if look { &checked } else { &[] })) as Make
    };
    places.into_iter().map(row).collect()
}

/// Moves of the origin.
pub fn moves() -> Rows {
    moved(&bodies::MOVED)
}

fn moved(list: &'static [Named]) -> Rows {
    list.iter().map(|(name, make)| Box::new(move |checked| moves::of_body(make(name), checked)) as Make).collect()
}

/// Conversions by code page 1252; a long list of names, and one of the byte that the way back finds last.
pub fn conversions() -> Rows {
    const LONG: usize = 65_535;
    let row = |name: &'static str, bytes: fn() -> Vec<u8>, back: bool| Box::new(move |_| conversions::of_name(name, bytes(), back)) as Make;
    let names = || NAME.iter().copied().cycle().take(LONG).collect();
    let dashes = || WITH_DASH.iter().copied().cycle().take(LONG).collect();
    vec![
        row("a name of 12 bytes, to units", || NAME.to_vec(), false),
        row("a name of 12 units, to bytes", || NAME.to_vec(), true),
        row("a name of 12 bytes with a dash, to units", || WITH_DASH.to_vec(), false),
        row("a name of 12 units with a dash, to bytes", || WITH_DASH.to_vec(), true),
        row("65,535 bytes, to units", names, false),
        row("65,535 units, to bytes", names, true),
        row("65,535 bytes with dashes, to units", dashes, false),
        row("65,535 units with dashes, to bytes", dashes, true),
        row("65,535 units of byte 9F, to bytes", || vec![0x9f; LONG], true),
    ]
}

pub fn growth(megabytes: &[u32], bulges: bool) -> Rows {
    let row = |of: u32| Box::new(move |checked| sides::of_body(bodies::of_megabytes(of, bulges), checked)) as Make;
    megabytes.iter().map(|of| row(*of)).collect()
}

/// The best times of one call by each side, in seconds. The sides take turns, so that a busy machine slows them all; short calls are
/// timed many at once, and those that take more than a tenth of a second in the first `long` rounds alone.
pub fn best(row: &mut Row, rounds: usize, long: usize) -> Vec<f64> {
    let first = |side: &mut Repeat| {
        let began = Instant::now();
        side(1);
        began.elapsed().as_nanos().max(1)
    };
    let first: Vec<u128> = row.sides.iter_mut().map(first).collect();
    let calls: Vec<u32> = first.iter().map(|nanos| (2_000_000 / nanos).max(1) as u32).collect();
    let mut best = vec![f64::INFINITY; calls.len()];
    for round in 0..rounds {
        for (index, side) in row.sides.iter_mut().enumerate() {
            if round >= long && first[index] > 100_000_000 {
                continue;
            }
            let began = Instant::now();
            side(calls[index]);
            best[index] = best[index].min(began.elapsed().as_secs_f64() / f64::from(calls[index]));
        }
    }
    best
}

/// A number with commas between its thousands, and so many digits behind the point.
pub fn grouped(value: f64, digits: usize) -> String {
    let text = format!("{value:.digits$}");
    let (whole, rest) = text.split_at(text.find('.').unwrap_or(text.len()));
    let mut out = String::new();
    for (index, digit) in whole.chars().enumerate() {
        if index > 0 && (whole.len() - index) % 3 == 0 {
            out.push(',');
        }
        out.push(digit);
    }
    out + rest
}

/// Prints a table whose cells are `shown` of a row's bytes and one side's seconds: with the ratios to the Rust's time, and where a row has the
/// plain Rust, how many times its time the 64-bit entry takes.
pub fn print(title: &str, rows: Rows, rounds: usize, shown: fn(usize, f64) -> String) -> Result<(), String> {
    let ratio = |of: f64| grouped(of, usize::from(of < 100.0));
    println!("\n| {title} | Rust | as f64 | times | as 64 bits | times | plain | of it |\n|---|---|---|---|---|---|---|---|");
    for make in rows {
        let mut row = make(true)?;
        let times = best(&mut row, rounds, rounds);
        let mut line = format!("| {} | {} |", row.name, shown(row.bytes, times[0]));
        for seconds in &times[1..3] {
            line += &format!(" {} | {} |", shown(row.bytes, *seconds), ratio(times[0] / seconds));
        }
        match times.get(3) {
            Some(plain) => println!("{line} {} | {} |", shown(row.bytes, *plain), grouped(times[2] / plain, 2)),
            None => println!("{line} | |"),
        }
    }
    Ok(())
}

/// The same of rows with two sides, a plain loop and the port.
pub fn print_pairs(title: &str, rows: Rows, rounds: usize, shown: fn(usize, f64) -> String) -> Result<(), String> {
    println!("\n| {title} | plain loop | port | times |\n|---|---|---|---|");
    for make in rows {
        let mut row = make(true)?;
        let times = best(&mut row, rounds, rounds);
        let (plain, port) = (shown(row.bytes, times[0]), shown(row.bytes, times[1]));
        println!("| {} | {plain} | {port} | {} |", row.name, grouped(times[0] / times[1], 1));
    }
    Ok(())
}

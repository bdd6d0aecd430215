//! Times the Rust, unchanged, and the port on the same bytes; bench/run, bench/instructions and bench/starts build and run it.

include!("rust_modules.rs");

mod bodies;
mod conversions;
#[allow(dead_code)]
mod ffi;
mod judged;
mod moves;
#[allow(dead_code)]
mod rng;
mod plain;
mod rows;
mod sides;
mod starts;
mod writer;

use std::hint::black_box;
use std::process::ExitCode;

use rows::{Rows, grouped};
use sides::Repeat;

const USAGE: &str = "usage: bench ROUNDS
       bench rows                           the rows whose calls are counted, each looked at: name, bytes, sides
       bench repeat ROW SIDES TIMES...      calls each of a row's sides (0 the Rust, 1 as f64, 2 as 64 bits, 3 plain; of a conversion 0 plain, 1 the port)
                                            so many times, batch by batch
       bench starts BYTES look SIDES        looks whether the sides (0 the Rust, 1 as f64, 2 as 64 bits, 3 measuring, 4 text alone) read the string starts
       bench starts BYTES repeat ROW SIDES TIMES...
       bench starts BYTES time ROUNDS LONG  in LONG rounds alone where a call takes more than a tenth of a second
       bench starts BYTES judge SIDES       judges the instructions of the sides, by lines of row, side and count from standard input";

fn micro(_: usize, seconds: f64) -> String {
    let micros = seconds * 1.0e6;
    grouped(micros, if micros < 10.0 { 2 } else { 0 })
}

fn per_second(_: usize, seconds: f64) -> String {
    grouped(1.0 / seconds, 0)
}

fn nanos(_: usize, seconds: f64) -> String {
    let nanos = seconds * 1.0e9;
    grouped(nanos, usize::from(nanos < 100.0))
}

fn nanos_per_byte(bytes: usize, seconds: f64) -> String {
    grouped(seconds * 1.0e9 / bytes as f64, 3)
}

/// Every table; the large bodies are timed less often.
fn time(rounds: usize) -> Result<(), String> {
    println!("The best of {rounds} rounds; the large bodies' of {}.", rounds.div_ceil(3));
    rows::print("Body (microseconds of a call)", rows::large(), rounds, micro)?;
    rows::print("Origin moved (microseconds of a call)", rows::moves(), rounds, micro)?;
    rows::print("Small call (calls per second)", rows::small(), rounds, per_second)?;
    rows::print_pairs("Names by code page 1252 (nanoseconds of a call)", rows::conversions(), rounds, nanos)?;
    rows::print("String payload of 16,777,216 bytes (microseconds of a call)", rows::string_starts(16_777_216), rounds, micro)?;
    let growth: Rows = [false, true].into_iter().flat_map(|bulges| rows::growth(&[1, 4, 16, 64], bulges)).collect();
    rows::print("Growth (nanoseconds per byte)", growth, rounds.div_ceil(3), nanos_per_byte)
}

/// The rows whose calls are counted. The Rust looks for a string start bit by bit, so that the string payload is short here.
fn counted() -> Rows {
    let growths = [false, true].map(|bulges| rows::growth(&[1, 4, 16], bulges));
    [rows::large(), rows::small(), rows::string_starts(65_536)].into_iter().chain(growths).chain([rows::moves(), rows::conversions()]).flatten().collect()
}

fn names() -> Result<(), String> {
    counted().iter().try_for_each(|make| make(true).map(|row| println!("{}\t{}\t{}", row.name, row.bytes, row.sides.len())))
}

fn number<Number: std::str::FromStr>(word: &str) -> Result<Number, String> {
    word.parse().map_err(|_| USAGE.to_string())
}

/// Numbers with commas between.
fn numbers(list: &str) -> Result<Vec<usize>, String> {
    list.split(',').map(number).collect()
}

/// So many calls. Callgrind counts what is in this function, by its name (bench/callgrind.sh); the last line keeps the call in it, which could end it by a jump.
#[unsafe(no_mangle)]
#[inline(never)]
fn batch_of_calls(side: &mut Repeat, times: u32) {
    side(times);
    black_box(());
}

fn repeat(rows: &Rows, row: &str, sides: &str, times: &[&str]) -> Result<(), String> {
    let times: Vec<u32> = times.iter().map(|word| number(word)).collect::<Result<_, _>>()?;
    let mut row = rows.get(number::<usize>(row)?).ok_or(USAGE)?(false)?;
    for side in numbers(sides)? {
        let side = row.sides.get_mut(side).ok_or(USAGE)?;
        times.iter().for_each(|times| batch_of_calls(side, *times));
    }
    Ok(())
}

/// The sides of a string start.
fn start_sides(list: &str) -> Result<Vec<usize>, String> {
    let sides = numbers(list)?;
    if sides.iter().all(|side| *side < starts::SIDES.len()) { Ok(sides) } else { Err(USAGE.to_string()) }
}

/// The commands of bench/starts, on a payload of so many bytes.
fn string_starts(length: usize, words: &[&str]) -> Result<(), String> {
    if length < starts::LEAST_BYTES {
        return Err(format!("a payload of string starts has {} bytes or more", starts::LEAST_BYTES));
    }
    match words {
        ["look", sides] => rows::starts(length, start_sides(sides)?).iter().try_for_each(|make| make(true).map(drop)),
        ["repeat", row, sides, times @ ..] => repeat(&rows::starts(length, Vec::new()), row, sides, times),
        ["time", rounds, long] => judged::time(length, number(rounds)?, number(long)?),
        ["judge", sides] => judged::judge(length, &start_sides(sides)?),
        _ => Err(USAGE.to_string()),
    }
}

fn main() -> ExitCode {
    let words: Vec<String> = std::env::args().skip(1).collect();
    let words: Vec<&str> = words.iter().map(String::as_str).collect();
    let done = match words.as_slice() {
        ["rows"] => names(),
        ["repeat", row, sides, times @ ..] => repeat(&counted(), row, sides, times),
        ["starts", length, words @ ..] => number(length).and_then(|length| string_starts(length, words)),
        [rounds] => rounds.parse().ok().filter(|rounds| *rounds > 0).ok_or(USAGE.to_string()).and_then(time),
        _ => Err(USAGE.to_string()),
    };
    match done {
        Ok(()) => ExitCode::SUCCESS,
        Err(why) => {
            eprintln!("bench: {why}");
            ExitCode::from(1)
        }
    }
}

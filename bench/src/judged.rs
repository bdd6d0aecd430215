//! The tables of string starts in a payload: what was measured, and whether the place of a start matters. It does not where a side's greatest number is at most
//! twice its least. At the payload's end there is no text to read, so that a call may well take less there: that number is not looked at for the least.

use std::io;

use crate::rows::{self, grouped};
use crate::starts::SIDES;

/// A number for each side, or nothing where it was not counted.
type Numbers = [Option<f64>; SIDES.len()];

/// A row's name and its numbers.
type Measured = (String, Numbers);

/// The greatest number of a side divided by its least with a text, where all were counted; the last row has none.
fn factor(rows: &[Measured], side: usize) -> Option<f64> {
    let numbers: Vec<f64> = rows.iter().map(|(_, numbers)| numbers[side]).collect::<Option<_>>()?;
    let (_, with_text) = numbers.split_last()?;
    Some(numbers.iter().copied().reduce(f64::max)? / with_text.iter().copied().reduce(f64::min)?)
}

fn is_within_two(factor: f64) -> bool {
    factor <= 2.0
}

fn line(name: &str, numbers: &Numbers, shown: fn(f64) -> String) {
    let cells = numbers.map(|number| number.map_or("not counted".to_string(), shown));
    println!("| {name} | {} |", cells.join(" | "));
}

/// Prints the table of a payload of so many bytes, and gives the sides' factors.
fn print(length: usize, unit: &str, rows: &[Measured], shown: fn(f64) -> String) -> Numbers {
    println!("\n| String payload of {} bytes ({unit} of a call) | {} |", grouped(length as f64, 0), SIDES.join(" | "));
    println!("|---{}|", "|---".repeat(SIDES.len()));
    rows.iter().for_each(|(name, numbers)| line(name, numbers, shown));
    let factors = std::array::from_fn(|side| factor(rows, side));
    line("greatest / least with a text", &factors, |factor| grouped(factor, if factor < 100.0 { 2 } else { 0 }));
    line("within a factor of two", &factors, |factor| if is_within_two(factor) { "yes" } else { "no" }.to_string());
    factors
}

/// Times every start, calls that take more than a tenth of a second in `long` rounds alone. Times are not judged, since a busy machine changes them.
pub fn time(length: usize, rounds: usize, long: usize) -> Result<(), String> {
    let mut measured = Vec::new();
    for make in rows::starts(length, Vec::new()) {
        let mut row = make(false)?;
        let times = rows::best(&mut row, rounds, long);
        measured.push((row.name, std::array::from_fn(|side| times.get(side).copied())));
    }
    print(length, "nanoseconds", &measured, |seconds| crate::nanos(0, seconds));
    Ok(())
}

/// The counts from standard input: lines of a row, a side and the instructions.
fn counts(length: usize) -> Result<Vec<Measured>, String> {
    let unnumbered = |make: rows::Make| make(false).map(|row| (row.name, Numbers::default()));
    let mut measured: Vec<Measured> = rows::starts(length, Vec::new()).into_iter().map(unnumbered).collect::<Result<_, _>>()?;
    for line in io::stdin().lines() {
        let line = line.map_err(|error| error.to_string())?;
        let words: Vec<usize> = line.split(' ').map_while(|word| word.parse().ok()).collect();
        let [row, side, count] = words[..] else { return Err(format!("no row, side and count: {line}")) };
        let numbers = measured.get_mut(row).and_then(|(_, numbers)| numbers.get_mut(side));
        *numbers.ok_or_else(|| format!("no row or no side: {line}"))? = Some(count as f64);
    }
    Ok(measured)
}

/// Prints the counts, and refuses where one of the sides is not within a factor of two, or was not counted.
pub fn judge(length: usize, sides: &[usize]) -> Result<(), String> {
    let factors = print(length, "instructions", &counts(length)?, |count| grouped(count, 0));
    let apart: Vec<&str> = sides.iter().filter(|side| !factors[**side].is_some_and(is_within_two)).map(|side| SIDES[*side]).collect();
    if apart.is_empty() { Ok(()) } else { Err(format!("payload of {length} bytes: the instructions are not within a factor of two: {}", apart.join(", "))) }
}

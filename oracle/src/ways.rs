//! How often the moves and the conversions among some requests are answered by each way. Of many requests all ways must be there, or the run shows less than
//! it says.

use std::collections::BTreeMap;
use std::io::{self, BufRead};

use crate::cp1252;
use crate::move_model;
use crate::request::{self, Request};

/// Of fewer requests than these some way may be missing.
const ENOUGH: usize = 2_000;

const MOVED: &str = "moved";

/// How often each way was taken, of one kind of requests.
type Counts = BTreeMap<String, usize>;

/// A way of a move as it is shown.
fn move_way((number, why): (u32, &str)) -> String {
    format!("{number}: {why}")
}

pub fn run() -> Result<bool, String> {
    let (mut moves, mut conversions) = (Counts::new(), Counts::new());
    for line in io::stdin().lock().lines() {
        let line = line.map_err(|e| format!("oracle ways: {e}"))?;
        match request::parse(&line) {
            Some(Request::Move(request)) => {
                let way = match move_model::moved(&request) {
                    Ok(_) => MOVED.to_string(),
                    Err(why) => move_way((move_model::number_of(why), why)),
                };
                *moves.entry(way).or_default() += 1;
            }
            Some(Request::CodePage(request)) => *conversions.entry(cp1252::way(&request).to_string()).or_default() += 1,
            _ => {}
        }
    }
    let move_ways = [MOVED.to_string()].into_iter().chain(move_model::WAYS.map(move_way)).collect();
    let all_moves = are_reached("moves", move_ways, &moves);
    let all_conversions = are_reached("conversions", cp1252::WAYS.map(str::to_string).to_vec(), &conversions);
    Ok(all_moves && all_conversions)
}

/// Shows the ways of a kind, if there are requests of it. True if each was reached, or there were few requests.
fn are_reached(kind: &str, ways: Vec<String>, counts: &Counts) -> bool {
    let all: usize = counts.values().sum();
    if all == 0 {
        return true;
    }
    println!("{kind:<52} {:>9}", "requests");
    for way in &ways {
        println!("{way:<52} {:>9}", counts.get(way).copied().unwrap_or(0));
    }
    let missing = ways.iter().filter(|way| !counts.contains_key(*way)).count();
    if missing > 0 {
        println!("oracle ways: {missing} of them were not reached");
    }
    missing == 0 || all < ENOUGH
}

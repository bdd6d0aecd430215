//! The judge of the port: the Rust, unchanged, behind the line protocol; a generator of requests; a comparer.

include!("rust_modules.rs");

mod answer;
mod answer_code;
mod answer_hatch;
mod answer_prefix;
mod cp1252;
mod cp1252_request;
mod lists;
mod move_model;
mod move_request;
mod refusal;
mod request;
mod show;
mod text_place;

mod bits;
mod boundaries;
mod doubles;
mod encode;
mod encode_hatch;
mod encode_path;
mod encode_prefix;
mod encode_text;
mod examples;
mod examples_text;
mod gen_codes;
mod gen_cp1252;
mod gen_hatch;
mod gen_long;
mod gen_move;
mod gen_move_caps;
mod gen_prefix;
mod gen_strings;
mod generate;
mod laid;
mod layouts;
mod rng;
mod spoil;

mod compare;
mod reader_starts;
mod stored;
mod ways;

use std::process::ExitCode;

const USAGE: &str = "usage: oracle answer [--f64] < REQUESTS
       oracle generate [--f64] SEED N [codes|tv|prefix|hatch|move|cp1252]...
       oracle stored [--seed SEED] [codes|tv|prefix|hatch]...
       oracle compare-lines REQUESTS ORACLE-ANSWERS PORT-ANSWERS
       oracle examples
       oracle layouts SEED N
       oracle reader-starts
       oracle ways < REQUESTS";

fn main() -> ExitCode {
    let all: Vec<String> = std::env::args().skip(1).collect();
    let f64_entries = all.iter().any(|a| a == "--f64");
    let args: Vec<&str> = all.iter().map(String::as_str).filter(|a| *a != "--f64").collect();
    let done = match args.split_first() {
        Some((&"answer", [])) => answer::run(f64_entries),
        Some((&"generate", rest)) => generate::run(rest, f64_entries),
        Some((&"stored", rest)) => stored::run(rest),
        Some((&"compare-lines", [requests, ours, theirs])) => compare::run(requests, ours, theirs),
        Some((&"examples", [])) => examples::run(),
        Some((&"layouts", [seed, count])) => layouts::run(seed, count),
        Some((&"reader-starts", [])) => reader_starts::run(),
        Some((&"ways", [])) => ways::run(),
        _ => Err(USAGE.to_string()),
    };
    match done {
        Ok(true) => ExitCode::SUCCESS,
        Ok(false) => ExitCode::from(1),
        Err(message) => {
            eprintln!("{message}");
            ExitCode::from(2)
        }
    }
}

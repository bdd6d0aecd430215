//! A list of requests with the Rust's answers, to be stored and replayed where the Rust is not at hand.

use std::collections::{BTreeMap, BTreeSet};

use crate::answer;
use crate::answer_hatch;
use crate::compare;
use crate::examples;
use crate::generate::{self, Group, Source};
use crate::request::{self, Request};
use crate::show::Show;

/// How many requests of each group are looked through, and the longest line that is stored; one that shows a rare
/// refusal may be longer.
const LOOKED_THROUGH: usize = 14_000;
const LONGEST: usize = 700;
const LONGEST_RARE: usize = 2_500;

pub fn run(args: &[&str]) -> Result<bool, String> {
    let (seed, names) = match args {
        ["--seed", seed, names @ ..] => (seed.parse().map_err(|_| format!("no seed: {seed}"))?, names),
        names => (1, names),
    };
    let mut groups = generate::groups(names)?;
    groups.retain(|group| ![Group::Move, Group::Cp1252].contains(group)); // the Rust has no such calls
    let mut seen = BTreeSet::new();
    for (request, _) in examples::all() {
        if !request.is_empty() && groups.contains(&group_of(&request)) && seen.insert(request.clone()) {
            print(&request);
        }
    }
    for group in groups {
        for request in selection(group, seed) {
            if seen.insert(request.clone()) {
                print(&request);
            }
        }
    }
    Ok(true)
}

fn ask(request: &str) -> String {
    answer::line(request, Show { f64_entries: false })
}

fn print(request: &str) {
    println!("{request}\t{}", ask(request));
}

fn group_of(request: &str) -> Group {
    match request.split(' ').next() {
        Some("tv") => Group::Tv,
        Some("prefix") => Group::Prefix,
        Some("hatch" | "hatchs") => Group::Hatch,
        Some("move") => Group::Move,
        Some("cp1252" | "uncp1252") => Group::Cp1252,
        _ => Group::Codes,
    }
}

/// A few requests of each kind, each outcome and, where releases matter, each release.
fn selection(group: Group, seed: u64) -> Vec<String> {
    let mut source = Source::new(group, seed, false, 0);
    let mut taken: BTreeMap<String, usize> = BTreeMap::new();
    let mut lines = Vec::new();
    for _ in 0..LOOKED_THROUGH {
        let request = source.next();
        if request.contains("z26843545") || request.len() > LONGEST_RARE {
            continue; // the limit itself is among the examples
        }
        let answer = ask(&request);
        let longest = if answer.starts_with("err 8 ") { LONGEST_RARE } else { LONGEST };
        if request.len() > longest {
            continue;
        }
        let mut classes = vec![(class(&request, &answer, group), wanted(group, &answer))];
        let shown = features(&request).into_iter().chain(paddings(&request, &answer));
        classes.extend(shown.map(|name| (name, 1)));
        let new = classes.iter().any(|(class, wanted)| taken.get(class).is_none_or(|count| count < wanted));
        if new {
            for (class, _) in classes {
                *taken.entry(class).or_default() += 1;
            }
            lines.push(request);
        }
    }
    lines
}

fn class(request: &str, answer: &str, group: Group) -> String {
    let mut fields = request.split(' ');
    let kind = fields.next().unwrap_or_default();
    let release = fields.next().unwrap_or_default();
    let outcome: Vec<&str> = answer.split(' ').take(if answer.starts_with("err") { 2 } else { 1 }).collect();
    let release = if group == Group::Codes { "" } else { release };
    format!("{kind} {release} {}", outcome.join(" "))
}

/// What an accepted hatch body holds, with the release.
fn features(request: &str) -> Vec<String> {
    let Some(Request::Hatch(hatch)) = request::parse(request) else {
        return Vec::new();
    };
    match answer_hatch::read(&hatch) {
        Ok(reading) => reading.features().iter().map(|name| format!("{name} {}", hatch.release)).collect(),
        Err(_) => Vec::new(),
    }
}

/// Which texts the answer has, padded or not, with the kind (inline, of a body, by a reader) and the release. An absent name is none.
fn paddings(request: &str, answer: &str) -> Vec<String> {
    let asked: Vec<&str> = request.split(' ').take(2).collect();
    let texts = compare::texts(answer).into_iter().filter(|(_, text)| !text.starts_with('-'));
    texts.map(|(name, text)| format!("{} {name} {}", asked.join(" "), if text.ends_with(":1") { "padded" } else { "not padded" })).collect()
}

fn wanted(group: Group, answer: &str) -> usize {
    match (group, answer.starts_with("ok")) {
        (Group::Codes, true) => 10,
        (Group::Codes, false) => 5,
        (_, true) => 4,
        (_, false) if answer.starts_with("err 8 ") => 1,
        (_, false) => 2,
    }
}

//! The comparing part of oracle/compare: two files of answers to one file of requests.

use std::collections::BTreeMap;
use std::fs;

#[derive(Default)]
struct Tally {
    requests: usize,
    differ: usize,
}

#[derive(Default)]
struct Run {
    kinds: BTreeMap<String, Tally>,
    outcomes: BTreeMap<String, Tally>,
    first: Option<String>,
    requests: usize,
    differ: usize,
    missing: usize,
    /// Texts of the judge's answers that are padded, and those that are not.
    padded: usize,
    unpadded: usize,
}

/// Of fewer inline texts than these it may be that none is padded.
const ENOUGH: usize = 2_000;

fn read(path: &str) -> Result<Vec<String>, String> {
    let text = fs::read_to_string(path).map_err(|e| format!("oracle compare-lines: {path}: {e}"))?;
    Ok(text.lines().map(str::to_string).collect())
}

/// `ok`, `err NUMBER` or `bad request`.
fn outcome(answer: &str) -> String {
    let words = if answer.starts_with("ok") { 1 } else { 2 };
    answer.split(' ').take(words).collect::<Vec<&str>>().join(" ")
}

/// The texts of an answer, each behind its field's name: a hatch's two names, and an inline text, which has no name. No other value has six parts.
pub fn texts(answer: &str) -> Vec<(&str, &str)> {
    let named = answer.split(' ').map(|word| word.split_once('=').unwrap_or(("", word)));
    named.filter(|(_, value)| value.split(':').count() == 6).collect()
}

/// Who says what is right.
fn judge(request: &str) -> &'static str {
    match request.split(' ').next() {
        Some("move") => "the model",
        Some("cp1252" | "uncp1252") => "iconv",
        _ => "the Rust",
    }
}

impl Run {
    fn add(&mut self, request: &str, ours: &str, theirs: Option<&String>) {
        let differ = theirs.is_none_or(|line| line != ours);
        let kind = request.split(' ').next().unwrap_or_default().to_string();
        let known = outcome(ours);
        for (_, text) in texts(ours) {
            let padded = text.ends_with(":1");
            self.padded += usize::from(padded);
            self.unpadded += usize::from(!padded);
        }
        for tally in [self.kinds.entry(kind).or_default(), self.outcomes.entry(known).or_default()] {
            tally.requests += 1;
            tally.differ += usize::from(differ);
        }
        self.requests += 1;
        self.differ += usize::from(differ);
        self.missing += usize::from(theirs.is_none());
        if differ && self.first.is_none() {
            let line = theirs.map_or("(no answer line)", String::as_str);
            self.first = Some(format!("{request}\n  {}: {ours}\n  the port: {line}", judge(request)));
        }
    }

    fn print(&self, extra: usize) {
        table("kind", &self.kinds);
        table("the judge's answer", &self.outcomes);
        if self.padded + self.unpadded > 0 {
            println!("texts: {} padded, {} not", self.padded, self.unpadded);
        }
        if self.says_less() {
            println!("of so many inline texts some must be padded and some not");
        }
        if let Some(first) = &self.first {
            println!("the first difference: {first}");
        }
        if self.missing > 0 {
            println!("missing answer lines: {} (counted as differences)", self.missing);
        }
        if extra > 0 {
            println!("answer lines that answer no request: {extra} (counted as differences)");
        }
        let differ = self.differ + extra;
        println!("compare: {} requests, {differ} differences", self.requests);
    }

    /// Whether the run shows less than it says: many inline texts, and no text is padded, or all are.
    fn says_less(&self) -> bool {
        let inline = self.kinds.get("tv").map_or(0, |tally| tally.requests);
        inline >= ENOUGH && (self.padded == 0 || self.unpadded == 0)
    }
}

fn table(head: &str, rows: &BTreeMap<String, Tally>) {
    println!("{head:<18} {:>9} {:>9}", "requests", "differ");
    for (name, tally) in rows {
        println!("{name:<18} {:>9} {:>9}", tally.requests, tally.differ);
    }
}

/// True if there is no difference, every request has one answer line, and of many texts some are padded and some not.
pub fn run(requests: &str, ours: &str, theirs: &str) -> Result<bool, String> {
    let (requests, ours, theirs) = (read(requests)?, read(ours)?, read(theirs)?);
    if requests.len() != ours.len() {
        return Err(format!("the oracle answered {} of {} requests", ours.len(), requests.len()));
    }
    let mut run = Run::default();
    for (index, request) in requests.iter().enumerate() {
        run.add(request, &ours[index], theirs.get(index));
    }
    let extra = theirs.len().saturating_sub(requests.len());
    run.print(extra);
    Ok(!run.says_less() && run.differ == 0 && extra == 0)
}

//! A stream of requests from a seed, by groups of kinds.

use std::io::{self, BufWriter, Write};

use crate::rng::Rng;
use crate::{boundaries, gen_codes, gen_cp1252, gen_hatch, gen_move, gen_move_caps, gen_prefix};

#[derive(Clone, Copy, PartialEq)]
pub enum Group {
    Codes,
    Tv,
    Prefix,
    Hatch,
    Move,
    Cp1252,
}

const GROUPS: [(&str, Group); 6] = [
    ("codes", Group::Codes),
    ("tv", Group::Tv),
    ("prefix", Group::Prefix),
    ("hatch", Group::Hatch),
    ("move", Group::Move),
    ("cp1252", Group::Cp1252),
];

/// The groups named, all if none is.
pub fn groups(names: &[&str]) -> Result<Vec<Group>, String> {
    if names.is_empty() {
        return Ok(GROUPS.iter().map(|(_, group)| *group).collect());
    }
    let find = |name: &&str| GROUPS.iter().find(|(known, _)| known == name).map(|(_, group)| *group);
    names.iter().map(|name| find(name).ok_or(format!("no kind of requests: {name}"))).collect()
}

/// The requests of one group: first a fixed part, then random ones.
pub struct Source {
    group: Group,
    rng: Rng,
    first: Vec<String>,
    given: usize,
    f64_entries: bool,
}

impl Source {
    /// With how many requests are asked for of this group alone; it is 0 where there are others.
    pub fn new(group: Group, seed: u64, f64_entries: bool, count: u64) -> Source {
        let mut rng = Rng::new(seed ^ (group as u64 + 1) << 56);
        let first = match group {
            Group::Codes => Vec::new(), // the sweep, below
            Group::Tv => boundaries::tv(&mut rng),
            Group::Prefix => boundaries::prefix(&mut rng),
            Group::Hatch => boundaries::hatch(&mut rng),
            Group::Move => gen_move_caps::all(),
            Group::Cp1252 => gen_cp1252::first(count),
        };
        Source { group, rng, first, given: 0, f64_entries }
    }

    pub fn next(&mut self) -> String {
        let index = self.given;
        self.given += 1;
        if let Some(line) = self.first.get(index) {
            return line.clone();
        }
        match self.group {
            Group::Codes if index < gen_codes::SWEEP => gen_codes::sweep(&mut self.rng, index, self.f64_entries),
            Group::Codes => gen_codes::any(&mut self.rng, self.f64_entries),
            Group::Tv => gen_codes::tv(&mut self.rng),
            Group::Prefix => gen_prefix::any(&mut self.rng),
            Group::Hatch => gen_hatch::any(&mut self.rng),
            Group::Move => gen_move::any(&mut self.rng),
            Group::Cp1252 => gen_cp1252::any(&mut self.rng),
        }
    }
}

/// Of twenty-five requests nine are codes, whose sweep is long, two texts, four prefixes, five hatches, three moves, two conversions.
fn weight(group: Group) -> u64 {
    match group {
        Group::Codes => 9,
        Group::Tv => 2,
        Group::Prefix => 4,
        Group::Hatch => 5,
        Group::Move => 3,
        Group::Cp1252 => 2,
    }
}

/// Which source gives the next request.
fn choose(rng: &mut Rng, groups: &[Group]) -> usize {
    let total: u64 = groups.iter().map(|group| weight(*group)).sum();
    let mut at = rng.below(total);
    for (index, group) in groups.iter().enumerate() {
        if at < weight(*group) {
            return index;
        }
        at -= weight(*group);
    }
    groups.len() - 1
}

pub fn run(args: &[&str], f64_entries: bool) -> Result<bool, String> {
    let [seed, count, names @ ..] = args else {
        return Err("usage: oracle generate [--f64] SEED N [codes|tv|prefix|hatch|move|cp1252]...".to_string());
    };
    let seed: u64 = seed.parse().map_err(|_| format!("no seed: {seed}"))?;
    let count: u64 = count.parse().map_err(|_| format!("no number of requests: {count}"))?;
    let groups = groups(names)?;
    let alone = if groups.len() == 1 { count } else { 0 };
    let mut sources: Vec<Source> = groups.iter().map(|group| Source::new(*group, seed, f64_entries, alone)).collect();
    let mut rng = Rng::new(seed);
    let mut out = BufWriter::new(io::stdout().lock());
    for _ in 0..count {
        let line = sources[choose(&mut rng, &groups)].next();
        writeln!(out, "{line}").map_err(|e| format!("oracle generate: {e}"))?;
    }
    out.flush().map_err(|e| format!("oracle generate: {e}"))?;
    Ok(true)
}

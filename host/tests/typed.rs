//! Hatches as trees: nothing of the two lists is lost, and what was laid out is what is in the tree.

mod layouts;
mod requests;

use dwg_hatch::{HatchBody, HatchEdge, HatchPathSegments, ReadHatch, Release, StringReader};
use layouts::{Numbers, Plan};
use requests::Request;

/// Every stored request for a hatch with its answer by the original Rust, where it has one that is no refusal.
fn stored() -> Vec<(&'static str, &'static str)> {
    let list = include_str!("../../crates/vectors/data/list");
    let pairs = list.lines().filter(|line| line.starts_with("hatch")).map(|line| line.split_once('\t').expect("REQUEST, tab, ANSWER"));
    pairs.filter(|pair| pair.1.starts_with("ok ")).collect()
}

/// The tree holds the lists, as bits and as f64.
fn nothing_is_lost(body: &HatchBody) -> ReadHatch<u64> {
    let read = body.decode_bits().expect("the body is read");
    let typed = body.typed(read.clone()).expect("the lists fit");
    assert_eq!(typed.lists(), (read.words.clone(), read.numbers.clone()));
    assert_eq!((typed.lists().0.len(), typed.lists().1.len()), (read.hatch.words_used, read.hatch.numbers_used));
    let (words, numbers) = body.read().expect("the body is read").lists();
    let quiet = |bits: &u64| if f64::from_bits(*bits).is_nan() { None } else { Some(*bits) };
    assert_eq!(words, read.words);
    let numbers: Vec<_> = numbers.iter().map(|number| quiet(&number.to_bits())).collect();
    assert_eq!(numbers, read.numbers.iter().map(quiet).collect::<Vec<_>>());
    read
}

#[test]
fn stored_hatches_keep_every_word_and_number() {
    let (mut words, mut numbers) = (0, 0);
    for (line, answer) in stored() {
        let read = nothing_is_lost(&Request::of(line).body());
        let listed = |items: Vec<String>| if items.is_empty() { "-".to_string() } else { items.join(",") };
        let form = format!(
            " words={} nums={}",
            listed(read.words.iter().map(u32::to_string).collect()),
            listed(read.numbers.iter().map(|bits| format!("{bits:016x}")).collect())
        );
        assert!(answer.ends_with(&form), "{line:.80}: {form}");
        (words, numbers) = (words + read.words.len(), numbers + read.numbers.len());
    }
    // A list with fewer readings would make this test weaker unseen.
    assert!(stored().len() >= 100 && words > 500 && numbers > 500, "{} hatches, {words} words, {numbers} numbers", stored().len());
}

/// Bodies of all releases, with and without a reader, laid out from a tree; the tree that is read must be the same.
#[test]
fn laid_out_hatches_are_read_as_they_were_laid_out() {
    let mut n = Numbers(0x9e37_79b9_7f4a_7c15);
    let mut seen = [0; 8];
    for turn in 0..2100 {
        let (release, reader) = (1 + turn % 7, turn / 7 % 2 == 1);
        let plan = Plan::new(&mut n, release, reader);
        let [main, strings] = plan.lay_out(&mut n, reader);
        // Handle counts must not be above the bits after them.
        let (payload, text) = (main.bytes(200), strings.bytes(0));
        let strings = reader.then_some(StringReader { payload: &text, start: 0, end: strings.0.len() });
        let body = HatchBody { payload: &payload, start: 0, release_number: release, strings };
        let read = nothing_is_lost(&body);
        let typed = body.typed(read).expect("the lists fit");
        assert_eq!((&typed.paths, &typed.pattern_lines, &typed.seed_points), (&plan.paths, &plan.lines, &plan.seeds));
        assert_eq!((typed.hatch.places.main, typed.hatch.places.string), (main.0.len(), strings.map_or(0, |strings| strings.end)));
        assert_eq!((&typed.pattern_name, typed.hatch.solid_fill), (&plan.names[1], plan.solid));
        assert_eq!(typed.gradient_name.as_ref(), plan.gradient.then_some(&plan.names[0]));
        plan.paths.iter().flat_map(kinds).chain([6; 1].into_iter().filter(|_| !plan.lines.is_empty())).for_each(|kind| seen[kind] += 1);
    }
    assert!(seen[..7].iter().all(|count| *count > 100), "{seen:?}");
}

/// Which kinds of outlines a path has: 0 a polyline, 1 to 4 an edge's kind, 5 a spline with fit points.
fn kinds(path: &dwg_hatch::HatchPath<u64>) -> Vec<usize> {
    let HatchPathSegments::Edges(edges) = &path.segments else { return vec![0] };
    let kind = |edge: &HatchEdge<u64>| match edge {
        HatchEdge::Line { .. } => 1,
        HatchEdge::Arc { .. } => 2,
        HatchEdge::Ellipse { .. } => 3,
        HatchEdge::Spline { fits: None, .. } => 4,
        HatchEdge::Spline { fits: Some(_), .. } => 5,
    };
    edges.iter().map(kind).collect()
}

/// Lists of one body that were altered are no tree, whatever the alteration: an entry more or less, a switch or kind that is none, a count
/// that says another length.
#[test]
fn lists_that_do_not_fit_are_no_tree() {
    let mut n = Numbers(7);
    let mut tried = 0;
    for _ in 0..200 {
        let plan = Plan::new(&mut n, 7, false);
        let payload = plan.lay_out(&mut n, false)[0].bytes(200);
        let body = HatchBody::new(&payload, 0, Release::R2018);
        let read = body.decode_bits().expect("the body is read");
        let altered = |alter: &dyn Fn(&mut ReadHatch<u64>)| {
            let mut other = read.clone();
            alter(&mut other);
            if other != read { body.typed(other) } else { None }
        };
        assert_eq!(altered(&|other| other.words.push(0)), None);
        assert_eq!(altered(&|other| other.numbers.push(0)), None);
        assert_eq!(altered(&|other| other.words.truncate(read.words.len().saturating_sub(1))), None);
        assert_eq!(altered(&|other| other.numbers.truncate(read.numbers.len().saturating_sub(1))), None);
        assert_eq!(altered(&|other| other.hatch.num_paths += 1), None);
        assert_eq!(altered(&|other| other.hatch.num_pattern_lines = usize::MAX), None);
        assert_eq!(altered(&|other| other.hatch.num_seed_points = usize::MAX), None);
        let elsewhere = altered(&|other| other.hatch.pattern_name.position = usize::MAX);
        assert_eq!(elsewhere.is_some(), plan.names[1].as_str() == Some(""), "a text without units lies in any payload, no other does");
        for at in 0..read.words.len() {
            let other = altered(&|other| other.words[at] = u32::MAX);
            // Flags, degrees and handle counts may be any number; all else may not.
            tried += 1;
            assert!(other.is_none_or(|typed| typed.lists().0[at] == u32::MAX && typed.lists().0.len() == read.words.len()));
        }
    }
    assert!(tried > 1000, "{tried}");
}

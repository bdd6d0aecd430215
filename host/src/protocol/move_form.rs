//! The answer line of a move: every entry of the lent list of numbers afterwards.

use dwg_hatch::{GivenGradient, GivenHatch, GradientColor, Refusal};

use crate::protocol::answer::{one_nan, put_digits};
use crate::protocol::given::Given;
use crate::protocol::request::MoveRequest;
use crate::protocol::OUTSIDE;

/// The line of a hatch that is moved with each double as its 64 bits.
pub fn bits_line(request: MoveRequest) -> Result<String, Refusal> {
    let MoveRequest { x, y, given: Given { hatch, words, numbers: before } } = request;
    let mut numbers = before.clone();
    let moved = hatch.move_origin(&words, &mut numbers, x, y);
    left(&moved, hatch.numbers_used, &before, &numbers);
    moved.map(|()| line(numbers.into_iter()))
}

/// The line of a hatch that is moved as f64, each NaN written as one.
pub fn f64_line(request: MoveRequest) -> Result<String, Refusal> {
    let MoveRequest { x, y, given: Given { hatch, words, numbers: before } } = request;
    let mut numbers: Vec<f64> = before.iter().copied().map(f64::from_bits).collect();
    let moved = doubles(&hatch).move_origin(&words, &mut numbers, f64::from_bits(x), f64::from_bits(y));
    left(&moved, hatch.numbers_used, &before, &numbers.iter().map(|number| number.to_bits()).collect::<Vec<u64>>());
    moved.map(|()| line(numbers.into_iter().map(one_nan)))
}

/// Entries past the length used are as they were, and on a refusal all are; if they are not, no answer is better than a wrong one.
fn left(moved: &Result<(), Refusal>, numbers_used: usize, before: &[u64], after: &[u64]) {
    let used = if moved.is_ok() { numbers_used } else { 0 };
    assert!(before.get(used..).is_some_and(|rest| rest == &after[used..]), "{OUTSIDE}");
}

fn line(numbers: impl ExactSizeIterator<Item = u64>) -> String {
    let mut line = String::with_capacity(12 + 17 * numbers.len());
    line.push_str("ok 0 0 nums=");
    if numbers.len() == 0 {
        line.push('-');
    }
    for (at, bits) in numbers.enumerate() {
        if at > 0 {
            line.push(',');
        }
        put_digits(&mut line, bits, 16);
    }
    line
}

/// The record with its doubles as f64.
fn doubles(hatch: &GivenHatch<u64>) -> GivenHatch {
    let (fill, double) = (&hatch.gradient, f64::from_bits);
    let color = |color: GradientColor<u64>| GradientColor {
        unknown_double: double(color.unknown_double),
        unknown_short: color.unknown_short,
        rgb: color.rgb,
        ignored_color_byte: color.ignored_color_byte,
    };
    let gradient = GivenGradient {
        present: fill.present,
        angle: double(fill.angle),
        shift: double(fill.shift),
        is_single_color: fill.is_single_color,
        tint: double(fill.tint),
        num_colors: fill.num_colors,
        colors: fill.colors.map(color),
        name: fill.name,
    };
    GivenHatch {
        gradient,
        elevation: double(hatch.elevation),
        extrusion: hatch.extrusion.map(double),
        pattern_name: hatch.pattern_name,
        solid_fill: hatch.solid_fill,
        associative: hatch.associative,
        pattern_style: hatch.pattern_style,
        pattern_type: hatch.pattern_type,
        pattern_angle: double(hatch.pattern_angle),
        pattern_scale: double(hatch.pattern_scale),
        pattern_double: hatch.pattern_double,
        pixel_size: double(hatch.pixel_size),
        num_paths: hatch.num_paths,
        num_pattern_lines: hatch.num_pattern_lines,
        num_seed_points: hatch.num_seed_points,
        words_used: hatch.words_used,
        numbers_used: hatch.numbers_used,
        places: hatch.places,
    }
}

#[cfg(test)]
mod tests {
    use crate::protocol::answer::Answerer;

    /// An edge of each kind and a seed point, each number a whole one; moved by (1, 2).
    #[test]
    fn coordinates_are_moved_and_nothing_else() {
        let number = |value: &f64| format!("{:016x}", value.to_bits());
        let list = |numbers: &[f64]| numbers.iter().map(number).collect::<Vec<_>>().join(",");
        let before: Vec<f64> = (0..41).map(|at| 10.0 + f64::from(at)).collect();
        // A line; an arc; an ellipse; a rational spline of 2 knots, 2 control points and 1 fit point; a pattern line of 1 dash; a seed point.
        let moved = [(0, 4), (4, 6), (9, 11), (18, 20), (21, 23), (24, 26), (31, 33), (36, 38)];
        let is_moved = |at: usize| moved.iter().any(|(from, to)| (*from..*to).contains(&at));
        let is_y = |at: usize| moved.iter().any(|(from, to)| (*from..*to).contains(&at) && (at - from) % 2 == 1);
        let after: Vec<f64> = (0..41).map(|at| before[at] - if is_y(at) { 2.0 } else if is_moved(at) { 1.0 } else { 0.0 }).collect();
        let words = "0,4,1,2,1,3,0,4,3,1,0,2,2,1,0,1";
        let record = "ext=8000000000000000,0000000000000000,3ff0000000000000 npaths=1 nlines=1 nseeds=1 nn=38";
        let request = format!("move {} {} {record} words={words} nums={}", number(&1.0), number(&2.0), list(&before));
        for f64_entries in [false, true] {
            assert_eq!(Answerer::new(f64_entries).line(request.as_bytes()), format!("ok 0 0 nums={}", list(&after)), "{f64_entries}");
        }
    }

    #[test]
    fn the_f64_entry_writes_one_nan() {
        let request = "move 0000000000000000 0000000000000000 ext=0000000000000000,0000000000000000,3ff0000000000000 nums=7ff0000000000001 nn=0";
        assert_eq!(Answerer::new(false).line(request.as_bytes()), "ok 0 0 nums=7ff0000000000001");
        assert_eq!(Answerer::new(true).line(request.as_bytes()), "ok 0 0 nums=7ff8000000000000");
    }
}

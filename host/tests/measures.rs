//! Area and length in the summary and in JSON, as the host computes them.

mod calls;
mod drawings;
mod json_text;

use calls::answers;
use drawings::polyline;
use json_text::{parse, Value};

/// What is computed of the first path: area and length.
fn computed(line: &str) -> Option<[f64; 2]> {
    let value = parse(answers(&["read", "--quiet", "--json"], line.as_bytes()).trim_end());
    match value.at("paths").items()[0].at("computed") {
        Value::Null => None,
        measures => Some(["area", "length"].map(|name| f64::from_bits(measures.at(name).bits()))),
    }
}

fn rectangle(x: f64, y: f64) -> String {
    polyline(&[(x, y), (x + 12.25, y), (x + 12.25, y + 8.5), (x, y + 8.5)], None)
}

#[test]
fn a_rectangle_measures_the_same_near_and_far() {
    let [near, far] = [rectangle(0.0, 0.0), rectangle(4_650_000.0, 9_230_000.0)];
    assert_eq!([computed(&near), computed(&far)], [Some([104.125, 41.5]); 2]);
    for line in [near, far] {
        let summary = answers(&["read", "--quiet"], line.as_bytes());
        assert!(summary.contains("\n            area 104.125, length 41.5 (computed by the host, not proved)\n"), "{summary}");
    }
}

#[test]
fn two_bulges_of_1_are_a_circle() {
    let Some([area, length]) = computed(&polyline(&[(-2.0, 5.0), (2.0, 5.0)], Some(1.0))) else { panic!("no measures") };
    assert!((area - 4.0 * std::f64::consts::PI).abs() < 1e-14 && (length - 4.0 * std::f64::consts::PI).abs() < 1e-14, "{area} {length}");
}

#[test]
fn what_is_not_finite_has_no_measures() {
    let nan = polyline(&[(0.0, 0.0), (f64::NAN, 0.0), (0.0, 1.0)], None);
    assert_eq!(computed(&nan), None);
    assert!(!answers(&["read", "--quiet"], nan.as_bytes()).contains("computed"));
}

//! The origin moved: two loops over the Rust's own tree, and the port's two entries on the lists of the same body. The first loop promises what the port
//! does of a tree: all tests first, and where one fails nothing is moved. The other subtracts, and tests nothing; its column is `plain`.

use std::hint::black_box;

use crate::bodies::Body;
use crate::entities::Point2D;
use crate::entities::hatch::{Hatch, HatchEdge, HatchPathSegments};
use crate::ffi::{self, BodyAnswer, BodyBitsAnswer, BodyBitsGiven, BodyGiven};
use crate::sides::{self, Repeat, Row};

/// The origin; the calls take it and its opposite in turn, so that coordinates stay where they are.
const ORIGIN: [f64; 2] = [4_650_000.0, 9_230_000.0];

fn point(point: &mut Point2D, [x, y]: [f64; 2]) {
    point.x -= x;
    point.y -= y;
}

/// What the port refuses, of what a tree can hold: another plane, and an origin or a coordinate out of range.
fn can_be_moved(hatch: &Hatch, [x, y]: [f64; 2]) -> bool {
    let near = |value: f64| value.abs() <= 1_099_511_627_776.0;
    let fits = |point: &Point2D| near(point.x) && near(point.y);
    let edge = |edge: &HatchEdge| match edge {
        HatchEdge::Line { start, end } => fits(start) && fits(end),
        HatchEdge::Arc { center, .. } | HatchEdge::Ellipse { center, .. } => fits(center),
        HatchEdge::Spline { control_points, fit_points, .. } => control_points.iter().chain(fit_points).all(fits),
    };
    let path = |segments: &HatchPathSegments| match segments {
        HatchPathSegments::Polyline { vertices, .. } => vertices.iter().all(|(vertex, _)| fits(vertex)),
        HatchPathSegments::Edges(edges) => edges.iter().all(edge),
    };
    let up = (hatch.extrusion.x, hatch.extrusion.y, hatch.extrusion.z) == (0.0, 0.0, 1.0);
    let outlines = up && near(x) && near(y) && hatch.paths.iter().all(|whole| path(&whole.segments));
    outlines && hatch.pattern_lines.iter().all(|line| fits(&line.origin)) && hatch.seed_points.iter().all(|(x, y)| near(*x) && near(*y))
}

/// All tests, and then the loop that subtracts.
fn move_tested(hatch: &mut Hatch, origin: [f64; 2]) -> bool {
    let can = can_be_moved(hatch, origin);
    if can {
        move_tree(hatch, origin);
    }
    can
}

/// The loop that only subtracts.
fn move_tree(hatch: &mut Hatch, origin: [f64; 2]) {
    for path in &mut hatch.paths {
        match &mut path.segments {
            HatchPathSegments::Polyline { vertices, .. } => vertices.iter_mut().for_each(|(vertex, _)| point(vertex, origin)),
            HatchPathSegments::Edges(edges) => edges.iter_mut().for_each(|edge| move_edge(edge, origin)),
        }
    }
    hatch.pattern_lines.iter_mut().for_each(|line| point(&mut line.origin, origin));
    for (x, y) in &mut hatch.seed_points {
        *x -= origin[0];
        *y -= origin[1];
    }
}

fn move_edge(edge: &mut HatchEdge, origin: [f64; 2]) {
    match edge {
        HatchEdge::Line { start, end } => {
            point(start, origin);
            point(end, origin);
        }
        HatchEdge::Arc { center, .. } | HatchEdge::Ellipse { center, .. } => point(center, origin),
        HatchEdge::Spline { control_points, fit_points, .. } => {
            control_points.iter_mut().chain(fit_points).for_each(|control| point(control, origin));
        }
    }
}

/// A reading as a move takes it.
struct Doubles {
    hatch: BodyAnswer,
    words: Vec<u32>,
    numbers: Vec<f64>,
}

struct Bits {
    hatch: BodyBitsAnswer,
    words: Vec<u32>,
    numbers: Vec<u64>,
}

impl Doubles {
    fn of(body: &Body) -> Doubles {
        let (mut numbers, mut words) = (vec![0.0; body.numbers.len()], vec![0; body.words]);
        Doubles { hatch: sides::port(&body.bytes, &mut numbers, &mut words), words, numbers }
    }

    fn move_to(&mut self, [x, y]: [f64; 2]) -> u64 {
        let (w, nw, n, nn) = (self.words.as_ptr(), self.words.len(), self.numbers.as_mut_ptr(), self.numbers.len());
        // SAFETY: an answer and what is given lie alike, but for the types of switches, and both are plain numbers; the pointers are the lists' own.
        unsafe { ffi::dwg_hatch_move_origin(std::ptr::read((&raw const self.hatch).cast::<BodyGiven>()), w, nw, n, nn, x, y).refusal }
    }
}

impl Bits {
    fn of(body: &Body) -> Bits {
        let (mut numbers, mut words) = (vec![0; body.numbers.len()], vec![0; body.words]);
        Bits { hatch: sides::port_bits(&body.bytes, &mut numbers, &mut words), words, numbers }
    }

    fn move_to(&mut self, origin: [f64; 2]) -> u64 {
        let ([x, y], w, nw, n, nn) = (origin.map(f64::to_bits), self.words.as_ptr(), self.words.len(), self.numbers.as_mut_ptr(), self.numbers.len());
        // SAFETY: as above.
        unsafe { ffi::dwg_hatch_move_origin_bits(std::ptr::read((&raw const self.hatch).cast::<BodyBitsGiven>()), w, nw, n, nn, x, y).refusal }
    }
}

/// Both entries leave what the loop leaves, of bodies of polylines.
fn check(body: &Body) -> Result<(), String> {
    let (mut doubles, mut bits) = (Doubles::of(body), Bits::of(body));
    let mut tree = sides::rust(&body.bytes).ok_or("the Rust refuses it")?;
    if !move_tested(&mut tree, ORIGIN) {
        return Err("the loop over the Rust's tree does not move it".to_string());
    }
    if (doubles.move_to(ORIGIN), bits.move_to(ORIGIN)) != (0, 0) {
        return Err("the port does not move it".to_string());
    }
    let vertices = tree.paths.iter().flat_map(|path| match &path.segments {
        HatchPathSegments::Polyline { vertices, .. } => vertices.as_slice(),
        HatchPathSegments::Edges(_) => &[],
    });
    let wanted: Vec<u64> = vertices.flat_map(|(vertex, bulge)| [vertex.x, vertex.y].into_iter().chain(*bulge)).map(f64::to_bits).collect();
    if bits.numbers != wanted || doubles.numbers.iter().map(|number| number.to_bits()).ne(wanted) {
        return Err("the port leaves other numbers than the loop over the Rust's tree".to_string());
    }
    Ok(())
}

/// Calls with the origin and its opposite in turn.
fn in_turn(mut call: impl FnMut([f64; 2]) + 'static) -> Repeat {
    let mut origin = ORIGIN;
    Box::new(move |times| {
        for _ in 0..times {
            call(black_box(origin));
            origin = origin.map(|number| -number);
        }
    })
}

pub fn of_body(body: Body, checked: bool) -> Result<Row, String> {
    if checked {
        check(&body).map_err(|why| format!("{}: {why}", body.name))?;
    }
    let mut tree = sides::rust(&body.bytes).ok_or("the Rust refuses it")?;
    let (mut same, mut doubles, mut bits) = (tree.clone(), Doubles::of(&body), Bits::of(&body));
    let sides = vec![
        in_turn(move |origin| assert!(move_tested(black_box(&mut tree), origin))),
        in_turn(move |origin| assert_eq!(black_box(&mut doubles).move_to(origin), 0)),
        in_turn(move |origin| assert_eq!(black_box(&mut bits).move_to(origin), 0)),
        in_turn(move |origin| move_tree(black_box(&mut same), origin)),
    ];
    Ok(Row { name: body.name, bytes: body.bytes.len(), sides })
}

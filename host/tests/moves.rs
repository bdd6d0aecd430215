//! The origin moved by the wrapper: coordinates and nothing else, by both entries, and every refusal with the lists as they were.

mod layouts;

use dwg_hatch::{
    GivenHatch, GradientColor, HatchBody, HatchEdge, HatchPath, HatchPathSegments, PatternLine, Point2D, ReadHatch, Reason, StringReader, TypedHatch, Vertex,
};
use layouts::{Numbers, Plan};

const UP: [f64; 3] = [0.0, -0.0, 1.0];

fn bits(point: Point2D) -> Point2D<u64> {
    Point2D { x: point.x.to_bits(), y: point.y.to_bits() }
}

/// Every point of a tree by one function; bulges, weights, radii, endpoints, tangents and offsets are passed by.
fn each_point(typed: &mut TypedHatch<u64>, alter: &mut impl FnMut(&mut Point2D<u64>)) {
    for HatchPath { segments, .. } in &mut typed.paths {
        match segments {
            HatchPathSegments::Polyline { vertices, .. } => vertices.iter_mut().for_each(|vertex| alter(&mut vertex.point)),
            HatchPathSegments::Edges(edges) => edges.iter_mut().for_each(|edge| each_of_edge(edge, alter)),
        }
    }
    typed.pattern_lines.iter_mut().for_each(|PatternLine { origin, .. }| alter(origin));
    typed.seed_points.iter_mut().for_each(alter);
}

fn each_of_edge(edge: &mut HatchEdge<u64>, alter: &mut impl FnMut(&mut Point2D<u64>)) {
    match edge {
        HatchEdge::Line { start, end } => [start, end].into_iter().for_each(alter),
        HatchEdge::Arc { center, .. } | HatchEdge::Ellipse { center, .. } => alter(center),
        HatchEdge::Spline { control_points, fits, .. } => {
            control_points.iter_mut().for_each(|control| alter(&mut control.point));
            fits.iter_mut().flat_map(|fits| &mut fits.fit_points).for_each(alter);
        }
    }
}

/// A hatch laid out at random, its points within bounds, all else as it is: any 64 bits.
fn laid_out(n: &mut Numbers, release: u64) -> TypedHatch<u64> {
    let reader = release % 2 == 0;
    let plan = Plan::new(n, release, reader);
    let [main, strings] = plan.lay_out(n, reader);
    let (payload, text) = (main.bytes(200), strings.bytes(0));
    let strings = reader.then_some(StringReader { payload: &text, start: 0, end: strings.0.len() });
    let mut typed = HatchBody { payload: &payload, start: 0, release_number: release, strings }.read_bits().expect("a hatch");
    typed.hatch.extrusion = UP.map(f64::to_bits);
    let mut at = 0;
    each_point(&mut typed, &mut |point| {
        at += 1;
        *point = bits(Point2D { x: 4_650_000.0 + f64::from(at) / 7.0, y: -0.5f64.powi(at) });
    });
    typed
}

/// The record and its lists.
fn listed(typed: &TypedHatch<u64>) -> ReadHatch<u64> {
    let (words, numbers) = typed.lists();
    ReadHatch { hatch: typed.hatch.clone(), words, numbers }
}

#[test]
fn points_are_moved_and_all_else_keeps_its_bits() {
    let (mut n, mut points) = (Numbers(77), 0);
    let (x, y) = (4_650_000.0, -9_230_000.25);
    for turn in 0..700 {
        let before = laid_out(&mut n, 1 + turn % 7);
        let mut wanted = before.clone();
        each_point(&mut wanted, &mut |point| {
            points += 1;
            *point = bits(Point2D { x: f64::from_bits(point.x) - x, y: f64::from_bits(point.y) - y });
        });
        let mut moved = before.clone();
        moved.move_origin(x.to_bits(), y.to_bits()).expect("it can be moved");
        assert_eq!(moved, wanted);
        // The same in lists that are longer than used, by both entries.
        let mut read = listed(&before);
        (read.words.push(9), read.numbers.push(0x7ff0_0000_0000_0001));
        let mut doubles: Vec<f64> = read.numbers.iter().copied().map(f64::from_bits).collect();
        read.move_origin(x.to_bits(), y.to_bits()).expect("it can be moved");
        assert_eq!(read.numbers, [wanted.lists().1, vec![0x7ff0_0000_0000_0001]].concat());
        doubled(&read).move_origin(&read.words, &mut doubles, x, y).expect("it can be moved");
        assert!(doubles.iter().map(|number| number.to_bits()).eq(read.numbers));
    }
    assert!(points > 2000, "{points}");
}

/// The record as f64, but for its gradient, which a move does not look at.
fn doubled(read: &ReadHatch<u64>) -> GivenHatch {
    let given = GivenHatch::from(&read.hatch);
    GivenHatch {
        gradient: Default::default(),
        elevation: f64::from_bits(given.elevation),
        extrusion: given.extrusion.map(f64::from_bits),
        pattern_name: given.pattern_name,
        solid_fill: given.solid_fill,
        associative: given.associative,
        pattern_style: given.pattern_style,
        pattern_type: given.pattern_type,
        pattern_angle: f64::from_bits(given.pattern_angle),
        pattern_scale: f64::from_bits(given.pattern_scale),
        pattern_double: given.pattern_double,
        pixel_size: f64::from_bits(given.pixel_size),
        num_paths: given.num_paths,
        num_pattern_lines: given.num_pattern_lines,
        num_seed_points: given.num_seed_points,
        words_used: given.words_used,
        numbers_used: given.numbers_used,
        places: given.places,
    }
}

/// A move that must be refused with this number, places 0 and the numbers as they were.
fn refused(read: &ReadHatch<u64>, given: &GivenHatch<u64>, x: f64, y: f64, reason: Reason) {
    let mut numbers = read.numbers.clone();
    let refusal = given.move_origin(&read.words, &mut numbers, x.to_bits(), y.to_bits()).expect_err("a refusal");
    assert_eq!((refusal.reason, refusal.place, refusal.second_place), (reason, 0, 0));
    assert_eq!(numbers, read.numbers);
}

/// A hatch of two polylines and a seed point.
fn small() -> ReadHatch<u64> {
    let mut empty = dwg_hatch::HatchBody::new(&[0xa9, 0xaa, 0xa0], 0, dwg_hatch::Release::R2000).decode_bits().expect("a hatch of no path");
    empty.words = vec![2, 0, 1, 2, 0, 3, 1, 0, 1, 4];
    empty.numbers = (0..9).map(|at| f64::from(at).to_bits()).collect();
    (empty.hatch.num_paths, empty.hatch.num_seed_points) = (2, 1);
    (empty.hatch.words_used, empty.hatch.numbers_used) = (10, 9);
    empty
}

#[test]
fn what_does_not_fit_is_refused() {
    let read = small();
    let given = GivenHatch::from(&read.hatch);
    assert!(small().move_origin(0, 0).is_ok());
    type Edit = fn(&mut GivenHatch<u64>);
    let edits: [Edit; 14] = [
        |given| given.solid_fill = 2,
        |given| given.associative = 255,
        |given| given.pattern_double = 2,
        |given| given.gradient.num_colors = 17,
        |given| given.num_paths = 3,
        |given| given.num_paths = 1,
        |given| given.num_paths = usize::MAX,
        |given| given.num_pattern_lines = 1,
        |given| given.num_seed_points = 0,
        |given| given.num_seed_points = 1 << 63 | 1,
        |given| given.words_used = 11,
        |given| given.words_used = 9,
        |given| given.numbers_used = 8,
        |given| given.numbers_used = usize::MAX,
    ];
    for (at, edit) in edits.iter().enumerate() {
        let mut given = given.clone();
        edit(&mut given);
        refused(&read, &given, f64::NAN, 0.0, Reason::ListTooShort);
        assert_ne!(given, GivenHatch::from(&read.hatch), "edit {at}");
    }
    for (at, word) in [(1, 2), (2, 2), (3, 100_001), (3, 1), (4, 1025), (5, 1), (6, 0), (7, u32::MAX)] {
        let mut read = read.clone();
        read.words[at] = word;
        refused(&read, &given, 0.0, 0.0, Reason::ListTooShort);
    }
    for (words, numbers) in [(9, 9), (10, 8), (0, 0)] {
        let mut read = read.clone();
        (read.words.truncate(words), read.numbers.truncate(numbers));
        refused(&read, &given, 0.0, 0.0, Reason::ListTooShort);
    }
}

#[test]
fn other_planes_and_far_coordinates_are_refused() {
    let (read, farthest) = (small(), 1_099_511_627_776.0f64);
    let far = [farthest.next_up(), -farthest.next_up(), f64::INFINITY, f64::NEG_INFINITY, f64::NAN];
    for extrusion in [[0.0, 0.0, -1.0], [f64::MIN_POSITIVE, 0.0, 1.0], [0.0, 0.0, 1.0f64.next_up()], [0.0, f64::NAN, 1.0], [0.0; 3]] {
        let given = GivenHatch { extrusion: extrusion.map(f64::to_bits), ..GivenHatch::from(&read.hatch) };
        refused(&read, &given, f64::NAN, 0.0, Reason::OtherPlane);
    }
    let given = GivenHatch::from(&read.hatch);
    for number in far {
        refused(&read, &given, number, 0.0, Reason::CoordinateOutOfRange);
        refused(&read, &given, 0.0, number, Reason::CoordinateOutOfRange);
        // All but the bulge, which is the last but two, are coordinates.
        for at in [0, 3, 4, 5, 7, 8] {
            let mut read = read.clone();
            read.numbers[at] = number.to_bits();
            refused(&read, &given, 0.0, 0.0, Reason::CoordinateOutOfRange);
        }
        let mut bulged = read.clone();
        bulged.numbers[6] = number.to_bits();
        assert_eq!(bulged.move_origin(farthest.to_bits(), (-farthest).to_bits()), Ok(()));
    }
}

/// A hatch of one path of so many points: vertices with bulges or without, or the control points, with weights or without, and the fit points of a spline.
/// The second list says which numbers are coordinates: 0 for an x, 1 for a y.
fn run(points: usize, form: u32) -> (ReadHatch<u64>, Vec<Option<usize>>) {
    let (mut read, extra, count) = (small(), form % 2, points as u32);
    let point = [Some(0), Some(1)];
    let with_extra: Vec<_> = if extra == 1 { [&point[..], &[None]].concat() } else { point.to_vec() };
    let (words, roles) = if form < 2 {
        (vec![2, extra, 1, count, 0], with_extra.repeat(points))
    } else {
        let tangents = if points == 0 { 0 } else { 4 }; // only with fit points
        let roles = [&[None; 2][..], &with_extra.repeat(points), &point.repeat(points), &vec![None; tangents]].concat();
        (vec![0, 1, 4, 3, extra, 0, 2, count, count, 0], roles)
    };
    read.words = words;
    read.numbers = (0..roles.len()).map(|at| (4_650_000.0 + at as f64 / 8.0).to_bits()).collect();
    (read.hatch.num_paths, read.hatch.num_seed_points) = (1, 0);
    (read.hatch.words_used, read.hatch.numbers_used) = (read.words.len(), read.numbers.len());
    (read, roles)
}

/// The compiler makes loops over several points at once of those that judge and move: so runs of every length up to five turns of them, with each number out of
/// range in turn.
#[test]
fn runs_of_every_length_are_judged_and_moved() {
    let (origin, far) = ([4_650_000.125, -9_230_000.5], [1_099_511_627_776.0f64.next_up(), f64::NEG_INFINITY, f64::NAN]);
    for (points, form) in (0..=40).flat_map(|points| (0..4).map(move |form| (points, form))) {
        let (read, roles) = run(points, form);
        let moved = |number: u64, role: Option<usize>| role.map_or(number, |axis| (f64::from_bits(number) - origin[axis]).to_bits());
        let wanted = |read: &ReadHatch<u64>| -> Vec<u64> { read.numbers.iter().zip(&roles).map(|(number, role)| moved(*number, *role)).collect() };
        let check = |read: &ReadHatch<u64>, wanted: Result<Vec<u64>, Reason>, what: &str| {
            let (mut bits, mut doubles) = (read.numbers.clone(), read.numbers.iter().map(|number| f64::from_bits(*number)).collect::<Vec<_>>());
            let answers = [
                GivenHatch::from(&read.hatch).move_origin(&read.words, &mut bits, origin[0].to_bits(), origin[1].to_bits()),
                doubled(read).move_origin(&read.words, &mut doubles, origin[0], origin[1]),
            ];
            let left = wanted.clone().unwrap_or_else(|_| read.numbers.clone());
            assert_eq!(answers.map(|answer| answer.map_err(|refusal| refusal.reason)), [(); 2].map(|()| wanted.clone().map(|_| ())), "{what}");
            assert_eq!((&bits, doubles.iter().map(|number| number.to_bits()).collect::<Vec<_>>()), (&left, left.clone()), "{what}");
        };
        check(&read, Ok(wanted(&read)), &format!("{points} points, form {form}"));
        for (at, number) in (0..roles.len()).flat_map(|at| far.map(|number| (at, number))) {
            let mut altered = read.clone();
            altered.numbers[at] = number.to_bits();
            let refused = roles[at].map(|_| Reason::CoordinateOutOfRange);
            check(&altered, refused.map_or_else(|| Ok(wanted(&altered)), Err), &format!("{points} points, form {form}, number {at} is {number}"));
        }
    }
}

/// A tree is moved with all that was added to it; one that has no lists, or more colours than a record holds, is refused.
#[test]
fn altered_trees_are_looked_at() {
    let payload = [&[0xa9, 0xaa, 0x90, 0x10][..], &[0; 16]].concat();
    let mut typed = dwg_hatch::read_hatch(&payload, 0, dwg_hatch::Release::R2000).expect("a hatch");
    typed.seed_points[0].x = 7.5;
    assert_eq!((typed.move_origin(7.0, -1.0), typed.seed_points[0]), (Ok(()), Point2D { x: 0.5, y: 1.0 }));
    let color = GradientColor { unknown_double: 0.0, unknown_short: 0, rgb: 0, ignored_color_byte: 0 };
    let name = typed.hatch.pattern_name;
    let fill = |count| dwg_hatch::GradientFill { angle: 0.0, shift: 0.0, is_single_color: 0, tint: 0.0, colors: vec![color; count], name };
    for (count, good) in [(16, true), (17, false)] {
        typed.hatch.gradient = Some(fill(count));
        assert_eq!(typed.move_origin(0.0, 0.0).is_ok(), good, "{count} colours");
    }
    typed.hatch.gradient = None;
    typed.seed_points.push(Point2D { x: 3.0, y: 0.0 });
    assert_eq!((typed.move_origin(1.0, 1.0), &typed.seed_points[..]), (Ok(()), &[Point2D { x: -0.5, y: 0.0 }, Point2D { x: 2.0, y: -1.0 }][..]));
    let vertices = [None, Some(0.5)].map(|bulge| Vertex { point: Point2D { x: 0.0, y: 0.0 }, bulge }).to_vec();
    let segments = HatchPathSegments::Polyline { has_bulge: true, is_closed: true, vertices };
    typed.paths.push(HatchPath { flags: 2, segments, num_boundary_handles: 0 });
    let before = typed.clone();
    assert_eq!(typed.move_origin(0.0, 0.0).map_err(|refusal| refusal.reason), Err(Reason::ListTooShort));
    assert_eq!(typed, before);
}

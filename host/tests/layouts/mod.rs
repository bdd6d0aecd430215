//! Hatch bodies laid out from numbers of a generator, by document 01's field order and codes, so that what is read can be compared with
//! what was laid out. Written from document 01, and not from the reader. The samples are laid out by it too (examples/samples).
#![allow(dead_code)]

use dwg_hatch::{ControlPoint, Fits, HatchEdge, HatchPath, HatchPathSegments, Name, PatternLine, Point2D, Vertex};

/// Numbers that are the same in every run (xorshift).
pub struct Numbers(pub u64);

impl Numbers {
    pub fn next(&mut self) -> u64 {
        self.0 ^= self.0 << 13;
        self.0 ^= self.0 >> 7;
        self.0 ^= self.0 << 17;
        self.0.wrapping_mul(0x2545_f491_4f6c_dd1d)
    }

    /// A number below the bound.
    pub fn below(&mut self, bound: u64) -> u64 {
        (self.next() >> 11) % bound
    }

    pub fn coin(&mut self) -> bool {
        self.below(2) == 1
    }

    /// A double's 64 bits: zeros, one, infinities, NaNs, subnormals, and any pattern.
    pub fn double(&mut self) -> u64 {
        let special = [0, 1 << 63, 1f64.to_bits(), 0x7ff0 << 48, 0xfff0 << 48, 0x7ff0_0000_0000_0001, u64::MAX, 1, 0.1f64.to_bits()];
        let pick = self.below(2 * special.len() as u64) as usize;
        special.get(pick).copied().unwrap_or_else(|| self.next())
    }

    fn some<T>(&mut self, bound: u64, mut item: impl FnMut(&mut Self) -> T) -> Vec<T> {
        (0..self.below(bound)).map(|_| item(self)).collect()
    }

    fn point(&mut self) -> Point2D<u64> {
        Point2D { x: self.double(), y: self.double() }
    }

    pub fn path(&mut self, release: u64) -> HatchPath<u64> {
        let flags = (self.next() as u32) >> self.below(32);
        let segments = if flags & 2 != 0 { self.polyline() } else { HatchPathSegments::Edges(self.some(5, |n| n.edge(release))) };
        HatchPath { flags, segments, num_boundary_handles: self.below(1025) as u32 }
    }

    fn polyline(&mut self) -> HatchPathSegments<u64> {
        let (has_bulge, is_closed) = (self.coin(), self.coin());
        let vertices = self.some(6, |n| Vertex { point: n.point(), bulge: has_bulge.then(|| n.double()) });
        HatchPathSegments::Polyline { has_bulge, is_closed, vertices }
    }

    fn edge(&mut self, release: u64) -> HatchEdge<u64> {
        let (center, endpoint, counter_clockwise) = (self.point(), self.point(), self.coin());
        let [axis_ratio, start_angle, end_angle] = [self.double(), self.double(), self.double()];
        match self.below(4) {
            0 => HatchEdge::Line { start: center, end: endpoint },
            1 => HatchEdge::Arc { center, radius: axis_ratio, start_angle, end_angle, counter_clockwise },
            2 => HatchEdge::Ellipse { center, endpoint, axis_ratio, start_angle, end_angle, counter_clockwise },
            _ => self.spline(release),
        }
    }

    fn spline(&mut self, release: u64) -> HatchEdge<u64> {
        let (is_rational, is_periodic) = (self.coin(), self.coin());
        let control_points = self.some(5, |n| ControlPoint { point: n.point(), weight: is_rational.then(|| n.double()) });
        let fit_points = if release >= 5 { self.some(4, Self::point) } else { Vec::new() };
        let fits = Fits { fit_points, start_tangent: self.point(), end_tangent: self.point() };
        let fits = Some(fits).filter(|fits| !fits.fit_points.is_empty());
        HatchEdge::Spline { degree: self.next() as u32, is_rational, is_periodic, knots: self.some(5, Self::double), control_points, fits }
    }

    pub fn pattern_line(&mut self) -> PatternLine<u64> {
        PatternLine { angle: self.double(), origin: self.point(), offset: self.point(), dashes: self.some(4, Self::double) }
    }

    /// A name, without a zero unit: a closing one would be dropped.
    fn name(&mut self, wide: bool) -> Name {
        let letters = ['A', '\u{7f}', '\u{e9}', '\u{ffff}', '\u{1f600}', '"', '\\', '\n'];
        match wide {
            true => Name::Characters(self.some(6, |n| letters[n.below(8) as usize]).into_iter().collect()),
            false => Name::Bytes(self.some(6, |n| 1 + n.below(255) as u8)),
        }
    }
}

/// What a body is laid out from.
pub struct Plan {
    pub release: u64,
    /// The gradient's name and the pattern's.
    pub names: [Name; 2],
    pub gradient: bool,
    pub fill: Fill,
    /// The elevation and the extrusion.
    pub plane: [u64; 4],
    pub style: usize,
    pub solid: bool,
    pub paths: Vec<HatchPath<u64>>,
    pub lines: Vec<PatternLine<u64>>,
    pub seeds: Vec<Point2D<u64>>,
}

/// A gradient's doubles (angle, shift, tint) and colours (a double, a short, rgb, a byte).
pub struct Fill {
    pub doubles: [u64; 3],
    pub colours: Vec<(u64, usize, usize, u64)>,
}

impl Plan {
    pub fn new(n: &mut Numbers, release: u64, reader: bool) -> Plan {
        let wide = reader || release >= 4;
        let (solid, names) = (n.coin(), [n.name(wide), n.name(wide)]);
        let lines = if solid { Vec::new() } else { n.some(4, Numbers::pattern_line) };
        let paths = n.some(4, |n| n.path(release));
        let fill = Fill { doubles: [0, 1, 2], colours: vec![(3, 4, 5, 6); 2] };
        let (gradient, plane, style) = (release >= 3 && n.coin(), [0; 4], 1);
        Plan { release, names, gradient, fill, plane, style, solid, paths, lines, seeds: n.some(4, Numbers::point) }
    }

    /// The main payload's bits, and the string payload's, which is empty without a reader.
    pub fn lay_out(&self, n: &mut Numbers, reader: bool) -> [Bits; 2] {
        let mut main = Bits(Vec::new());
        let mut strings = Bits(Vec::new());
        if self.release >= 3 {
            main.gradient(n, self.gradient, &self.fill);
            if reader { &mut strings } else { &mut main }.text(n, &self.names[0]);
        }
        main.doubles(n, &self.plane);
        if reader { &mut strings } else { &mut main }.text(n, &self.names[1]);
        main.number(u64::from(self.solid), 1);
        main.number(1, 1);
        main.bl(n, self.paths.len());
        self.paths.iter().for_each(|path| main.path(n, path, self.release));
        main.bs(n, self.style);
        main.bs(n, 1);
        if !self.solid {
            (0..2).for_each(|_| main.bd(n, 1f64.to_bits()));
            main.number(1, 1);
            main.bs(n, self.lines.len());
            self.lines.iter().for_each(|line| main.pattern_line(n, line));
        }
        if self.paths.iter().any(|path| path.flags & 4 != 0) {
            main.bd(n, 0);
        }
        main.bl(n, self.seeds.len());
        main.points(&self.seeds);
        [main, strings]
    }
}

/// Bits that are laid out, the first first. A code is picked among those that a value has.
pub struct Bits(pub Vec<bool>);

impl Bits {
    /// The bytes, with zero bits up to the last byte's end, and so many zero bytes behind them.
    pub fn bytes(&self, behind: usize) -> Vec<u8> {
        let byte = |bits: &[bool]| bits.iter().enumerate().fold(0, |byte, (at, bit)| byte | u8::from(*bit) << (7 - at));
        self.0.chunks(8).map(byte).chain(std::iter::repeat_n(0, behind)).collect()
    }

    /// So many bits of a number, the high ones first.
    pub fn number(&mut self, value: u64, bits: u32) {
        (0..bits).rev().for_each(|at| self.0.push(value >> at & 1 == 1));
    }

    /// So many bytes of a number, the low one first.
    pub fn raw(&mut self, value: u64, bytes: usize) {
        value.to_le_bytes()[..bytes].iter().for_each(|byte| self.number(u64::from(*byte), 8));
    }

    fn tagged(&mut self, tag: u64, value: u64, bytes: usize) {
        self.number(tag, 2);
        self.raw(value, bytes);
    }

    pub fn bd(&mut self, n: &mut Numbers, bits: u64) {
        match bits {
            _ if n.below(4) == 0 => self.tagged(0, bits, 8),
            0 => self.number(2, 2),
            0x3ff0_0000_0000_0000 => self.number(1, 2),
            _ => self.tagged(0, bits, 8),
        }
    }

    pub fn bl(&mut self, n: &mut Numbers, value: usize) {
        match value {
            0 if n.coin() => self.number(2, 2),
            ..256 if n.below(4) != 0 => self.tagged(1, value as u64, 1),
            _ => self.tagged(0, value as u64, 4),
        }
    }

    pub fn bs(&mut self, n: &mut Numbers, value: usize) {
        match value {
            0 if n.coin() => self.number(2, 2),
            256 if n.coin() => self.number(3, 2),
            ..256 if n.below(4) != 0 => self.tagged(1, value as u64, 1),
            _ => self.tagged(0, value as u64, 2),
        }
    }

    fn text(&mut self, n: &mut Numbers, name: &Name) {
        let (units, bytes): (Vec<u16>, usize) = match name {
            Name::Bytes(units) => (units.iter().map(|unit| u16::from(*unit)).collect(), 1),
            Name::Characters(text) => (text.encode_utf16().collect(), 2),
        };
        self.bs(n, units.len());
        units.iter().for_each(|unit| self.raw(u64::from(*unit), bytes));
    }

    fn points(&mut self, points: &[Point2D<u64>]) {
        points.iter().flat_map(|point| [point.x, point.y]).for_each(|number| self.raw(number, 8));
    }

    fn doubles(&mut self, n: &mut Numbers, doubles: &[u64]) {
        doubles.iter().for_each(|double| self.bd(n, *double));
    }

    fn gradient(&mut self, n: &mut Numbers, flag: bool, fill: &Fill) {
        self.bl(n, usize::from(flag));
        self.bl(n, 7);
        self.doubles(n, &fill.doubles[..2]);
        self.bl(n, 1);
        self.doubles(n, &fill.doubles[2..]);
        self.bl(n, fill.colours.len());
        for (double, short, rgb, byte) in &fill.colours {
            self.bd(n, *double);
            self.bs(n, *short);
            self.bl(n, *rgb);
            self.raw(*byte, 1);
        }
    }

    fn path(&mut self, n: &mut Numbers, path: &HatchPath<u64>, release: u64) {
        self.bl(n, path.flags as usize);
        match &path.segments {
            HatchPathSegments::Polyline { has_bulge, is_closed, vertices } => {
                self.number(u64::from(*has_bulge) << 1 | u64::from(*is_closed), 2);
                self.bl(n, vertices.len());
                vertices.iter().for_each(|vertex| self.point_and(n, vertex.point, vertex.bulge));
            }
            HatchPathSegments::Edges(edges) => {
                self.bl(n, edges.len());
                edges.iter().for_each(|edge| self.edge(n, edge, release));
            }
        }
        self.bl(n, path.num_boundary_handles as usize);
    }

    fn point_and(&mut self, n: &mut Numbers, point: Point2D<u64>, more: Option<u64>) {
        self.points(&[point]);
        more.iter().for_each(|more| self.bd(n, *more));
    }

    fn edge(&mut self, n: &mut Numbers, edge: &HatchEdge<u64>, release: u64) {
        match edge {
            HatchEdge::Line { start, end } => {
                self.raw(1, 1);
                self.points(&[*start, *end]);
            }
            HatchEdge::Arc { center, radius, start_angle, end_angle, counter_clockwise } => {
                self.raw(2, 1);
                self.points(&[*center]);
                self.doubles(n, &[*radius, *start_angle, *end_angle]);
                self.number(u64::from(*counter_clockwise), 1);
            }
            HatchEdge::Ellipse { center, endpoint, axis_ratio, start_angle, end_angle, counter_clockwise } => {
                self.raw(3, 1);
                self.points(&[*center, *endpoint]);
                self.doubles(n, &[*axis_ratio, *start_angle, *end_angle]);
                self.number(u64::from(*counter_clockwise), 1);
            }
            HatchEdge::Spline { degree, is_rational, is_periodic, knots, control_points, fits } => {
                self.raw(4, 1);
                self.bl(n, *degree as usize);
                self.number(u64::from(*is_rational) << 1 | u64::from(*is_periodic), 2);
                self.bl(n, knots.len());
                self.bl(n, control_points.len());
                self.doubles(n, knots);
                control_points.iter().for_each(|control| self.point_and(n, control.point, control.weight));
                self.fits(n, fits.as_ref(), release);
            }
        }
    }

    fn fits(&mut self, n: &mut Numbers, fits: Option<&Fits<u64>>, release: u64) {
        if release < 5 {
            return;
        }
        let Some(fits) = fits else { return self.bl(n, 0) };
        self.bl(n, fits.fit_points.len());
        self.points(&fits.fit_points);
        self.points(&[fits.start_tangent, fits.end_tangent]);
    }

    fn pattern_line(&mut self, n: &mut Numbers, line: &PatternLine<u64>) {
        self.doubles(n, &[line.angle, line.origin.x, line.origin.y, line.offset.x, line.offset.y]);
        self.bs(n, line.dashes.len());
        self.doubles(n, &line.dashes);
    }
}

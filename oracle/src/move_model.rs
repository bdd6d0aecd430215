//! The moved origin, from document 02's words alone; the Rust has no such call, so this model is the judge. It goes through the words once and notes
//! what each word and each number is. All tests come from these notes, and then every coordinate has its one subtraction.

use crate::move_request::MoveRequest;
use crate::show::Show;

/// What a word is.
#[derive(Clone, Copy, Debug, PartialEq)]
pub enum Word {
    Flags,
    /// A B field.
    Switch,
    /// A count with its cap.
    Count(u32),
    Kind,
    Degree,
}

/// What a number is: a coordinate, or one that is not moved.
#[derive(Clone, Copy, Debug, PartialEq)]
pub enum Number {
    X,
    Y,
    Other,
}

/// What the words and the numbers of a hatch are, in order.
#[derive(Default)]
pub struct Notes {
    pub words: Vec<Word>,
    pub numbers: Vec<Number>,
}

/// Each way in which a hatch is turned away, with its number.
pub const WAYS: [(u32, &str); 24] = [
    (11, "more than 16 colours"),
    (11, "more than 10,000 paths"),
    (11, "more than 4,096 pattern lines"),
    (11, "more than 1,024 seed points"),
    (11, "a switch of the record is not 0 or 1"),
    (11, "a list is shorter than the words used"),
    (11, "a list is shorter than the numbers used"),
    (11, "the words used end before the counts do"),
    (11, "words are left"),
    (11, "the counts come to more numbers than are used"),
    (11, "the counts come to fewer numbers than are used"),
    (11, "a switch of the words is not 0 or 1"),
    (11, "an edge kind is not 1 to 4"),
    (11, "more than 100,000 vertices"),
    (11, "more than 100,000 edges"),
    (11, "more than 100,000 knots"),
    (11, "more than 100,000 controls"),
    (11, "more than 100,000 fits"),
    (11, "more than 1,024 handles"),
    (11, "more than 64 dashes"),
    (12, "the extrusion is not (0, 0, 1)"),
    (13, "the origin is out of range"),
    (13, "a coordinate is not a number"),
    (13, "a coordinate is out of range"),
];

/// Why a hatch is turned away: a row of the table.
pub type Why = &'static str;

struct Walk<'a> {
    words: std::slice::Iter<'a, u32>,
    numbers_used: u64,
    notes: Notes,
}

/// What record and words hold, or why they and the lists are not whole.
pub fn notes(request: &MoveRequest) -> Result<Notes, Why> {
    let most = [
        (request.colours, 16, "more than 16 colours"),
        (request.paths, 10_000, "more than 10,000 paths"),
        (request.lines, 4_096, "more than 4,096 pattern lines"),
        (request.seeds, 1_024, "more than 1,024 seed points"),
    ];
    if let Some((_, _, why)) = most.iter().find(|(count, cap, _)| count > cap) {
        return Err(why);
    }
    check(request.switches.iter().all(|switch| *switch <= 1), "a switch of the record is not 0 or 1")?;
    check(request.words_used <= request.words.len() as u64, "a list is shorter than the words used")?;
    check(request.numbers_used <= request.numbers.len() as u64, "a list is shorter than the numbers used")?;
    let words = request.words[..request.words_used as usize].iter();
    let mut walk = Walk { words, numbers_used: request.numbers_used, notes: Notes::default() };
    for _ in 0..request.paths {
        walk.path()?;
    }
    for _ in 0..request.lines {
        walk.line()?;
    }
    walk.points(request.seeds)?;
    check(walk.words.next().is_none(), "words are left")?;
    check(walk.notes.numbers.len() as u64 == request.numbers_used, "the counts come to fewer numbers than are used")?;
    Ok(walk.notes)
}

fn check(holds: bool, why: Why) -> Result<(), Why> {
    if holds { Ok(()) } else { Err(why) }
}

impl Walk<'_> {
    fn word(&mut self, what: Word) -> Result<u32, Why> {
        self.notes.words.push(what);
        self.words.next().copied().ok_or("the words used end before the counts do")
    }

    fn switch(&mut self) -> Result<bool, Why> {
        match self.word(Word::Switch)? {
            0 => Ok(false),
            1 => Ok(true),
            _ => Err("a switch of the words is not 0 or 1"),
        }
    }

    fn count(&mut self, cap: u32, why: Why) -> Result<u64, Why> {
        let count = self.word(Word::Count(cap))?;
        check(count <= cap, why)?;
        Ok(u64::from(count))
    }

    fn number(&mut self, what: Number) -> Result<(), Why> {
        check((self.notes.numbers.len() as u64) < self.numbers_used, "the counts come to more numbers than are used")?;
        self.notes.numbers.push(what);
        Ok(())
    }

    fn others(&mut self, count: u64) -> Result<(), Why> {
        (0..count).try_for_each(|_| self.number(Number::Other))
    }

    fn point(&mut self) -> Result<(), Why> {
        self.number(Number::X)?;
        self.number(Number::Y)
    }

    fn points(&mut self, count: u64) -> Result<(), Why> {
        (0..count).try_for_each(|_| self.point())
    }

    /// Points with a bulge or a weight behind each, or without.
    fn points_with(&mut self, count: u64, more: bool) -> Result<(), Why> {
        for _ in 0..count {
            self.point()?;
            self.others(u64::from(more))?;
        }
        Ok(())
    }

    /// Path flags; bulge, closed, count, or edge count; handle count.
    fn path(&mut self) -> Result<(), Why> {
        let flags = self.word(Word::Flags)?;
        if flags & 2 == 2 {
            let bulge = self.switch()?;
            self.switch()?;
            let vertices = self.count(100_000, "more than 100,000 vertices")?;
            self.points_with(vertices, bulge)?;
        } else {
            for _ in 0..self.count(100_000, "more than 100,000 edges")? {
                self.edge()?;
            }
        }
        self.count(1_024, "more than 1,024 handles")?;
        Ok(())
    }

    /// 1: both ends are moved. 2: the centre, not radius and angles. 3: the centre, not the endpoint, which is a direction, ratio and angles.
    fn edge(&mut self) -> Result<(), Why> {
        match self.word(Word::Kind)? {
            1 => self.points(2),
            2 => {
                self.switch()?;
                self.point()?;
                self.others(3)
            }
            3 => {
                self.switch()?;
                self.point()?;
                self.others(5)
            }
            4 => self.spline(),
            _ => Err("an edge kind is not 1 to 4"),
        }
    }

    /// Knots and weights stay; controls and fits are moved; the tangents, there only with fits, are directions.
    fn spline(&mut self) -> Result<(), Why> {
        self.word(Word::Degree)?;
        let rational = self.switch()?;
        self.switch()?;
        let knots = self.count(100_000, "more than 100,000 knots")?;
        let controls = self.count(100_000, "more than 100,000 controls")?;
        let fits = self.count(100_000, "more than 100,000 fits")?;
        self.others(knots)?;
        self.points_with(controls, rational)?;
        self.points(fits)?;
        self.others(if fits > 0 { 4 } else { 0 })
    }

    /// A pattern line: angle, origin, offset, dashes. The origin alone is moved.
    fn line(&mut self) -> Result<(), Why> {
        let dashes = self.count(64, "more than 64 dashes")?;
        self.others(1)?;
        self.point()?;
        self.others(2 + dashes)
    }
}

/// The numbers of the lent list afterwards, or why the hatch is turned away.
pub fn moved(request: &MoveRequest) -> Result<Vec<u64>, Why> {
    let notes = notes(request)?;
    let extrusion = request.extrusion.map(f64::from_bits);
    check(extrusion == [0.0, 0.0, 1.0], "the extrusion is not (0, 0, 1)")?;
    let [x, y] = request.origin.map(f64::from_bits);
    check(is_near(x) && is_near(y), "the origin is out of range")?;
    let coordinates = || request.numbers.iter().zip(&notes.numbers).filter(|(_, what)| **what != Number::Other).map(|(bits, _)| f64::from_bits(*bits));
    check(!coordinates().any(f64::is_nan), "a coordinate is not a number")?;
    check(coordinates().all(is_near), "a coordinate is out of range")?;
    let mut numbers = request.numbers.clone();
    for (number, what) in numbers.iter_mut().zip(&notes.numbers) {
        match what {
            Number::X => *number = difference(*number, x),
            Number::Y => *number = difference(*number, y),
            Number::Other => {}
        }
    }
    Ok(numbers)
}

/// A number within 2^40 of 0.
fn is_near(value: f64) -> bool {
    value.abs() <= 1_099_511_627_776.0
}

/// Coordinate minus origin, and document 02's two sentences about it looked at.
fn difference(coordinate: u64, origin: f64) -> u64 {
    let coordinate = f64::from_bits(coordinate);
    let difference = coordinate - origin;
    if let (Some(of), Some(by)) = (in_steps(coordinate), in_steps(origin)) {
        assert_eq!(difference * STEPS, (of - by) as f64, "{coordinate} - {origin} is not exact");
    }
    let off = fixed(difference) - (fixed(coordinate) - fixed(origin));
    assert!(off.abs() <= 1 << (FRACTION - 13), "{coordinate} - {origin} is off by more than 1/8,192");
    difference.to_bits()
}

/// So many steps are a unit.
const STEPS: f64 = 1_048_576.0;

/// How many steps a number is, where it is a whole number of them and within 2^30 of 0. Two such and their difference have less than 53 bits.
fn in_steps(value: f64) -> Option<i64> {
    let steps = value * STEPS;
    (value.abs() <= 1_073_741_824.0 && steps == steps.trunc()).then_some(steps as i64)
}

const FRACTION: u32 = 80;

/// A number within 2^41 of 0 in whole steps of 2^-80, cut there: far below what is looked at.
fn fixed(value: f64) -> i128 {
    let bits = value.to_bits();
    let (exponent, fraction) = ((bits >> 52 & 0x7ff) as i32, i128::from(bits & 0x000f_ffff_ffff_ffff));
    let (exponent, significand) = if exponent == 0 { (1, fraction) } else { (exponent, fraction | 1 << 52) };
    let shift = exponent - 1075 + FRACTION as i32;
    let magnitude = if shift >= 0 { significand << shift } else { significand.checked_shr(shift.unsigned_abs()).unwrap_or(0) };
    if value.is_sign_negative() { -magnitude } else { magnitude }
}

pub fn answer(request: &MoveRequest, show: Show) -> String {
    match moved(request) {
        Ok(numbers) => format!("ok 0 0 nums={}", show.doubles(&numbers.into_iter().map(f64::from_bits).collect::<Vec<f64>>())),
        Err(why) => format!("err {} 0 0", number_of(why)),
    }
}

pub fn number_of(why: Why) -> u32 {
    WAYS.iter().find(|(_, known)| *known == why).map(|(number, _)| *number).expect("a way of the table")
}

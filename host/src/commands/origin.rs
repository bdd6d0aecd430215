//! The origin that `--origin` asks for: hatches are moved there before anything is written or drawn of them.

use std::io::Write;

use dwg_hatch::{HatchBody, Point2D, ReadHatch, Refusal, TypedHatch};

use crate::commands::failure::{shown, Failure};
use crate::commands::input::{Entry, Input};
use crate::commands::options::{Command, Options};
use crate::protocol::lists::lists;
use crate::protocol::payload::Zeros;
use crate::protocol::request::HatchRequest;
use crate::protocol::OUTSIDE;

/// The option.
pub const ORIGIN: &str = "--origin";

/// The farthest origin that the library takes, and the multiple of [`ROUND`] before it.
const FARTHEST: f64 = 1_099_511_627_776.0;
const FARTHEST_ROUND: f64 = 1_099_511_627_000.0;

/// An origin that is found is a whole multiple of this.
const ROUND: f64 = 1000.0;

/// Whether the origin is to be found, for which the input is gone through once more.
pub fn is_auto(options: &Options) -> bool {
    options.value(ORIGIN).is_some_and(|value| value == "auto")
}

/// The origin that is asked for, if one is. One that is found, near the middle of the input's hatches (of one line's alone, if only that is asked for), is
/// told on `errors`.
pub fn origin(command: &Command, options: &Options, input: &Input, only: Option<u64>, mut errors: impl Write) -> Result<Option<Point2D>, Failure> {
    let Some(value) = options.value(ORIGIN) else { return Ok(None) };
    if !is_auto(options) {
        let wrong = || {
            let given = shown(value.as_encoded_bytes());
            command.usage(format!("{ORIGIN} is \"{given}\", which is neither X,Y, two numbers from -{FARTHEST} to {FARTHEST}, nor auto"))
        };
        return value.to_str().and_then(parse).map(Some).ok_or_else(wrong);
    }
    if !input.can_be_read_again() {
        let why = format!("{ORIGIN} auto goes through the input once more, and {} cannot be read twice", input.name());
        return Err(command.usage(format!("{why}; name a file, or the origin as X,Y")));
    }
    let origin = near_the_middle(input, only)?;
    let _ = writeln!(errors, "dwg-hatch: {}: {ORIGIN} auto is {}", input.name(), written(origin));
    Ok(Some(origin))
}

/// An origin as the option takes it.
pub fn written(origin: Point2D) -> String {
    format!("{},{}", origin.x, origin.y)
}

fn parse(text: &str) -> Option<Point2D> {
    let (x, y) = text.split_once(',')?;
    let near = |number: &str| number.trim().parse().ok().filter(|number: &f64| number.abs() <= FARTHEST);
    Some(Point2D { x: near(x)?, y: near(y)? })
}

/// The whole multiple of 1,000 that is nearest to the middle of all points that can be moved; 0 where there are none. What cannot be read or moved is
/// passed over, since it is told when it is read again.
fn near_the_middle(input: &Input, only: Option<u64>) -> Result<Point2D, Failure> {
    let (mut zeros, mut ends) = (Zeros::default(), [[f64::INFINITY, f64::NEG_INFINITY]; 2]);
    let items = input.items()?.only(only).flatten();
    let hatches = items.filter(|item| only.is_none() || item.line == only).filter_map(|item| match item.entry {
        // Moved by nothing, a hatch stays as it is, and is refused if it cannot be moved at all.
        Entry::Hatch(request) => typed(&request, &mut zeros, Some(Point2D { x: 0.0, y: 0.0 }), |_| ()).ok(),
        Entry::Prefix(_) => None,
    });
    for hatch in hatches {
        let points = hatch.paths.iter().flat_map(|path| path.points()).chain(hatch.seed_points.iter().copied());
        points.for_each(|point| ends.iter_mut().zip([point.x, point.y]).for_each(|(ends, at)| *ends = [ends[0].min(at), ends[1].max(at)]));
    }
    let [x, y] = ends.map(|[least, greatest]| if least <= greatest { round(least / 2.0 + greatest / 2.0) } else { 0.0 });
    Ok(Point2D { x, y })
}

/// The nearest multiple that is no farther than an origin may be. Minus zero becomes zero.
fn round(middle: f64) -> f64 {
    ((middle / ROUND).round() * ROUND).clamp(-FARTHEST_ROUND, FARTHEST_ROUND) + 0.0
}

/// The hatch of a request as doubles, moved to the origin if there is one; then its numbers may be altered.
pub fn typed(request: &HatchRequest, zeros: &mut Zeros, origin: Option<Point2D>, alter: impl Fn(&mut [f64])) -> Result<TypedHatch, Refusal> {
    let body = request.body(zeros);
    let mut read: ReadHatch = lists(&body, request.lent, |numbers, words| body.decode_into(numbers, words))?;
    if let Some(Point2D { x, y }) = origin {
        read.move_origin(x, y)?;
    }
    alter(&mut read.numbers);
    Ok(body.typed(read).expect(OUTSIDE))
}

/// The body with each double as its 64 bits, moved to the origin.
pub fn typed_bits(body: &HatchBody, mut read: ReadHatch<u64>, origin: Point2D) -> Result<TypedHatch<u64>, Refusal> {
    read.move_origin(origin.x.to_bits(), origin.y.to_bits())?;
    Ok(body.typed(read).expect(OUTSIDE))
}

#[cfg(test)]
mod tests {
    use super::*;

    #[test]
    fn origins_are_two_numbers_within_bounds() {
        assert_eq!(parse("4650000,-9230000.5"), Some(Point2D { x: 4_650_000.0, y: -9_230_000.5 }));
        assert_eq!(parse(" 1e3 , 0"), Some(Point2D { x: 1000.0, y: 0.0 }));
        assert!(parse("1099511627776,-1099511627776").is_some());
        for text in ["", ",", "1", "1,", ",1", "1,2,3", "x,y", "1;2", "1099511627776.5,0", "0,1e13", "nan,0", "0,inf", "auto,0"] {
            assert_eq!(parse(text), None, "{text}");
        }
        assert_eq!(written(Point2D { x: 4_650_000.0, y: -0.5 }), "4650000,-0.5");
    }

    #[test]
    fn found_origins_are_whole_multiples() {
        assert_eq!([499.9, 500.0, -499.9, -1500.1, 4_650_233.7].map(round), [0.0, 1000.0, 0.0, -2000.0, 4_650_000.0]);
        assert!(round(-1.0).is_sign_positive());
        assert_eq!([FARTHEST, -FARTHEST].map(round), [FARTHEST_ROUND, -FARTHEST_ROUND]);
    }
}

//! The angles of arc edges and ellipse edges, for drawing and for measuring.

use std::f64::consts::{PI, TAU};

/// Angles that differ by less than this from a whole turn are one: what was computed in single precision, 6.2831855, is a whole circle too.
const SAME_ANGLE: f64 = 1e-6;

/// Where an arc starts, in radians, and how far it goes, a turn at most; negative where it is clockwise.
#[derive(Clone, Copy, Debug, PartialEq)]
pub struct Swept {
    /// The angle at the start.
    pub start: f64,
    /// The angle that it turns by.
    pub sweep: f64,
}

impl Swept {
    /// The angles of an edge. Of a clockwise one they are mirrored: they are measured clockwise too. So it runs from `-start_angle` clockwise to
    /// `-end_angle`.
    pub fn of_edge([start, end]: [f64; 2], counter_clockwise: bool) -> Swept {
        let sign = if counter_clockwise { 1.0 } else { -1.0 };
        Swept { start: sign * start, sweep: sign * turn(start, end) }
    }
}

/// How far it is counterclockwise from one angle to another: nothing if they are equal, else a turn at most.
fn turn(start: f64, end: f64) -> f64 {
    let given = end - start;
    let turn = given.rem_euclid(TAU);
    let part = (SAME_ANGLE..=TAU - SAME_ANGLE).contains(&turn);
    if !part && given.abs() > PI { TAU } else { turn }
}

#[cfg(test)]
mod tests {
    use std::f64::consts::FRAC_PI_2;

    use super::*;

    #[test]
    fn turns_are_one_at_most() {
        assert_eq!(turn(1.0, 1.0), 0.0);
        let single = f64::from(TAU as f32);
        assert!(single > TAU);
        assert_eq!([turn(0.0, TAU), turn(0.0, single), turn(single, 0.0), turn(0.0, TAU - 2e-7), turn(TAU, 0.0), turn(0.0, 2.0 * TAU)], [TAU; 6]);
        assert_eq!([turn(0.0, 1e-9), turn(0.0, 6.25)], [1e-9, 6.25]);
        assert!((turn(0.0, 2.5 * PI) - FRAC_PI_2).abs() < 1e-12 && (turn(FRAC_PI_2, 0.0) - 1.5 * PI).abs() < 1e-12);
    }
}

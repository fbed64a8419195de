//! The fuel rate of a set at a power.

use crate::station::{Genset, Point};

/// The exact curve at a power: numerator and denominator, in mL/h. The
/// numerator may be below zero, the denominator is above it.
pub struct Rate {
    pub numerator: i128,
    pub denominator: i128,
}

/// "the line through the two curve points around its load (lower point
/// included; outside the points the nearest two)"; "The exact load, power x
/// 1000 / rating as a fraction, is used."
pub fn exact_rate(genset: &Genset, power: u64) -> Rate {
    let rating = i128::from(genset.rating);
    let load = 1_000 * i128::from(power);
    let (lower, upper) = line_around(genset.used_points(), load, rating);
    let step = i128::from(upper.load) - i128::from(lower.load);
    let rise = i128::from(upper.rate) - i128::from(lower.rate);
    Rate {
        numerator: i128::from(lower.rate) * step * rating
            + rise * (load - i128::from(lower.load) * rating),
        denominator: step * rating,
    }
}

/// The two points whose line is read: the last line that starts at or below
/// the load, or the first line where none does.
fn line_around(points: &[Point], load: i128, rating: i128) -> (Point, Point) {
    let lines = points.iter().copied().zip(points.iter().copied().skip(1));
    let starts_below = |(lower, _): &(Point, Point)| i128::from(lower.load) * rating <= load;
    let first = lines.clone().next();
    let around = lines.take_while(starts_below).last().or(first);
    // A curve in rule has two points; without them there is no line to read.
    around.unwrap_or((Point { load: 0, rate: 0 }, Point { load: 1, rate: 0 }))
}

/// "never below zero, rounded down to mL/h".
pub fn rate(genset: &Genset, power: u64) -> u64 {
    let exact = exact_rate(genset, power);
    let rounded_down = exact.numerator.max(0).checked_div(exact.denominator);
    rounded_down.unwrap_or(0) as u64
}

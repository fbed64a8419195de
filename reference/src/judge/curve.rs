//! The exact curve of a set in whole numbers: "times the rating and the product of the
//! steps between its points' loads".
//!
//! 128 bits suffice. Four steps come to 1,500 together, so their product is below
//! 2 x 10^10, and the scale below 2 x 10^17. A point's rate is at most 10^7, a slope at
//! most 10^7 for a thousandth, and a set's watts at most 5 x 10^7 (the `load` clause is
//! judged before), so one second is below 2 x 10^28, and 3.2 x 10^8 of them below
//! 7 x 10^36; 2^127 is 1.7 x 10^38. A printed fuel count below 2^64 times the scale
//! is below 4 x 10^36.

use crate::station::{Genset, Point};

/// What the exact numbers of a set are multiplied by.
pub fn scale(genset: &Genset) -> i128 {
    i128::from(genset.rating) * steps(genset)
}

/// The product of the steps between the points' loads.
fn steps(genset: &Genset) -> i128 {
    let pairs = genset.used_points().windows(2);
    pairs.map(step).product()
}

fn step(pair: &[Point]) -> i128 {
    match pair {
        [lower, upper] => i128::from(upper.load) - i128::from(lower.load),
        _ => 1,
    }
}

/// The exact rate at some watts, times the scale; below zero where the line dips so.
pub fn scaled_rate(genset: &Genset, watts: u64) -> i128 {
    let rating = i128::from(genset.rating);
    // The load in thousandths of the rating, times the rating.
    let load = 1_000 * i128::from(watts);
    let mut pairs = genset.used_points().windows(2);
    let Some(first) = pairs.next() else {
        return 0;
    };
    // "the two curve points around its load (lower point included; outside the points
    // the nearest two)": the last pair that begins at the load or below, or the first.
    let begins_below = |pair: &&[Point]| {
        pair.first()
            .is_some_and(|lower| i128::from(lower.load) * rating <= load)
    };
    let around = pairs.rfind(begins_below).unwrap_or(first);
    let [lower, upper] = around else {
        return 0;
    };
    let (from, to) = (i128::from(lower.rate), i128::from(upper.rate));
    let past = load - i128::from(lower.load) * rating;
    from * scale(genset) + (to - from) * past * (steps(genset) / step(around))
}

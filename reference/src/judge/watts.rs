//! Step 6's watts of each set on line.

use crate::station::Station;

/// "With running total C of ratings over sets On in number order, each takes
/// diesel x C / cap less the same at the set before". A set that is not on line has none.
pub fn watts(station: &Station, on_line: u64, diesel: u64) -> Vec<u64> {
    let rated = ratings(station, on_line);
    let capacity: u128 = rated.iter().sum();
    let mut total = 0;
    let mut taken = 0;
    let share = |rating: u128| {
        total += rating;
        let to_here = (u128::from(diesel) * total).checked_div(capacity);
        let to_here = to_here.unwrap_or(0);
        let share = to_here - taken;
        taken = to_here;
        share as u64
    };
    rated.into_iter().map(share).collect()
}

/// The rating of each existing set that is in a mask, 0 for the others.
fn ratings(station: &Station, mask: u64) -> Vec<u128> {
    let sets = station.existing_sets().enumerate();
    sets.map(|(before, set)| u128::from(set.rating) * u128::from(mask >> before & 1))
        .collect()
}

/// A configuration's capacity, "its sets' ratings summed".
pub fn capacity(station: &Station, mask: u64) -> u128 {
    ratings(station, mask).into_iter().sum()
}

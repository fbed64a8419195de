//! Sharing diesel power over sets in proportion to their ratings.

use crate::limits::SETS;
use crate::station::Station;

/// True where a mask has the set that stands at `index` (set 1 at index 0).
pub fn in_mask(mask: u8, index: usize) -> bool {
    index < SETS && mask >> index & 1 == 1
}

/// The ratings of a mask's existing sets, summed.
pub fn capacity(station: &Station, mask: u8) -> u64 {
    let sets = station.existing_sets().enumerate();
    sets.filter(|(index, _)| in_mask(mask, *index))
        .map(|(_, genset)| u64::from(genset.rating))
        .sum()
}

/// Step 6: "With running total C of ratings over sets On in number order, each
/// takes diesel x C / cap less the same at the set before". A set outside the
/// mask takes 0, and where the mask is empty there is nothing to divide by.
pub fn shares(station: &Station, mask: u8, diesel: u64) -> [u64; SETS] {
    let cap = u128::from(capacity(station, mask));
    let mut watts = [0; SETS];
    let mut running = 0;
    let mut before = 0;
    for (index, (genset, share)) in station.existing_sets().zip(&mut watts).enumerate() {
        if !in_mask(mask, index) {
            continue;
        }
        running += u128::from(genset.rating);
        let up_to_here = (u128::from(diesel) * running).checked_div(cap).unwrap_or(0);
        *share = (up_to_here - before) as u64;
        before = up_to_here;
    }
    watts
}

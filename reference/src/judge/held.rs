//! The held setpoint, replayed by step 9 from the inputs and the row.

use super::printed::Row;
use crate::samples::Sample;
use crate::station::Station;

/// What is wanted: R + reserve. R, D and live are taken as the words have them, from
/// the row's shed load and solar on the load.
pub fn wanted(station: &Station, handed_in: &Sample, row: &Row) -> i128 {
    let control = &station.control;
    let (shed, solar) = (i128::from(row.shed), i128::from(row.solar));
    let spinning = i128::from(control.spinning_reserve);
    // "rounded up"
    let coverage = (solar * i128::from(control.solar_coverage) + 99) / 100;
    let live = i128::from(handed_in.sheddable) - shed;
    let reserve = match control.maintain {
        1 => spinning.max((coverage - live).max(0)),
        _ => (spinning.max(coverage) - live).max(0),
    };
    i128::from(handed_in.load) - shed - solar + reserve
}

/// "With none held, held becomes wanted; else held x (k/1000) + wanted x
/// ((1000-k)/1000) in double precision: two quotients, two products, one sum, each
/// rounded once." What is wanted is below 2^53, so it is a double as it stands.
pub fn next_held(station: &Station, held: Option<f64>, wanted: i128) -> f64 {
    let wanted = wanted as f64;
    let Some(held) = held else {
        return wanted;
    };
    let k = f64::from(station.control.filter_k);
    let (old_weight, new_weight) = (k / 1000.0, (1000.0 - k) / 1000.0);
    held * old_weight + wanted * new_weight
}

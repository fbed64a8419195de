//! Masks, powers and set numbers that the sizing screen may hand in.

use super::good_stations::all_sets;
use super::random::Random;
use crate::share::capacity;
use crate::station::Station;

/// A mask, a power and a set's number.
pub struct Query {
    pub mask: u64,
    pub power: u64,
    pub set: u64,
}

/// A query about a station, right or wrong.
pub fn query(random: &mut Random, station: &Station) -> Query {
    let mask = mask(random, station);
    Query {
        mask,
        power: power(random, station, mask),
        set: set(random),
    }
}

fn mask(random: &mut Random, station: &Station) -> u64 {
    let all = u64::from(all_sets(station.sets));
    let one = 1 << random.between(0, u64::from(station.sets) - 1);
    match random.between(0, 11) {
        0 => 0,
        1 => one | (all + 1),
        2 => random.pick([256, 257, 1 << 31, 1 << 32 | 1, 1 << 63, u64::MAX]),
        3..=7 => one,
        8 => all,
        _ => random.between(1, all),
    }
}

/// A power around the capacity of the mask, within it, or huge.
fn power(random: &mut Random, station: &Station, mask: u64) -> u64 {
    let cap = capacity(station, mask as u8);
    match random.between(0, 11) {
        0 => 0,
        1 => cap,
        2 => cap.saturating_sub(1),
        3 => cap + 1,
        4 => random.pick([1 << 32, u64::MAX, u64::MAX - 1, 1 << 63]),
        5 => 1,
        _ => random.between(0, cap),
    }
}

fn set(random: &mut Random) -> u64 {
    match random.between(0, 9) {
        0 => random.between(0, 10),
        1 => random.pick([9, 32, 33, 64, 65, 256, 257, 1 << 32 | 1, u64::MAX]),
        _ => random.between(1, 8),
    }
}

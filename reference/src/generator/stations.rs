//! Cases of station files with a sizing query.

use super::encode::station_bytes;
use super::random::Random;
use super::sizing_queries::query;
use super::{good_stations, station_damage};
use crate::hex;
use crate::station::Station;

/// One case, good or damaged, half and half.
pub fn case(random: &mut Random) -> String {
    let station = good_stations::any(random);
    let query = query(random, &station);
    let bytes = if random.chance(50) {
        station_bytes(&station)
    } else {
        damaged(random, station)
    };
    let file = hex::write(&bytes);
    format!("{file} {} {} {}", query.mask, query.power, query.set)
}

/// A station file with one fault, or several so that their order matters.
pub fn damaged(random: &mut Random, mut station: Station) -> Vec<u8> {
    let faults = random.pick([1, 1, 1, 2, 2, 3, 4]);
    let numbers: Vec<u8> = (0..faults).map(|_| random.between(1, 8) as u8).collect();
    for number in numbers.iter().filter(|number| **number >= 4) {
        station_damage::break_value(random, &mut station, *number);
    }
    let mut bytes = station_bytes(&station);
    for number in numbers {
        match number {
            1 => station_damage::break_size(random, &mut bytes),
            2 => station_damage::break_contents(random, &mut bytes),
            3 => station_damage::break_length(random, &mut bytes),
            _ => (),
        }
    }
    if random.chance(5) {
        flip_byte(random, &mut bytes);
    }
    bytes
}

/// Puts another byte anywhere; the file may stay good.
fn flip_byte(random: &mut Random, bytes: &mut [u8]) {
    let at = random.index(bytes.len());
    if let Some(byte) = bytes.get_mut(at) {
        *byte = random.bits() as u8;
    }
}

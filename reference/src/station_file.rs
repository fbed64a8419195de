//! Reading a station file from its bytes, in the order 1, 2, 3, 4, 5, then set
//! by set 6 before 7, then 8.

use crate::limits::{CONFIGURATIONS, PAIRS, SETS};
use crate::refusal::Refusal;
use crate::station::{Battery, Control, Genset, Point, Station};

const CONTROL_AT: usize = 32;
const BATTERY_AT: usize = 68;
const SETS_AT: usize = 100;
const SET_BYTES: usize = 64;

/// The station that a file gives, or the file's first refusal.
pub fn read(bytes: &[u8]) -> Result<Station, Refusal> {
    if !(165..=676).contains(&bytes.len()) {
        return Err(Refusal::placeless(1));
    }
    let (sets, configurations) = read_contents(bytes)?;
    let table_at = SETS_AT + SET_BYTES * sets;
    if bytes.len() != table_at + configurations {
        return Err(Refusal::placeless(3));
    }
    let mut station = Station {
        sets: sets as u32,
        configurations: configurations as u32,
        control: read_control(bytes),
        battery: read_battery(bytes),
        ..Station::default()
    };
    if !station.control.in_rule(station.sets) {
        return Err(Refusal::placeless(4));
    }
    if !station.battery.in_rule() {
        return Err(Refusal::placeless(5));
    }
    read_sets(bytes, sets, &mut station)?;
    read_table(bytes, table_at, configurations, &mut station)?;
    Ok(station)
}

/// A little-endian number of `width` bytes; bytes past the end read as none.
fn number(bytes: &[u8], at: usize, width: usize) -> u64 {
    let body = bytes.iter().skip(at).take(width).enumerate();
    body.fold(0, |sum, (place, byte)| {
        sum | u64::from(*byte) << (8 * place)
    })
}

/// A 4-byte number.
fn number4(bytes: &[u8], at: usize) -> u32 {
    number(bytes, at, 4) as u32
}

/// The counts of sets and configurations, or 2 with "the first wrong contents
/// entry". The fourth offset stands on the count that the third entry gives.
fn read_contents(bytes: &[u8]) -> Result<(usize, usize), Refusal> {
    let sets = number(bytes, 18, 2) as usize;
    let rules = [
        (1, CONTROL_AT),
        (1, BATTERY_AT),
        (SETS, SETS_AT),
        (CONFIGURATIONS, SETS_AT + SET_BYTES * sets),
    ];
    for (before, (most, offset)) in rules.into_iter().enumerate() {
        let entry = 8 * before;
        let in_order = number(bytes, entry, 2) == before as u64 + 1
            && (1..=most as u64).contains(&number(bytes, entry + 2, 2))
            && number(bytes, entry + 4, 4) == offset as u64;
        if !in_order {
            return Err(Refusal::at(2, before as u64 + 1));
        }
    }
    Ok((sets, number(bytes, 26, 2) as usize))
}

fn read_control(bytes: &[u8]) -> Control {
    let field = |index: usize| number4(bytes, CONTROL_AT + 4 * index);
    Control {
        spinning_reserve: field(0),
        solar_coverage: field(1),
        minimum_load: field(2),
        shed: field(3),
        shed_delay: field(4),
        filter_k: field(5),
        minimum_seconds: field(6),
        maintain: field(7),
        start_mask: field(8),
    }
}

fn read_battery(bytes: &[u8]) -> Battery {
    Battery {
        power: number4(bytes, BATTERY_AT),
        efficiency: number4(bytes, BATTERY_AT + 4),
        least: number(bytes, BATTERY_AT + 8, 8),
        most: number(bytes, BATTERY_AT + 16, 8),
        start: number(bytes, BATTERY_AT + 24, 8),
    }
}

fn read_set(bytes: &[u8], at: usize) -> Genset {
    let field = |index: usize| number4(bytes, at + 4 * index);
    let mut curve = [Point::default(); PAIRS];
    for (index, point) in curve.iter_mut().enumerate() {
        point.load = field(6 + 2 * index);
        point.rate = field(7 + 2 * index);
    }
    Genset {
        rating: field(0),
        warm_up: field(1),
        cool_down: field(2),
        service_interval: field(3),
        service_time: field(4),
        points: field(5),
        curve,
    }
}

/// "set by set 6 before 7", the set as the place.
fn read_sets(bytes: &[u8], sets: usize, station: &mut Station) -> Result<(), Refusal> {
    for (before, genset) in station.gensets.iter_mut().take(sets).enumerate() {
        *genset = read_set(bytes, SETS_AT + SET_BYTES * before);
        let place = before as u64 + 1;
        if !genset.numbers_in_rule() {
            return Err(Refusal::at(6, place));
        }
        if !genset.pairs_in_rule() {
            return Err(Refusal::at(7, place));
        }
    }
    Ok(())
}

/// The configurations, 8 with the configuration as the place.
fn read_table(
    bytes: &[u8],
    table_at: usize,
    configurations: usize,
    station: &mut Station,
) -> Result<(), Refusal> {
    for before in 0..configurations {
        let mask = number(bytes, table_at + before, 1) as u8;
        if !station.configuration_in_rule(mask) {
            return Err(Refusal::at(8, before as u64 + 1));
        }
        if let Some(entry) = station.masks.get_mut(before) {
            *entry = mask;
        }
    }
    Ok(())
}

//! Good runs for the judge of demand 3: several sets with short warm-ups and services,
//! loads above and below what they carry, and a store that fills and empties.

use super::encode::station_bytes;
use super::good_samples;
use super::good_stations::all_sets;
use super::random::Random;
use crate::hex;
use crate::limits::PAIRS;
use crate::samples::Sample;
use crate::station::{Battery, Control, Genset, Point, Station};

/// One case, as a run's: a station file, a sample file, 20 to 400 seconds.
pub fn case(random: &mut Random) -> String {
    let station = station(random);
    let seconds = random.between(20, 400);
    let rows = rows(random, &station, seconds);
    let sheet = good_samples::sheet(random, &rows);
    let asked = seconds.to_string().into_bytes();
    let parts = [station_bytes(&station), sheet.bytes(), asked];
    parts.map(|part| hex::write(&part)).join(" ")
}

fn station(random: &mut Random) -> Station {
    let sets = random.between32(1, 5);
    let mut station = Station {
        sets,
        configurations: random.between32(1, 10),
        ..Station::default()
    };
    let size = random.pick([10, 1_000, 50_000, 1_000_000]);
    for genset in station.gensets.iter_mut().take(sets as usize) {
        *genset = set(random, size);
    }
    for mask in station
        .masks
        .iter_mut()
        .take(station.configurations as usize)
    {
        *mask = random.between32(1, all_sets(sets)) as u8;
    }
    if let Some(last) = station.masks.get_mut(station.configurations as usize - 1) {
        *last = all_sets(sets) as u8;
    }
    station.control = control(random, sets, size);
    station.battery = battery(random, size);
    station
}

fn set(random: &mut Random, size: u32) -> Genset {
    let interval = random.pick([0, 3, 20, 60]);
    let points = random.between32(2, PAIRS as u32);
    let mut curve = [Point::default(); PAIRS];
    // A first point above no load at all, and rates that fall: the line dips below zero.
    let mut load = random.pick([0, 0, 100, 600]);
    for point in curve.iter_mut().take(points as usize) {
        point.load = load;
        point.rate = random.edge32(0, 30_000);
        load += random.between32(1, 220);
    }
    Genset {
        rating: random.between32(1, 9) * size + random.between32(0, 9),
        warm_up: random.between32(1, 6),
        cool_down: random.between32(1, 5),
        service_interval: match interval {
            0 => 0,
            most => random.between32(1, most),
        },
        service_time: match interval {
            0 => 0,
            _ => random.between32(1, 30),
        },
        points,
        curve,
    }
}

fn control(random: &mut Random, sets: u32, size: u32) -> Control {
    Control {
        spinning_reserve: random.edge32(0, 3 * size),
        solar_coverage: random.edge32(0, 100),
        minimum_load: random.edge32(0, 60),
        shed: random.edge32(40, 100),
        shed_delay: random.between32(1, 5),
        filter_k: random.pick([0, 1, 333, 700, 950, 999]),
        minimum_seconds: random.pick([0, 1, 3, 10, 40]),
        maintain: random.between32(0, 1),
        // Now and then no set is on line: a black start.
        start_mask: random.edge32(0, all_sets(sets)),
    }
}

/// Some seconds of one set's power fill the store.
fn battery(random: &mut Random, size: u32) -> Battery {
    let most = u64::from(size) * random.pick([0, 100, 1_500, 10_000]) + random.between(0, 300);
    let least = random.pick([0, most / 4, most / 2]);
    Battery {
        power: random.edge32(0, 10 * size),
        efficiency: random.edge32(1, 100),
        least,
        most,
        start: random.edge(least, most),
    }
}

/// Rows of some seconds each: low load with much solar, or a load that is near what all
/// sets carry, or above it.
fn rows(random: &mut Random, station: &Station, seconds: u64) -> Vec<Sample> {
    let all: u64 = station
        .existing_sets()
        .map(|set| u64::from(set.rating))
        .sum();
    let longest = random.pick([2, 8, 30]);
    let mut samples = Vec::new();
    let mut time = 0;
    while time < seconds {
        let load = match random.between(0, 5) {
            0 => 0,
            1 => random.between(0, all / 4),
            2 => random.between(all, 2 * all),
            _ => random.between(0, all),
        };
        let solar = match random.between(0, 2) {
            0 => 0,
            1 => random.between(0, all / 2),
            _ => random.between(0, 2 * all),
        };
        samples.push(Sample {
            time,
            load: load.min(50_000_000),
            solar: solar.min(50_000_000),
            sheddable: random.pick([0, load / 5, load / 2, load]).min(50_000_000),
        });
        time += random.between(1, longest);
    }
    samples
}

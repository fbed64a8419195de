//! Good stations: wide ones with values up to their limits, and lively ones
//! whose configurations change often within a few hundred seconds.

use super::random::Random;
use crate::limits::{CONFIGURATIONS, PAIRS, SETS};
use crate::station::{Battery, Control, Genset, Point, Station};

/// A station of either sort.
pub fn any(random: &mut Random) -> Station {
    if random.chance(60) {
        wide(random)
    } else {
        lively(random)
    }
}

/// A station whose values run over their whole ranges.
pub fn wide(random: &mut Random) -> Station {
    let sets = random.edge32(1, SETS as u32);
    let all = all_sets(sets);
    let mut station = Station {
        sets,
        configurations: random.edge32(1, CONFIGURATIONS as u32),
        control: wide_control(random, all),
        battery: wide_battery(random),
        ..Station::default()
    };
    fill(random, &mut station, wide_set);
    station
}

/// The mask of all existing sets.
pub fn all_sets(sets: u32) -> u32 {
    (1_u32 << sets) - 1
}

/// Fills in the existing sets and configurations.
fn fill(random: &mut Random, station: &mut Station, set: fn(&mut Random) -> Genset) {
    let all = all_sets(station.sets);
    for genset in station.gensets.iter_mut().take(station.sets as usize) {
        *genset = set(random);
    }
    let table = station.masks.iter_mut();
    for mask in table.take(station.configurations as usize) {
        *mask = random.between32(1, all) as u8;
    }
}

fn wide_control(random: &mut Random, all: u32) -> Control {
    Control {
        spinning_reserve: random.edge32(0, 50_000_000),
        solar_coverage: random.edge32(0, 100),
        minimum_load: random.edge32(0, 100),
        shed: random.edge32(0, 100),
        shed_delay: random.edge32(1, 60),
        filter_k: random.edge32(0, 999),
        minimum_seconds: random.edge32(0, 86_400),
        maintain: random.between32(0, 1),
        start_mask: random.edge32(0, all),
    }
}

fn wide_battery(random: &mut Random) -> Battery {
    let most = random.edge(0, 10_000_000_000_000);
    let least = random.edge(0, most);
    Battery {
        power: random.edge32(0, 50_000_000),
        efficiency: random.edge32(1, 100),
        least,
        most,
        start: random.edge(least, most),
    }
}

fn wide_set(random: &mut Random) -> Genset {
    let service_interval = match random.chance(40) {
        true => 0,
        false => random.edge32(1, 100_000_000),
    };
    let service_time = match service_interval {
        0 => 0,
        _ => random.edge32(1, 2_592_000),
    };
    let (points, curve) = curve(random);
    Genset {
        rating: random.edge32(1, 10_000_000),
        warm_up: random.edge32(1, 3_600),
        cool_down: random.edge32(1, 3_600),
        service_interval,
        service_time,
        points,
        curve,
    }
}

/// A curve of 2 to 5 points: whole, starting late, ending early, or steep.
fn curve(random: &mut Random) -> (u32, [Point; PAIRS]) {
    let points = random.between32(2, PAIRS as u32);
    let last = points - 1;
    let (least, most) = match random.between(0, 5) {
        0 => (0, 1_000),
        1 => (random.between32(1, 900), 1_000),
        2 => (0, random.between32(10, 900)),
        3 => (random.between32(0, 1_400), 1_500),
        4 => (1_500 - last, 1_500),
        _ => (random.between32(0, 700), random.between32(710, 1_500)),
    };
    let greatest_rate = random.pick([20_000, 500_000, 10_000_000]);
    let mut curve = [Point::default(); PAIRS];
    for (before, point) in (0..points).zip(curve.iter_mut()) {
        // Evenly spread loads, each pushed up within its own step.
        let step = (most - least) / last;
        let push = if before == 0 || before == last || step < 2 {
            0
        } else {
            random.between32(0, step - 1)
        };
        point.load = if before == last {
            most
        } else {
            least + before * step + push
        };
        point.rate = random.edge32(0, greatest_rate);
    }
    if random.chance(40) {
        sort_rates(random, &mut curve, points as usize);
    }
    (points, curve)
}

/// Makes the rates rise all the way or, now and then, fall all the way.
fn sort_rates(random: &mut Random, curve: &mut [Point; PAIRS], points: usize) {
    let mut rates: Vec<u32> = curve.iter().take(points).map(|point| point.rate).collect();
    rates.sort_unstable();
    if random.chance(25) {
        rates.reverse();
    }
    for (point, rate) in curve.iter_mut().zip(rates) {
        point.rate = rate;
    }
}

/// A station with small ratings, short delays and a small store.
pub fn lively(random: &mut Random) -> Station {
    let most_sets = random.pick([2, 3, 4, 8]);
    let most_configurations = random.pick([3, 6, 12, 64]);
    let sets = random.between32(1, most_sets);
    let all = all_sets(sets);
    let mut station = Station {
        sets,
        configurations: random.between32(1, most_configurations),
        ..Station::default()
    };
    fill(random, &mut station, lively_set);
    if random.chance(70) {
        if let Some(last) = station.masks.get_mut(station.configurations as usize - 1) {
            *last = all as u8;
        }
    }
    let rating = station.existing_sets().map(|set| set.rating).max();
    station.control = lively_control(random, all, rating.unwrap_or(1));
    station.battery = lively_battery(random, rating.unwrap_or(1));
    station
}

fn lively_set(random: &mut Random) -> Genset {
    let service_interval = match random.chance(45) {
        true => 0,
        false => random.between32(1, 50),
    };
    let service_time = match service_interval {
        0 => 0,
        _ => random.between32(1, 20),
    };
    let (points, curve) = curve(random);
    Genset {
        rating: random.pick([1, 10, 1_000, 1_000, 60_000, 100_000]) * random.between32(1, 9),
        warm_up: random.between32(1, 8),
        cool_down: random.between32(1, 8),
        service_interval,
        service_time,
        points,
        curve,
    }
}

fn lively_control(random: &mut Random, all: u32, rating: u32) -> Control {
    let longest_delay = random.pick([1, 3, 10, 60]);
    Control {
        spinning_reserve: random.edge32(0, rating / 2),
        solar_coverage: random.edge32(0, 100),
        minimum_load: random.edge32(0, 60),
        shed: random.edge32(40, 100),
        shed_delay: random.between32(1, longest_delay),
        filter_k: random.pick([0, 1, 500, 700, 900, 990, 999]),
        minimum_seconds: random.pick([0, 1, 2, 3, 5, 10, 30]),
        maintain: random.between32(0, 1),
        start_mask: random.edge32(0, all),
    }
}

fn lively_battery(random: &mut Random, rating: u32) -> Battery {
    // Some seconds of the largest set's rating fill or empty the store.
    let most = u64::from(rating) * random.pick([0, 1, 50, 300, 3_000]) + random.between(0, 199);
    let least = match random.chance(50) {
        true => 0,
        false => random.between(0, most / 2),
    };
    Battery {
        power: random.edge32(0, 2 * rating),
        efficiency: random.edge32(1, 100),
        least,
        most,
        start: random.edge(least, most),
    }
}

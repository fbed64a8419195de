//! The stations that are measured, and what is asked of each.

use reference::generator::encode::station_bytes;
use reference::station::{Battery, Control, Genset, Point, Station};

use crate::calls::Call;

/// A station's bytes and the three calls on it.
pub struct Measured {
    pub name: &'static str,
    pub bytes: Vec<u8>,
    pub calls: [Call; 3],
}

/// Good stations from the least to the largest, and the largest with its last configuration wrong, so that it is refused last of all.
pub fn all(station_a: Vec<u8>) -> Vec<Measured> {
    let largest = station_bytes(&built(8, 64, 5));
    let mut damaged = largest.clone();
    if let Some(last) = damaged.last_mut() {
        *last = 0;
    }
    vec![
        measured(
            "1 set, 1 configuration",
            station_bytes(&built(1, 1, 2)),
            1,
            40_000,
        ),
        measured("Station A (2 sets, 3)", station_a, 3, 25_000),
        measured("8 sets, 64 configurations", largest, 255, 333_333),
        measured("the same, last one wrong", damaged, 255, 333_333),
    ]
}

/// The check, the share of the mask's last set, and the fuel rate of set 1 at a part of the power.
fn measured(name: &'static str, bytes: Vec<u8>, mask: u64, power: u64) -> Measured {
    let set = u64::from(u64::BITS - mask.leading_zeros());
    let share = Call::Share { mask, power, set };
    let rate = Call::FuelRate {
        mask: 1,
        power: power / set,
    };
    Measured {
        name,
        bytes,
        calls: [Call::Check, share, rate],
    }
}

/// A good station with values in the middle of their ranges.
fn built(sets: u32, configurations: u32, points: u32) -> Station {
    let mut station = Station {
        sets,
        configurations,
        control: Control {
            spinning_reserve: 10_000,
            solar_coverage: 50,
            minimum_load: 40,
            shed: 90,
            shed_delay: 30,
            filter_k: 900,
            minimum_seconds: 300,
            maintain: 1,
            start_mask: 1,
        },
        battery: Battery {
            power: 20_000,
            efficiency: 90,
            least: 1_000,
            most: 9_000_000,
            start: 1_000_000,
        },
        ..Station::default()
    };
    for (genset, before) in station.gensets.iter_mut().zip(0..sets) {
        *genset = built_set(before, points);
    }
    for (mask, before) in station.masks.iter_mut().zip(0..configurations) {
        *mask = 1 << (before % sets);
    }
    station
}

/// A set with its points evenly spread and some service.
fn built_set(before: u32, points: u32) -> Genset {
    let mut genset = Genset {
        rating: 50_000 + 7_000 * before,
        warm_up: 60,
        cool_down: 120,
        service_interval: 900_000,
        service_time: 7_200,
        points,
        ..Genset::default()
    };
    for (point, index) in genset.curve.iter_mut().zip(0..points) {
        *point = Point {
            load: 250 * index,
            rate: 2_000 + 3_000 * index,
        };
    }
    genset
}

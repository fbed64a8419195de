//! Faults of a station: values out of their rules (4 to 8), bytes that are not
//! as the contents say (1 to 3), and records that no file gives (25).

use super::good_stations::all_sets;
use super::random::Random;
use crate::limits::{CONFIGURATIONS, SETS};
use crate::station::{Genset, Station};

/// Pushes one value out of the rule that the refusal `number` (4 to 8) guards.
pub fn break_value(random: &mut Random, station: &mut Station, number: u8) {
    match number {
        4 => break_control(random, station),
        5 => break_battery(random, station),
        6 => {
            let genset = existing_set(random, station);
            break_set_number(random, genset);
        }
        7 => {
            let genset = existing_set(random, station);
            break_pairs(random, genset);
        }
        _ => break_configuration(random, station),
    }
}

/// One of the existing sets.
fn existing_set<'a>(random: &mut Random, station: &'a mut Station) -> &'a mut Genset {
    let sets = (station.sets as usize).clamp(1, SETS);
    &mut station.gensets[random.index(sets)]
}

fn break_control(random: &mut Random, station: &mut Station) {
    let all = all_sets(station.sets.min(SETS as u32));
    let control = &mut station.control;
    let extreme = random.chance(20);
    let over = |limit: u32| if extreme { u32::MAX } else { limit + 1 };
    match random.between(0, 9) {
        0 => control.spinning_reserve = over(50_000_000),
        1 => control.solar_coverage = over(100),
        2 => control.minimum_load = over(100),
        3 => control.shed = over(100),
        4 => control.shed_delay = over(60),
        5 => control.shed_delay = 0,
        6 => control.filter_k = over(999),
        7 => control.minimum_seconds = over(86_400),
        8 => control.maintain = over(1),
        _ => control.start_mask |= if extreme { 1 << 31 } else { all + 1 },
    }
}

fn break_battery(random: &mut Random, station: &mut Station) {
    let battery = &mut station.battery;
    match random.between(0, 7) {
        0 => battery.power = random.pick([50_000_001, u32::MAX]),
        1 => battery.efficiency = 0,
        2 => battery.efficiency = random.pick([101, u32::MAX]),
        3 => battery.least = battery.start.saturating_add(1),
        4 => battery.start = battery.most.saturating_add(1),
        5 => battery.most = random.pick([10_000_000_000_001, u64::MAX]),
        6 => battery.least = u64::MAX,
        _ => {
            // All three in order and just over the limit.
            battery.most = 10_000_000_000_001;
            battery.start = battery.most;
        }
    }
}

fn break_set_number(random: &mut Random, genset: &mut Genset) {
    match random.between(0, 11) {
        0 => genset.rating = 0,
        1 => genset.rating = random.pick([10_000_001, u32::MAX]),
        2 => genset.warm_up = 0,
        3 => genset.warm_up = 3_601,
        4 => genset.cool_down = 0,
        5 => genset.cool_down = 3_601,
        6 => {
            genset.service_interval = 100_000_001;
            genset.service_time = 1;
        }
        7 => {
            genset.service_interval = 0;
            genset.service_time = 1;
        }
        8 => {
            genset.service_interval = 1;
            genset.service_time = 0;
        }
        9 => {
            genset.service_interval = 100_000_000;
            genset.service_time = 2_592_001;
        }
        10 => genset.points = random.pick([0, 1]),
        _ => genset.points = random.pick([6, 255, u32::MAX]),
    }
}

fn break_pairs(random: &mut Random, genset: &mut Genset) {
    let used = genset.used_points().len().max(2);
    let first = random.index(used - 1);
    let one = random.index(used);
    let curve = &mut genset.curve;
    let choice = random.between(0, 6);
    match choice {
        0 => curve[used - 1].load = random.pick([1_501, u32::MAX]),
        1 => curve[one].rate = random.pick([10_000_001, u32::MAX]),
        2 => curve[first + 1].load = curve[first].load,
        3 => curve.swap(first, first + 1),
        _ if used == curve.len() => curve[0].load = curve[1].load.saturating_add(1),
        4 => curve[used].load = curve[used - 1].load.saturating_add(1),
        5 => curve[used].rate = 1,
        _ => curve[4].rate = 1,
    }
}

fn break_configuration(random: &mut Random, station: &mut Station) {
    let existing = all_sets(station.sets.min(SETS as u32)) as u8;
    let configurations = (station.configurations as usize).clamp(1, CONFIGURATIONS);
    let mask = &mut station.masks[random.index(configurations)];
    // With eight sets every bit is a set, and only zero is wrong.
    *mask = match random.between(0, 2) {
        0 => *mask | !existing & existing.wrapping_add(1),
        1 if existing != u8::MAX => !existing,
        _ => 0,
    };
    if existing == u8::MAX {
        *mask = 0;
    }
}

/// A size outside 165 to 676.
pub fn break_size(random: &mut Random, bytes: &mut Vec<u8>) {
    let size = random.pick([0, 1, 31, 32, 100, 163, 164, 677, 678, 1_000, 5_000]);
    bytes.resize(size, random.pick([0, 1, 255]));
}

/// Makes one kind, count or offset of the contents wrong, or at least another.
pub fn break_contents(random: &mut Random, bytes: &mut [u8]) {
    let entry = 8 * random.index(4);
    let (at, width) = random.pick([(0, 2), (2, 2), (4, 4)]);
    let Some(field) = bytes.get_mut(entry + at..entry + at + width) else {
        return;
    };
    let old = field
        .iter()
        .rev()
        .fold(0, |sum, byte| sum << 8 | u32::from(*byte));
    let new = match random.between(0, 6) {
        0 => old.saturating_add(1),
        1 => old.saturating_sub(1),
        2 => 0,
        3 => u32::MAX,
        4 => random.pick([8, 9, 64, 65, 256]),
        5 => old.swap_bytes(),
        _ => random.between32(0, 10),
    };
    for (byte, new) in field.iter_mut().zip(new.to_le_bytes()) {
        *byte = new;
    }
}

/// Makes the size differ from the contents, mostly within 165 to 676.
pub fn break_length(random: &mut Random, bytes: &mut Vec<u8>) {
    let size = match random.between(0, 4) {
        0 => bytes.len() + 1,
        1 => bytes.len().saturating_sub(1),
        2 => bytes.len() + 64,
        3 => bytes.len().saturating_sub(64),
        _ => random.between(165, 676) as usize,
    };
    bytes.resize(size, random.pick([0, 1]));
}

/// Makes a record that no file gives, by one field.
pub fn break_record(random: &mut Random, station: &mut Station) {
    match random.between(0, 9) {
        0 => station.sets = random.pick([0, 9, u32::MAX]),
        1 => station.configurations = random.pick([0, 65, u32::MAX]),
        2 | 3 => break_past_counts(random, station),
        _ => {
            let number = random.between(4, 8) as u8;
            break_value(random, station, number);
        }
    }
}

/// Puts something past the sets or past the configurations.
fn break_past_counts(random: &mut Random, station: &mut Station) {
    let (sets, table) = (station.sets as usize, station.configurations as usize);
    let sets_full = sets >= SETS;
    if table < CONFIGURATIONS && (sets_full || random.chance(40)) {
        station.masks[table + random.index(CONFIGURATIONS - table)] = 1;
        return;
    }
    if sets_full {
        station.sets = 0;
        return;
    }
    let genset = &mut station.gensets[sets + random.index(SETS - sets)];
    match random.between(0, 7) {
        0 => genset.rating = 1,
        1 => genset.warm_up = 1,
        2 => genset.cool_down = 1,
        3 => genset.service_interval = 1,
        4 => genset.service_time = 1,
        5 => genset.points = 2,
        6 => genset.curve[random.index(5)].load = 1,
        _ => genset.curve[random.index(5)].rate = 1,
    }
}

//! Run records that are impossible by one field, at its limit plus one.

use super::random::Random;
use crate::limits::{DELAYS, SECONDS, SETS};
use crate::run_record::{Mode, RunRecord, Totals};
use crate::station::Station;

/// Makes a possible record impossible by one field of document 01's list.
pub fn break_record(random: &mut Random, station: &Station, record: &mut RunRecord) {
    match random.between(0, 23) {
        0 => record.done = random.pick([SECONDS as u32 + 1, u32::MAX]),
        1 => break_store(random, station, record),
        2 => record.called = random.pick([station.configurations + 1, u32::MAX]),
        3 => record.since = record.done + 1,
        4..=6 => break_mode(random, station, record),
        7 => break_service(random, station, record),
        8..=13 => break_set_count(random, station, record),
        14..=19 => break_total(random, record),
        20 => break_decided(random, station, record),
        21 => break_past_delay(random, station, record),
        _ => break_past_sets(random, station, record),
    }
}

fn break_store(random: &mut Random, station: &Station, record: &mut RunRecord) {
    let battery = &station.battery;
    record.store = match battery.least.checked_sub(1) {
        Some(below) if random.chance(50) => below,
        _ => random.pick([battery.most + 1, u64::MAX]),
    };
}

fn existing_index(random: &mut Random, station: &Station) -> usize {
    random.index((station.sets as usize).clamp(1, SETS))
}

/// "remaining seconds of a mode between 1 and that set's own delay".
fn break_mode(random: &mut Random, station: &Station, record: &mut RunRecord) {
    let index = existing_index(random, station);
    let genset = &station.gensets[index];
    record.sets[index].mode = match random.between(0, 6) {
        0 => Mode::Warming(0),
        1 => Mode::Warming(genset.warm_up + 1),
        2 => Mode::Cooling(0),
        3 => Mode::Cooling(genset.cool_down + 1),
        4 => Mode::Service(0),
        5 => Mode::Service(genset.service_time + 1),
        _ => Mode::Warming(u32::MAX),
    };
}

/// "no service mode at interval 0": on a set without an interval, if there is one.
fn break_service(random: &mut Random, station: &Station, record: &mut RunRecord) {
    let mut gensets = station.existing_sets();
    match gensets.position(|genset| genset.service_interval == 0) {
        Some(index) => record.sets[index].mode = Mode::Service(random.pick([1, 5])),
        None => break_mode(random, station, record),
    }
}

fn break_set_count(random: &mut Random, station: &Station, record: &mut RunRecord) {
    let index = existing_index(random, station);
    let done = record.done;
    let set = &mut record.sets[index];
    let energy = u64::from(station.gensets[index].rating) * u64::from(done);
    let fuel = 15_000_000_000 * u64::from(done);
    match random.between(0, 7) {
        0 => set.run_seconds = done + 1,
        1 => set.service_clock = done + 1,
        2 => set.starts = done + 1,
        3 => set.stops = done + 1,
        4 => set.energy = energy + 1,
        5 => set.fuel = fuel + 1,
        6 => set.energy = u64::MAX,
        _ => set.fuel = u64::MAX,
    }
}

fn break_total(random: &mut Random, record: &mut RunRecord) {
    let over = match random.chance(90) {
        true => 50_000_000 * u64::from(record.done) + 1,
        false => u64::MAX,
    };
    let totals: &mut Totals = &mut record.totals;
    match random.between(0, 8) {
        0 => totals.solar_offered = over,
        1 => totals.load = over,
        2 => totals.shed = over,
        3 => totals.solar = over,
        4 => totals.charge = over,
        5 => totals.spill = over,
        6 => totals.give = over,
        7 => totals.diesel = over,
        _ => totals.unserved = over,
    }
}

fn break_decided(random: &mut Random, station: &Station, record: &mut RunRecord) {
    let delay = (station.control.shed_delay as usize).clamp(1, DELAYS);
    let at = random.pick([0, delay / 2, delay - 1]);
    record.decided[at] = random.pick([50_000_001, u32::MAX]);
}

fn break_past_delay(random: &mut Random, station: &Station, record: &mut RunRecord) {
    let delay = station.control.shed_delay as usize;
    if delay >= DELAYS {
        return break_decided(random, station, record);
    }
    let at = random.pick([delay, DELAYS - 1]);
    record.decided[at] = random.pick([1, 50_000_000]);
}

fn break_past_sets(random: &mut Random, station: &Station, record: &mut RunRecord) {
    let sets = station.sets as usize;
    if sets >= SETS {
        return break_set_count(random, station, record);
    }
    let set = &mut record.sets[sets + random.index(SETS - sets)];
    match random.between(0, 9) {
        0 => set.mode = Mode::On,
        1 => set.mode = Mode::Warming(1),
        2 => set.mode = Mode::Cooling(1),
        3 => set.mode = Mode::Service(1),
        4 => set.run_seconds = 1,
        5 => set.service_clock = 1,
        6 => set.starts = 1,
        7 => set.stops = 1,
        8 => set.energy = 1,
        _ => set.fuel = 1,
    }
}

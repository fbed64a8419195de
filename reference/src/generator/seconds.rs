//! Cases of one second over explicit records.

use super::random::Random;
use super::{good_stations, record_damage, records, station_damage};
use crate::dispatch::Inputs;
use crate::limits::SECONDS;
use crate::run_record::Held;
use crate::share::capacity;
use crate::text::{write_case, SecondCase};

/// One case, good or with some of the faults that a second refuses.
pub fn case(random: &mut Random) -> String {
    let mut case = good(random);
    if random.chance(50) {
        damage(random, &mut case);
    }
    write_case(&case)
}

/// A case that is accepted.
fn good(random: &mut Random) -> SecondCase {
    let station = match random.chance(70) {
        true => good_stations::lively(random),
        false => good_stations::wide(random),
    };
    let mut record = match random.chance(50) {
        true => records::reached(random, &station),
        false => records::filled(random, &station),
    };
    if random.chance(20) {
        record.held = records::held(random, &station);
    }
    let mut case = SecondCase {
        station,
        record,
        inputs: records::good_inputs(random, &station),
        buffer_length: random.pick([256, 256, 257, 1_000]),
    };
    if random.chance(15) {
        want_a_capacity(random, &mut case);
    }
    case
}

/// Wants a configuration's capacity or a watt beside it, with nothing or that
/// capacity held, so that equality or the filter's rounding decides covering.
fn want_a_capacity(random: &mut Random, case: &mut SecondCase) {
    let station = &case.station;
    let mask = station.called_mask(random.between32(1, station.configurations));
    let cap = capacity(station, mask);
    let wanted = random.pick([cap, cap, cap + 1, cap.saturating_sub(1)]);
    // Without solar and sheddable load the reserve is the spinning one.
    let load = wanted.saturating_sub(u64::from(station.control.spinning_reserve));
    case.inputs = Inputs {
        load: load.min(50_000_000) as u32,
        solar: 0,
        sheddable: 0,
    };
    case.record.held = match random.chance(40) {
        true => Held::Absent,
        false => Held::Present(cap as f64),
    };
}

/// One fault or several, so that the order 25, 24, 23, 19, 20, 26 matters.
fn damage(random: &mut Random, case: &mut SecondCase) {
    let alone = random.index(6);
    let several = random.chance(40);
    for fault in 0..6 {
        if fault == alone || several && random.chance(35) {
            put_fault(random, case, fault);
        }
    }
}

/// Puts one fault; the station last, so that the record is broken by its rules.
fn put_fault(random: &mut Random, case: &mut SecondCase, fault: usize) {
    match fault {
        0 => case.record.done = SECONDS as u32,
        1 => record_damage::break_record(random, &case.station, &mut case.record),
        2 => break_limits(random, &mut case.inputs),
        3 => break_sheddable(random, &mut case.inputs),
        4 => case.buffer_length = random.pick([0, 1, 100, 255]),
        _ => station_damage::break_record(random, &mut case.station),
    }
}

/// Some input above 50,000,000 W (19).
fn break_limits(random: &mut Random, inputs: &mut Inputs) {
    let over = random.pick([50_000_001, 50_000_001, u32::MAX]);
    match random.between(0, 3) {
        0 => inputs.load = over,
        1 => inputs.solar = over,
        2 => inputs.sheddable = over,
        _ => {
            inputs.load = over;
            inputs.sheddable = over;
        }
    }
}

/// Sheddable load above load (20), by one watt often.
fn break_sheddable(random: &mut Random, inputs: &mut Inputs) {
    inputs.load = inputs.load.min(49_999_999);
    inputs.sheddable = match random.chance(50) {
        true => inputs.load + 1,
        false => random.between32(inputs.load + 1, 50_000_000),
    };
}

//! Possible run records: reached by some seconds from the start, or filled at
//! random within every bound.

use super::random::Random;
use super::runs::load_around;
use crate::dispatch::Inputs;
use crate::run_record::{Held, Mode, RunRecord, SetRecord, Totals};
use crate::second::second;
use crate::share::capacity;
use crate::station::{Genset, Station};

/// A record that some seconds from the start give.
pub fn reached(random: &mut Random, station: &Station) -> RunRecord {
    let mut record = RunRecord::start(station);
    let seconds = random.pick([0, 1, 2, 5, 20, 60, 120]);
    let mut inputs = good_inputs(random, station);
    for _ in 0..seconds {
        if random.chance(40) {
            inputs = good_inputs(random, station);
        }
        let mut buffer = [0; 256];
        if second(station, &mut record, &inputs, &mut buffer).is_err() {
            break;
        }
    }
    record
}

/// Inputs that no second refuses.
pub fn good_inputs(random: &mut Random, station: &Station) -> Inputs {
    let load = match random.chance(80) {
        true => load_around(random, station) as u32,
        false => random.edge32(0, 50_000_000),
    };
    Inputs {
        load,
        solar: match random.between(0, 9) {
            0..=2 => 0,
            3..=7 => random.between32(0, load),
            _ => random.edge32(0, 50_000_000),
        },
        sheddable: random.edge32(0, load),
    }
}

/// A record within all bounds, whether a run reaches it or not.
pub fn filled(random: &mut Random, station: &Station) -> RunRecord {
    let longest = random.pick([0, 1, 10, 1_000, 316_223_999]);
    let done = random.edge32(0, longest);
    let battery = &station.battery;
    let mut record = RunRecord {
        done,
        store: random.edge(battery.least, battery.most),
        called: random.edge32(0, station.configurations),
        since: since(random, station, done),
        held: held(random, station),
        ..RunRecord::start(station)
    };
    for (set, genset) in record.sets.iter_mut().zip(station.existing_sets()) {
        *set = filled_set(random, genset, done);
    }
    record.totals = filled_totals(random, done);
    let decided = record.decided.iter_mut();
    for amount in decided.take(station.control.shed_delay as usize) {
        *amount = random.edge32(0, 50_000_000);
    }
    record
}

/// A since-second, often beside the minimum seconds.
fn since(random: &mut Random, station: &Station, done: u32) -> u32 {
    let minimum = station.control.minimum_seconds;
    match random.between(0, 3) {
        0 => done.saturating_sub(minimum),
        1 => done.saturating_sub(minimum.saturating_sub(1)),
        _ => random.edge32(0, done),
    }
}

fn filled_set(random: &mut Random, genset: &Genset, done: u32) -> SetRecord {
    let service = genset.service_interval > 0;
    let mode = match random.between(0, 9) {
        0 | 1 => Mode::Off,
        2 => Mode::Warming(random.edge32(1, genset.warm_up)),
        3 => Mode::Cooling(random.edge32(1, genset.cool_down)),
        4 if service => Mode::Service(random.edge32(1, genset.service_time)),
        _ => Mode::On,
    };
    // Clocks beside the interval make sets due now and then.
    let clock = match random.between(0, 3) {
        0 => genset.service_interval.min(done),
        1 => genset.service_interval.saturating_sub(1).min(done),
        _ => random.edge32(0, done),
    };
    SetRecord {
        mode,
        run_seconds: random.edge32(0, done),
        service_clock: clock,
        starts: random.edge32(0, done),
        stops: random.edge32(0, done),
        energy: random.edge(0, u64::from(genset.rating) * u64::from(done)),
        fuel: random.edge(0, 15_000_000_000 * u64::from(done)),
    }
}

fn filled_totals(random: &mut Random, done: u32) -> Totals {
    let most = 50_000_000 * u64::from(done);
    let mut total = || random.edge(0, most);
    Totals {
        solar_offered: total(),
        load: total(),
        shed: total(),
        solar: total(),
        charge: total(),
        spill: total(),
        give: total(),
        diesel: total(),
        unserved: total(),
    }
}

/// A held setpoint: absent, ordinary, beside a capacity, or a strange number.
pub fn held(random: &mut Random, station: &Station) -> Held {
    let cap = f64::from(capacity(station, random.bits() as u8) as u32);
    let ordinary = random.between(0, 100_000_000) as f64;
    let number = match random.between(0, 15) {
        0 => return Held::Absent,
        1 => f64::from_bits(0x7ff8_0000_0000_0000 | random.bits() >> 13),
        2 => f64::from_bits(0xfff0_0000_0000_0001 | random.bits() >> 13),
        3 => f64::from_bits(random.pick([0x7ff0_0000_0000_0001, 0xffff_ffff_ffff_ffff])),
        4 => random.pick([f64::INFINITY, f64::NEG_INFINITY]),
        5 => random.pick([0.0, -0.0]),
        6 => random.pick([-1.0, -1e300, f64::MIN, -ordinary]),
        7 => random.pick([f64::MIN_POSITIVE, f64::from_bits(1), -f64::from_bits(1)]),
        8 => random.pick([f64::MAX, 1e300, 1e17]),
        9 => f64::from_bits(random.bits()),
        10 => cap,
        11 => f64::from_bits(cap.to_bits() + 1),
        12 => cap + 1.0,
        _ => ordinary / random.pick([1.0, 3.0, 7.0, 1_000.0]),
    };
    Held::Present(number)
}

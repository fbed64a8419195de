//! The case of one second as whitespace-separated decimal numbers, and its
//! answer line. README.md gives the order of the numbers.

use crate::dispatch::Inputs;
use crate::hex;
use crate::limits::{CONFIGURATIONS, DELAYS, PAIRS, SETS};
use crate::run_record::{Held, Mode, RunRecord, SetRecord, Totals};
use crate::second::second;
use crate::station::{Battery, Control, Genset, Point, Station};

/// "all NaN count as one": the one that is printed.
const NAN_BITS: u64 = 0x7ff8_0000_0000_0000;
/// Bytes of a lent buffer past these are never touched, so none are made.
const LONGEST_BUFFER: u32 = 65_536;

/// What one call of a second is handed.
#[derive(Clone, Debug, PartialEq)]
pub struct SecondCase {
    pub station: Station,
    pub record: RunRecord,
    pub inputs: Inputs,
    pub buffer_length: u32,
}

/// Takes a case's numbers from the left.
struct Numbers<'a>(std::str::SplitWhitespace<'a>);

impl Numbers<'_> {
    /// The next number, if it is there and fits its width.
    fn take<T: std::str::FromStr>(&mut self) -> Option<T> {
        let text = self.0.next()?;
        let unsigned = text.bytes().all(|byte| byte.is_ascii_digit());
        if unsigned {
            text.parse().ok()
        } else {
            None
        }
    }

    /// The next `N` things, each taken by `one`.
    fn many<T, const N: usize>(
        &mut self,
        mut one: impl FnMut(&mut Self) -> Option<T>,
    ) -> Option<[T; N]> {
        let things: Option<Vec<T>> = (0..N).map(|_| one(self)).collect();
        things?.try_into().ok()
    }
}

/// The case of a line, or nothing where the line is no case.
pub fn read_case(line: &str) -> Option<SecondCase> {
    let mut numbers = Numbers(line.split_whitespace());
    let case = SecondCase {
        station: read_station(&mut numbers)?,
        record: read_record(&mut numbers)?,
        inputs: read_inputs(&mut numbers)?,
        buffer_length: numbers.take()?,
    };
    match numbers.0.next() {
        None => Some(case),
        Some(_) => None,
    }
}

fn read_station(numbers: &mut Numbers) -> Option<Station> {
    Some(Station {
        sets: numbers.take()?,
        configurations: numbers.take()?,
        control: read_control(numbers)?,
        battery: read_battery(numbers)?,
        gensets: numbers.many::<Genset, SETS>(read_genset)?,
        masks: numbers.many::<u8, CONFIGURATIONS>(Numbers::take)?,
    })
}

fn read_control(numbers: &mut Numbers) -> Option<Control> {
    Some(Control {
        spinning_reserve: numbers.take()?,
        solar_coverage: numbers.take()?,
        minimum_load: numbers.take()?,
        shed: numbers.take()?,
        shed_delay: numbers.take()?,
        filter_k: numbers.take()?,
        minimum_seconds: numbers.take()?,
        maintain: numbers.take()?,
        start_mask: numbers.take()?,
    })
}

fn read_battery(numbers: &mut Numbers) -> Option<Battery> {
    Some(Battery {
        power: numbers.take()?,
        efficiency: numbers.take()?,
        least: numbers.take()?,
        most: numbers.take()?,
        start: numbers.take()?,
    })
}

fn read_genset(numbers: &mut Numbers) -> Option<Genset> {
    Some(Genset {
        rating: numbers.take()?,
        warm_up: numbers.take()?,
        cool_down: numbers.take()?,
        service_interval: numbers.take()?,
        service_time: numbers.take()?,
        points: numbers.take()?,
        curve: numbers.many::<Point, PAIRS>(|pair| {
            Some(Point {
                load: pair.take()?,
                rate: pair.take()?,
            })
        })?,
    })
}

fn read_record(numbers: &mut Numbers) -> Option<RunRecord> {
    Some(RunRecord {
        done: numbers.take()?,
        store: numbers.take()?,
        called: numbers.take()?,
        since: numbers.take()?,
        held: read_held(numbers)?,
        sets: numbers.many::<SetRecord, SETS>(read_set)?,
        totals: read_totals(numbers)?,
        decided: numbers.many::<u32, DELAYS>(Numbers::take)?,
    })
}

fn read_held(numbers: &mut Numbers) -> Option<Held> {
    let (tag, bits): (u32, u64) = (numbers.take()?, numbers.take()?);
    match tag {
        0 => Some(Held::Absent),
        1 => Some(Held::Present(f64::from_bits(bits))),
        _ => None,
    }
}

fn read_set(numbers: &mut Numbers) -> Option<SetRecord> {
    let (tag, remaining): (u32, u32) = (numbers.take()?, numbers.take()?);
    let mode = match tag {
        0 => Mode::Off,
        1 => Mode::Warming(remaining),
        2 => Mode::On,
        3 => Mode::Cooling(remaining),
        4 => Mode::Service(remaining),
        _ => return None,
    };
    Some(SetRecord {
        mode,
        run_seconds: numbers.take()?,
        service_clock: numbers.take()?,
        starts: numbers.take()?,
        stops: numbers.take()?,
        energy: numbers.take()?,
        fuel: numbers.take()?,
    })
}

fn read_totals(numbers: &mut Numbers) -> Option<Totals> {
    Some(Totals {
        solar_offered: numbers.take()?,
        load: numbers.take()?,
        shed: numbers.take()?,
        solar: numbers.take()?,
        charge: numbers.take()?,
        spill: numbers.take()?,
        give: numbers.take()?,
        diesel: numbers.take()?,
        unserved: numbers.take()?,
    })
}

fn read_inputs(numbers: &mut Numbers) -> Option<Inputs> {
    Some(Inputs {
        load: numbers.take()?,
        solar: numbers.take()?,
        sheddable: numbers.take()?,
    })
}

/// A case as its line, without LF.
pub fn write_case(case: &SecondCase) -> String {
    let inputs = [
        case.inputs.load,
        case.inputs.solar,
        case.inputs.sheddable,
        case.buffer_length,
    ];
    let mut numbers = station_numbers(&case.station);
    numbers.extend(record_numbers(&case.record));
    numbers.extend(inputs.map(u64::from));
    join(&numbers)
}

fn join(numbers: &[u64]) -> String {
    let texts: Vec<String> = numbers.iter().map(u64::to_string).collect();
    texts.join(" ")
}

fn station_numbers(station: &Station) -> Vec<u64> {
    let control = &station.control;
    let battery = &station.battery;
    let small = [
        station.sets,
        station.configurations,
        control.spinning_reserve,
        control.solar_coverage,
        control.minimum_load,
        control.shed,
        control.shed_delay,
        control.filter_k,
        control.minimum_seconds,
        control.maintain,
        control.start_mask,
        battery.power,
        battery.efficiency,
    ];
    let mut numbers: Vec<u64> = small.map(u64::from).to_vec();
    numbers.extend([battery.least, battery.most, battery.start]);
    numbers.extend(station.gensets.iter().flat_map(genset_numbers));
    numbers.extend(station.masks.map(u64::from));
    numbers
}

fn genset_numbers(genset: &Genset) -> Vec<u64> {
    let first = [
        genset.rating,
        genset.warm_up,
        genset.cool_down,
        genset.service_interval,
        genset.service_time,
        genset.points,
    ];
    let pairs = genset.curve.iter().flat_map(|pair| [pair.load, pair.rate]);
    first.into_iter().chain(pairs).map(u64::from).collect()
}

/// A run record's numbers in the order of the case.
fn record_numbers(record: &RunRecord) -> Vec<u64> {
    let (held, bits) = match record.held {
        Held::Absent => (0, 0),
        Held::Present(number) => (1, number.to_bits()),
    };
    let (done, called, since) = (record.done, record.called, record.since);
    let mut numbers = vec![u64::from(done), record.store, u64::from(called)];
    numbers.extend([u64::from(since), held, bits]);
    numbers.extend(record.sets.iter().flat_map(set_numbers));
    numbers.extend(record.totals.all());
    numbers.extend(record.decided.map(u64::from));
    numbers
}

fn set_numbers(set: &SetRecord) -> Vec<u64> {
    let (tag, remaining) = match set.mode {
        Mode::Off => (0, 0),
        Mode::Warming(remaining) => (1, remaining),
        Mode::On => (2, 0),
        Mode::Cooling(remaining) => (3, remaining),
        Mode::Service(remaining) => (4, remaining),
    };
    let counts = [
        tag,
        remaining,
        set.run_seconds,
        set.service_clock,
        set.starts,
        set.stops,
    ];
    let mut numbers: Vec<u64> = counts.map(u64::from).to_vec();
    numbers.extend([set.energy, set.fuel]);
    numbers
}

/// The answer line of a case, without LF: answer, record handed back, row.
pub fn answer(case: &SecondCase) -> String {
    let mut record = case.record;
    let mut buffer = vec![0; case.buffer_length.min(LONGEST_BUFFER) as usize];
    let outcome = second(&case.station, &mut record, &case.inputs, &mut buffer);
    let (said, length) = match outcome {
        Ok(length) => (format!("row,{length}"), length),
        Err(refusal) => (refusal.to_string(), 0),
    };
    if matches!(record.held, Held::Present(number) if number.is_nan()) {
        record.held = Held::Present(f64::from_bits(NAN_BITS));
    }
    let row = hex::write(buffer.get(..length).unwrap_or(&[]));
    format!("{said};{};{row}", join(&record_numbers(&record)))
}

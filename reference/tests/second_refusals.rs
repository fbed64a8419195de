//! Refusals 19, 20 and 23 to 26 of a second, their order, and what a refused
//! call leaves alone (readings D21 to D27).

mod station_a;

use reference::refusal::Refusal;
use reference::run_record::{Held, Mode, RunRecord};
use reference::second::second;
use reference::station::Station;
use station_a::{inputs, station, work};

/// The number of a refused second; the record and the buffer must stay.
fn refusal_of(station: &Station, record: &RunRecord, watts: [u32; 3], length: usize) -> u8 {
    let mut handed = *record;
    let mut buffer = vec![7; length];
    let asked = inputs(watts[0], watts[1], watts[2]);
    let outcome = second(station, &mut handed, &asked, &mut buffer);
    let Err(Refusal { number, place: 0 }) = outcome else {
        panic!("not refused with place 0: {outcome:?}");
    };
    assert_eq!(handed, *record);
    assert!(buffer.iter().all(|byte| *byte == 7));
    number
}

/// The refusal of an otherwise good second from this record.
fn refusal_from(record: &RunRecord) -> u8 {
    refusal_of(&station(), record, [1, 1, 1], 256)
}

/// A record of station A after some seconds.
fn running() -> RunRecord {
    let mut record = RunRecord::start(&station());
    for _ in 0..10 {
        work(&station(), &mut record, inputs(75_000, 10_000, 5_000));
    }
    record
}

/// Refused with 24 after the change.
fn impossible(change: impl Fn(&mut RunRecord)) {
    let mut record = running();
    change(&mut record);
    assert_eq!(refusal_from(&record), 24);
}

/// Accepted after the change.
fn possible(change: impl Fn(&mut RunRecord)) {
    let mut record = running();
    change(&mut record);
    work(&station(), &mut record, inputs(1, 1, 1));
}

#[test]
fn refusal_19_and_20_reading_d25() {
    let record = running();
    let over = 50_000_001;
    for watts in [
        [over, 0, 0],
        [0, over, 0],
        [over, 0, over],
        [0, 0, over],
        [u32::MAX; 3],
    ] {
        assert_eq!(refusal_of(&station(), &record, watts, 256), 19);
    }
    assert_eq!(refusal_of(&station(), &record, [0, 0, 1], 256), 20);
    assert_eq!(
        refusal_of(&station(), &record, [49_999_999, 0, 50_000_000], 256),
        20
    );
    let mut record = record;
    work(
        &station(),
        &mut record,
        inputs(50_000_000, 50_000_000, 50_000_000),
    );
}

#[test]
fn refusal_23_reading_d24() {
    let mut record = running();
    record.done = 316_224_000;
    assert_eq!(refusal_from(&record), 23);
    record.done = 316_224_001;
    assert_eq!(refusal_from(&record), 24);
    record.done = 316_223_999;
    let row = work(&station(), &mut record, inputs(1, 1, 1));
    assert_eq!((row[0], record.done), (316_223_999, 316_224_000));
}

#[test]
fn refusal_24_store_and_call() {
    impossible(|record| record.store = 9_000_001);
    possible(|record| record.store = 9_000_000);
    impossible(|record| record.called = 4);
    impossible(|record| record.called = u32::MAX);
    impossible(|record| record.since = 11);
    // D23: nothing called may have any since-second up to done.
    possible(|record| (record.called, record.since) = (0, 10));
    let mut least = station();
    least.battery.least = 1_000_000;
    let mut record = RunRecord::start(&least);
    record.store = 999_999;
    assert_eq!(refusal_of(&least, &record, [1, 1, 1], 256), 24);
}

#[test]
fn refusal_24_modes_reading_d22() {
    possible(|record| record.sets[0].mode = Mode::Warming(2));
    impossible(|record| record.sets[0].mode = Mode::Warming(3));
    impossible(|record| record.sets[0].mode = Mode::Warming(0));
    possible(|record| record.sets[0].mode = Mode::Cooling(1));
    impossible(|record| record.sets[0].mode = Mode::Cooling(2));
    impossible(|record| record.sets[0].mode = Mode::Cooling(0));
    // No service mode at interval 0.
    impossible(|record| record.sets[0].mode = Mode::Service(1));
    impossible(|record| record.sets[0].mode = Mode::Service(0));
}

#[test]
fn refusal_24_counts_of_a_set() {
    possible(|record| record.sets[1].run_seconds = 10);
    impossible(|record| record.sets[1].run_seconds = 11);
    impossible(|record| record.sets[1].service_clock = 11);
    impossible(|record| record.sets[1].starts = 11);
    impossible(|record| record.sets[1].stops = 11);
    possible(|record| record.sets[1].energy = 600_000);
    impossible(|record| record.sets[1].energy = 600_001);
    possible(|record| record.sets[1].fuel = 150_000_000_000);
    impossible(|record| record.sets[1].fuel = 150_000_000_001);
    impossible(|record| record.sets[1].fuel = u64::MAX);
}

#[test]
fn refusal_24_totals_reading_d21() {
    possible(|record| record.totals.load = 500_000_000);
    impossible(|record| record.totals.solar_offered = 500_000_001);
    impossible(|record| record.totals.load = 500_000_001);
    impossible(|record| record.totals.shed = 500_000_001);
    impossible(|record| record.totals.solar = 500_000_001);
    impossible(|record| record.totals.charge = 500_000_001);
    impossible(|record| record.totals.spill = 500_000_001);
    impossible(|record| record.totals.give = 500_000_001);
    impossible(|record| record.totals.diesel = 500_000_001);
    impossible(|record| record.totals.unserved = u64::MAX);
}

#[test]
fn refusal_24_beyond_the_delay_and_the_sets() {
    possible(|record| record.decided[0] = 50_000_000);
    impossible(|record| record.decided[0] = 50_000_001);
    impossible(|record| record.decided[1] = 1);
    impossible(|record| record.decided[59] = 1);
    impossible(|record| record.sets[2].mode = Mode::On);
    impossible(|record| record.sets[7].mode = Mode::Cooling(1));
    impossible(|record| record.sets[2].run_seconds = 1);
    impossible(|record| record.sets[7].fuel = 1);
}

#[test]
fn refusal_25_station() {
    let mut broken = station();
    broken.control.shed_delay = 0;
    assert_eq!(refusal_of(&broken, &running(), [1, 1, 1], 256), 25);
}

#[test]
fn refusal_26_reading_d26() {
    let record = running();
    for length in [0, 1, 255] {
        assert_eq!(refusal_of(&station(), &record, [1, 1, 1], length), 26);
    }
    let mut buffer = [7; 300];
    let mut record = record;
    let length = second(&station(), &mut record, &inputs(1, 1, 1), &mut buffer);
    let length = length.expect("an accepted second");
    assert_eq!(buffer[length - 1], b'\n');
    assert!(buffer[length..].iter().all(|byte| *byte == 7));
    assert!(!buffer[..length].contains(&7));
}

#[test]
fn the_order_25_24_23_19_20_26() {
    let mut broken = station();
    broken.battery.efficiency = 0;
    let mut ended = running();
    ended.done = 316_224_000;
    let mut wrong = ended;
    wrong.store = u64::MAX;
    let both = [0, 50_000_001, 1];
    assert_eq!(refusal_of(&broken, &wrong, both, 0), 25);
    assert_eq!(refusal_of(&station(), &wrong, both, 0), 24);
    assert_eq!(refusal_of(&station(), &ended, both, 0), 23);
    assert_eq!(refusal_of(&station(), &running(), both, 0), 19);
    assert_eq!(refusal_of(&station(), &running(), [0, 0, 1], 0), 20);
    assert_eq!(refusal_of(&station(), &running(), [1, 0, 1], 0), 26);
}

#[test]
fn reading_d27_all_nan_are_one_and_zeros_are_two() {
    let quiet = Held::Present(f64::NAN);
    let other = Held::Present(f64::from_bits(0xfff0_0000_0000_0001));
    assert_eq!(quiet, other);
    assert_ne!(Held::Present(0.0), Held::Present(-0.0));
    assert_ne!(Held::Absent, quiet);
    for held in [quiet, other, Held::Absent, Held::Present(f64::INFINITY)] {
        possible(|record| record.held = held);
    }
}

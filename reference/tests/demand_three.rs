//! Demand 3 over generated stations and lists of seconds, refused ones
//! included: the sums, the limits, the unserved clause, the called
//! configuration and the fuel bound, read from the rows alone where it says so.

mod station_a;

use reference::configuration::{covers, usable};
use reference::dispatch::Inputs;
use reference::generator::good_stations;
use reference::generator::random::Random;
use reference::generator::records::good_inputs;
use reference::run_record::{Held, RunRecord};
use reference::second::second;
use reference::share::shares;
use reference::station::{Genset, Station};
use station_a::column;

/// What the accepted rows of one list add up to.
#[derive(Default)]
struct Sums {
    handed_load: u64,
    offered: u64,
    columns: [u64; 9],
    exact_fuel: [i128; 8],
    run_seconds: [i128; 8],
}

/// The exact curve, zero below zero, times the rating and the product of the
/// steps between its points' loads.
fn exact_curve(genset: &Genset, watts: u64) -> i128 {
    let points = genset.used_points();
    let rating = i128::from(genset.rating);
    let at = 1_000 * i128::from(watts);
    let below = |index: &usize| i128::from(points[*index].load) * rating <= at;
    let line = (0..points.len() - 1).filter(below).max().unwrap_or(0);
    let (lower, upper) = (points[line], points[line + 1]);
    let step = i128::from(upper.load - lower.load);
    let on_line = i128::from(lower.rate) * step * rating
        + (i128::from(upper.rate) - i128::from(lower.rate))
            * (at - i128::from(lower.load) * rating);
    on_line.max(0) * (product_of_steps(genset) / step)
}

fn product_of_steps(genset: &Genset) -> i128 {
    let pairs = genset.used_points().windows(2);
    pairs
        .map(|pair| i128::from(pair[1].load - pair[0].load))
        .product()
}

/// Inputs of any size; about one second in eight is refused.
fn any_inputs(random: &mut Random, station: &Station) -> (Inputs, usize) {
    let mut inputs = good_inputs(random, station);
    match random.between(0, 23) {
        0 => inputs.load = random.between32(50_000_001, u32::MAX),
        1 => inputs.sheddable = inputs.load.saturating_add(1),
        _ => (),
    }
    (inputs, random.pick([256, 256, 256, 256, 300, 255]))
}

/// Adds an accepted row to the sums.
fn add(sums: &mut Sums, station: &Station, inputs: &Inputs, row: &[u64]) {
    sums.handed_load += u64::from(inputs.load);
    sums.offered += u64::from(inputs.solar);
    for (sum, number) in sums.columns.iter_mut().zip(row) {
        *sum += number;
    }
    let mask = column(row, "on") as u8;
    let watts = shares(station, mask, column(row, "diesel"));
    for (index, genset) in station.existing_sets().enumerate() {
        if mask >> index & 1 == 1 {
            sums.exact_fuel[index] += exact_curve(genset, watts[index]);
            sums.run_seconds[index] += 1;
        }
    }
}

/// The clauses about one row; `store` is the store a row earlier.
fn check_row(station: &Station, store: u64, row: &[u64], record: &RunRecord) {
    let battery = &station.battery;
    assert!((battery.least..=battery.most).contains(&column(row, "store")));
    // D15: never giving and charging at once.
    assert!(column(row, "give") == 0 || column(row, "charge") == 0);
    if column(row, "unserved") > 0 {
        let mask = column(row, "on") as u8;
        let watts = shares(station, mask, column(row, "diesel"));
        for (index, genset) in station.existing_sets().enumerate() {
            assert!(mask >> index & 1 == 0 || watts[index] == u64::from(genset.rating));
        }
        assert_eq!(column(row, "spill") + column(row, "charge"), 0);
        let allowed = u64::from(battery.power).min((store - battery.least) / 100);
        assert_eq!(column(row, "give"), allowed);
    }
    let Held::Present(held) = record.held else {
        panic!("an accepted second holds a setpoint");
    };
    let fits = |one: u32| usable(station, record, one) && covers(station, one, held);
    let some = (1..=station.configurations).any(fits);
    assert!(!some || fits(column(row, "call") as u32));
}

/// The clauses about the whole list.
fn check_sums(station: &Station, sums: &Sums, record: &RunRecord) {
    let [_, load, shed, solar, charge, spill, give, diesel, unserved] = sums.columns;
    assert_eq!(sums.handed_load, load);
    assert_eq!(load, diesel + solar + give + shed + unserved);
    assert_eq!(sums.offered, solar + charge + spill);
    let efficiency = u64::from(station.battery.efficiency);
    let store = station.battery.start + efficiency * charge - 100 * give;
    assert_eq!(record.store, store);
    for (index, genset) in station.existing_sets().enumerate() {
        let scale = i128::from(genset.rating) * product_of_steps(genset);
        let fuel = i128::from(record.sets[index].fuel);
        let exact = sums.exact_fuel[index];
        assert!(fuel * scale <= exact);
        assert!(exact <= (fuel + sums.run_seconds[index]) * scale);
    }
}

/// One list of seconds from a station's start; answers how many were refused
/// and how many rows had load unserved.
fn check_list(random: &mut Random, station: &Station, seconds: u32) -> (u32, u32) {
    let mut record = RunRecord::start(station);
    let mut sums = Sums::default();
    let (mut refused, mut unserved) = (0, 0);
    for _ in 0..seconds {
        let before = record;
        let (inputs, length) = any_inputs(random, station);
        let mut buffer = vec![0; length];
        let Ok(length) = second(station, &mut record, &inputs, &mut buffer) else {
            assert_eq!(record, before);
            refused += 1;
            continue;
        };
        assert_eq!(record.done, before.done + 1);
        assert!(record.possible(station));
        let text = String::from_utf8_lossy(&buffer[..length - 1]).into_owned();
        let row: Vec<u64> = text
            .split(',')
            .filter_map(|cell| cell.parse().ok())
            .collect();
        add(&mut sums, station, &inputs, &row);
        check_row(station, before.store, &row, &record);
        unserved += u32::from(column(&row, "unserved") > 0);
    }
    check_sums(station, &sums, &record);
    (refused, unserved)
}

#[test]
fn demand_3_over_lively_stations() {
    let mut random = Random::from_seed(3);
    let (mut refused, mut unserved) = (0, 0);
    for _ in 0..600 {
        let station = good_stations::lively(&mut random);
        let list = check_list(&mut random, &station, 250);
        refused += list.0;
        unserved += list.1;
    }
    assert!(refused > 10_000 && unserved > 10_000);
}

#[test]
fn demand_3_over_wide_stations() {
    let mut random = Random::from_seed(33);
    for _ in 0..300 {
        let station = good_stations::wide(&mut random);
        check_list(&mut random, &station, 120);
    }
}

//! Readings D1 to D20: how the eleven steps move a record.

mod station_a;

use reference::configuration::choose;
use reference::dispatch::sums;
use reference::fuel::rate;
use reference::run_record::{Held, Mode, RunRecord};
use reference::setpoint::filtered;
use reference::station::{Genset, Point, Station};
use station_a::{column, inputs, station, work};

/// One set of 1,000 W that is on line from the start, due after `interval`.
fn one_set(interval: u32) -> Station {
    let mut station = station();
    station.sets = 1;
    station.configurations = 1;
    station.control.start_mask = 1;
    station.gensets[1] = Genset::default();
    station.gensets[0].rating = 1_000;
    station.gensets[0].service_interval = interval;
    station.gensets[0].service_time = if interval == 0 { 0 } else { 2 };
    station.masks = [0; 64];
    station.masks[0] = 1;
    assert!(station.given_by_a_file());
    station
}

/// Station A with service at set 2, which is on line from the start.
fn service_at_set_2(interval: u32) -> Station {
    let mut station = station();
    station.gensets[1].service_interval = interval;
    station.gensets[1].service_time = 5;
    assert!(station.given_by_a_file());
    station
}

#[test]
fn d1_time_of_a_row() {
    let mut record = RunRecord::start(&station());
    for time in 0..3 {
        assert_eq!(
            column(&work(&station(), &mut record, inputs(1, 0, 0)), "t"),
            time
        );
    }
}

#[test]
fn d2_minimum_seconds() {
    let mut record = RunRecord::start(&station());
    let (mut calls, mut sinces) = (Vec::new(), Vec::new());
    for load in [40_000, 75_000, 75_000, 30_000, 30_000] {
        calls.push(column(
            &work(&station(), &mut record, inputs(load, 0, 0)),
            "call",
        ));
        sinces.push(record.since);
    }
    assert_eq!(calls, [1, 2, 2, 2, 1]);
    assert_eq!(sinces, [0, 1, 1, 1, 4]);
}

#[test]
fn d2_minimum_0_is_as_minimum_1() {
    let [mut zero, mut one] = [station(); 2];
    zero.control.minimum_seconds = 0;
    one.control.minimum_seconds = 1;
    let [mut zero_record, mut one_record] = [RunRecord::start(&zero); 2];
    for second in 0..60_u32 {
        let handed = inputs(30_000 + second * 7_919 % 90_000, 10_000, 5_000);
        assert_eq!(
            work(&zero, &mut zero_record, handed),
            work(&one, &mut one_record, handed)
        );
    }
}

#[test]
fn d3_configuration_0_is_never_kept() {
    let mut station = station();
    station.control.minimum_seconds = 86_400;
    let mut record = RunRecord::start(&station);
    assert_eq!((record.called, record.since), (0, 0));
    assert_eq!(
        column(&work(&station, &mut record, inputs(1, 0, 0)), "call"),
        1
    );
}

#[test]
fn d4_d6_d9_a_single_set_goes_through_service() {
    let station = one_set(2);
    let mut record = RunRecord::start(&station);
    let mut seen = Vec::new();
    for _ in 0..7 {
        let row = work(&station, &mut record, inputs(500, 0, 0));
        seen.push((
            column(&row, "call"),
            record.sets[0].mode,
            record.sets[0].service_clock,
        ));
    }
    let expected = [
        (1, Mode::On, 1),
        // Due at clock 2: no configuration is usable, all sets On go Cooling.
        (0, Mode::Cooling(1), 2),
        (0, Mode::Service(2), 2),
        (0, Mode::Service(1), 2),
        // Off in step 1, called in step 10, Warming in step 11.
        (1, Mode::Warming(2), 0),
        (1, Mode::Warming(1), 0),
        (1, Mode::On, 1),
    ];
    assert_eq!(seen, expected);
    assert_eq!((record.sets[0].starts, record.sets[0].stops), (1, 1));
}

#[test]
fn d5_a_started_set_is_not_stopped_in_the_same_second() {
    let mut record = RunRecord::start(&station());
    work(&station(), &mut record, inputs(100_000, 0, 0));
    // Configuration 2 or 3 is called; set 2 stays On until set 1 is.
    assert_eq!(record.sets[0].mode, Mode::Warming(2));
    assert_eq!((record.sets[0].starts, record.sets[0].stops), (1, 0));
    assert_eq!(record.sets[1].mode, Mode::On);
}

#[test]
fn d7_a_due_set_stays_on_until_the_called_ones_are() {
    let station = service_at_set_2(1);
    let mut record = RunRecord::start(&station);
    for clock in 1..=2 {
        work(&station, &mut record, inputs(30_000, 0, 0));
        assert_eq!((record.called, record.sets[1].mode), (2, Mode::On));
        assert_eq!(record.sets[1].service_clock, clock);
    }
    work(&station, &mut record, inputs(30_000, 0, 0));
    assert_eq!(
        (record.sets[0].mode, record.sets[1].mode),
        (Mode::On, Mode::Cooling(1))
    );
    assert_eq!(
        (record.sets[1].service_clock, record.sets[1].run_seconds),
        (3, 3)
    );
}

/// Station A with set 2 due in some mode, after one second at a small load.
fn due_set_2(mode: Mode) -> RunRecord {
    let station = service_at_set_2(1);
    let mut record = RunRecord::start(&station);
    record.done = 10;
    record.sets[0].mode = Mode::On;
    record.sets[1].mode = mode;
    record.sets[1].service_clock = 5;
    work(&station, &mut record, inputs(30_000, 0, 0));
    record
}

#[test]
fn d8_due_sets_that_no_run_reaches() {
    let off = due_set_2(Mode::Off);
    assert_eq!(
        (off.called, off.sets[1].mode, off.sets[1].starts),
        (2, Mode::Off, 0)
    );
    let warm = due_set_2(Mode::Warming(1));
    // Warming 1 becomes On in step 1, and then cools down as it is not called.
    assert_eq!(
        (warm.sets[1].mode, warm.sets[1].stops),
        (Mode::Cooling(1), 1)
    );
    let mut station = service_at_set_2(1);
    station.gensets[1].warm_up = 5;
    let mut record = due_set_2(Mode::Off);
    record.sets[1].mode = Mode::Warming(5);
    work(&station, &mut record, inputs(30_000, 0, 0));
    assert_eq!((record.sets[1].mode, record.sets[1].stops), (Mode::Off, 1));
}

#[test]
fn d10_a_cooling_set_is_usable_and_started_when_off() {
    let mut station = station();
    station.gensets[1].cool_down = 2;
    let mut record = RunRecord::start(&station);
    record.sets[0].mode = Mode::On;
    record.sets[1].mode = Mode::Cooling(2);
    work(&station, &mut record, inputs(30_000, 0, 0));
    assert_eq!((record.called, record.sets[1].mode), (1, Mode::Cooling(1)));
    // Not every called set is On, so set 1 stays.
    assert_eq!(record.sets[0].mode, Mode::On);
    work(&station, &mut record, inputs(30_000, 0, 0));
    assert_eq!(
        (record.sets[1].mode, record.sets[1].starts),
        (Mode::Warming(1), 1)
    );
}

#[test]
fn d11_the_clock_counts_without_an_interval() {
    let station = one_set(0);
    let mut record = RunRecord::start(&station);
    for clock in 1..=5 {
        work(&station, &mut record, inputs(500, 0, 0));
        assert_eq!(record.sets[0].service_clock, clock);
    }
}

#[test]
fn d12_shed_after_the_delay() {
    let mut station = station();
    station.control.shed_delay = 3;
    let mut record = RunRecord::start(&station);
    let mut shed = Vec::new();
    for sheddable in [1_000, 2_000, 3_000, 9_000, 9_000, 9_000, 0] {
        let row = work(&station, &mut record, inputs(200_000, 0, sheddable));
        shed.push(column(&row, "shed"));
    }
    assert_eq!(shed, [0, 0, 0, 1_000, 2_000, 3_000, 0]);
    assert_eq!(record.decided[..4], [9_000, 9_000, 0, 0]);
}

#[test]
fn d13_shed_decided_stands_on_the_whole_load() {
    let mut station = station();
    station.control.shed = 100;
    let mut record = RunRecord::start(&station);
    work(&station, &mut record, inputs(65_000, 0, 5_000));
    assert_eq!(record.decided[0], 5_000);
    let row = work(&station, &mut record, inputs(65_000, 0, 5_000));
    assert_eq!((column(&row, "shed"), record.decided[0]), (5_000, 5_000));
}

#[test]
fn d14_percentages_round_down() {
    let mut station = station();
    station.gensets[1].rating = 60_001;
    station.control.minimum_load = 33;
    station.control.shed = 33;
    let mut record = RunRecord::start(&station);
    assert_eq!(sums(&station, &record).floor_load, 19_800);
    work(&station, &mut record, inputs(19_801, 0, 19_801));
    assert_eq!(record.decided[0], 1);
}

#[test]
fn d16_no_set_on() {
    let mut station = station();
    station.control.start_mask = 0;
    let mut record = RunRecord::start(&station);
    let row = work(&station, &mut record, inputs(50_000, 20_000, 0));
    assert_eq!(
        row[1..11],
        [50_000, 0, 20_000, 0, 0, 10_000, 0, 20_000, 0, 0]
    );
    let row = work(
        &station,
        &mut RunRecord::start(&station),
        inputs(0, 5_000, 0),
    );
    assert_eq!((column(&row, "charge"), column(&row, "diesel")), (5_000, 0));
}

/// A set of 1,000 W with these points.
fn genset(points: &[(u32, u32)]) -> Genset {
    let mut genset = Genset {
        rating: 1_000,
        points: points.len() as u32,
        ..Genset::default()
    };
    for (point, (load, rate)) in genset.curve.iter_mut().zip(points) {
        *point = Point {
            load: *load,
            rate: *rate,
        };
    }
    genset
}

#[test]
fn d17_rates_at_between_and_outside_the_points() {
    let genset = genset(&[(200, 1_000), (400, 500), (800, 2_500)]);
    let watts = [200, 300, 400, 401, 800, 1_000, 0, 100];
    let rates = watts.map(|power| rate(&genset, power));
    assert_eq!(rates, [1_000, 750, 500, 505, 2_500, 3_500, 1_500, 1_250]);
    // Rounded down, and zero below zero.
    assert_eq!(rate(&self::genset(&[(0, 0), (3, 1)]), 2), 0);
    assert_eq!(rate(&self::genset(&[(0, 10), (100, 0)]), 101), 0);
}

#[test]
fn d18_the_greatest_rate() {
    let genset = genset(&[(1_499, 10_000_000), (1_500, 0)]);
    assert_eq!(rate(&genset, 0), 15_000_000_000);
}

#[test]
fn d19_the_filter() {
    assert_eq!(filtered(700, Held::Absent, 123), 123.0);
    let expected = 1e5 * (700.0 / 1000.0) + 123.0 * (300.0 / 1000.0);
    assert_eq!(
        filtered(700, Held::Present(1e5), 123).to_bits(),
        f64::to_bits(expected)
    );
    assert!(filtered(0, Held::Present(f64::INFINITY), 123).is_nan());
    assert!(filtered(0, Held::Present(f64::NAN), 123).is_nan());
    assert_eq!(filtered(0, Held::Present(-5.0), 123), 123.0);
}

#[test]
fn d20_strange_setpoints() {
    let mut station = station();
    station.control.minimum_seconds = 86_400;
    let mut record = RunRecord::start(&station);
    record.called = 1;
    assert_eq!(choose(&station, &record, f64::NAN), 3);
    assert_eq!(choose(&station, &record, f64::INFINITY), 3);
    record.called = 0;
    for held in [-1.0, -0.0, 0.0, f64::NEG_INFINITY] {
        assert_eq!(choose(&station, &record, held), 1);
    }
}

#[test]
fn the_greatest_capacity_is_the_first_of_equals() {
    let mut station = station();
    station.masks[..3].copy_from_slice(&[2, 3, 3]);
    assert_eq!(choose(&station, &RunRecord::start(&station), 1e9), 2);
}

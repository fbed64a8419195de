//! P1 to P12 of document 01 and the cases that are run only.

mod station_a;

use reference::configuration::choose;
use reference::dispatch::{battery_charges, battery_gives};
use reference::run_record::RunRecord;
use reference::setpoint::reserve;
use reference::share::shares;
use reference::sizing;
use reference::station::{Battery, Control, Genset, Point, Station};
use reference::{fuel, station_file};
use station_a::{check_rows, check_samples, check_station, file, printed, refused};

const P1: &str = "t,load,shed,solar,charge,spill,give,diesel,unserved,on,sets,call,store
0,40000,0,10000,0,0,0,30000,0,2,1,1,1000000
1,75000,0,10000,0,0,5000,60000,0,2,1,2,500000
2,75000,5000,10000,0,0,0,60000,0,2,1,2,500000
3,30000,5000,0,20000,20000,0,25000,0,3,2,2,2300000
4,30000,0,0,20000,20000,0,30000,0,1,1,1,4100000
set,run,starts,stops,energy,fuel
1,2,1,0,45625,15406
2,4,1,1,159375,45843
";

#[test]
fn p1_station_a_for_five_seconds() {
    assert_eq!(printed(&file(), station_a::SAMPLES, b"5"), P1);
}

#[test]
fn p2_shares_of_two_sets() {
    assert_eq!(sizing::share(&file(), 3, 25_000, 1), Ok(15_625));
    assert_eq!(sizing::share(&file(), 3, 25_000, 2), Ok(9_375));
}

#[test]
fn p3_one_watt_over_three_equal_sets() {
    let mut station = Station {
        sets: 3,
        ..Station::default()
    };
    for genset in station.gensets.iter_mut().take(3) {
        genset.rating = 10_000;
    }
    assert_eq!(shares(&station, 7, 1), [0, 0, 1, 0, 0, 0, 0, 0]);
}

#[test]
fn p4_rate_of_set_1() {
    assert_eq!(sizing::rate(&file(), 1, 15_625), Ok(5_906));
}

#[test]
fn p5_rate_below_zero_is_zero() {
    let mut genset = Genset {
        rating: 100_000,
        points: 2,
        ..Genset::default()
    };
    genset.curve[0] = Point { load: 500, rate: 0 };
    genset.curve[1] = Point {
        load: 1_000,
        rate: 10_000,
    };
    assert_eq!(fuel::rate(&genset, 0), 0);
}

#[test]
fn p6_room_for_a_charge() {
    let battery = Battery {
        power: 50_000_000,
        efficiency: 90,
        most: 8_500_000,
        ..Battery::default()
    };
    assert_eq!(battery_charges(&battery, 0, 50_000_000), 94_444);
}

#[test]
fn p7_content_to_give() {
    let battery = Battery {
        power: 50_000_000,
        efficiency: 90,
        most: 9_000_000,
        ..Battery::default()
    };
    assert_eq!(battery_gives(&battery, 1_000_099, 50_000_000), 10_000);
}

#[test]
fn p8_reserve_with_live_sheddable_load() {
    let mut control = Control {
        spinning_reserve: 10_000,
        solar_coverage: 50,
        ..Control::default()
    };
    assert_eq!(reserve(&control, 10_001, 12_000), 0);
    control.maintain = 1;
    assert_eq!(reserve(&control, 10_001, 12_000), 10_000);
}

/// What table A calls with nothing called before.
fn called_at(held: f64) -> u32 {
    let station = station_file::read(&file()).expect("station A is accepted");
    choose(&station, &RunRecord::start(&station), held)
}

#[test]
fn p9_held_at_the_capacity() {
    assert_eq!(called_at(60_000.0), 1);
}

#[test]
fn p10_held_above_the_capacity() {
    assert_eq!(called_at(60_001.0), 2);
}

#[test]
fn p11_held_above_every_capacity() {
    assert_eq!(called_at(170_000.0), 3);
}

#[test]
fn p12_a_blank_heading() {
    let sheet = b"t,LoadP,,PvAvailP,ShedLoadP\n0,1,1,1,1\n";
    assert_eq!(check_samples(sheet), refused(12, 1));
}

#[test]
fn run_only_power_at_its_limit() {
    assert_eq!(check_rows("0,50000,0,0\n"), None);
    assert_eq!(check_rows("0,50000.001,0,0\n"), refused(19, 2));
}

#[test]
fn run_only_station_of_164_bytes() {
    assert_eq!(check_station(&[0; 164]), refused(1, 0));
}

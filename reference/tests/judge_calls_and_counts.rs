//! The judge of demand 3 on hand-made texts: called configurations, clocks, setpoint,
//! and the sets' lines.

mod judged_text;
mod station_a;

use judged_text::{said, said_of, sheet, text, LINES, ROWS};
use reference::generator::encode::station_bytes;
use station_a::{filtered, with, with4, CONTROL, FILTERED_SAMPLES, SAMPLES, SET_2};

#[test]
fn called() {
    // 0, a configuration too small, one past the table's end.
    assert_eq!(
        said_of(&[("0,1,1,1,4100000", "0,1,1,0,4100000")]),
        "broken,called,6"
    );
    assert_eq!(
        said_of(&[("0,2,1,2,500000\n2", "0,2,1,1,500000\n2")]),
        "broken,called,3"
    );
    assert_eq!(
        said_of(&[("0,1,1,1,4100000", "0,1,1,4,4100000")]),
        "broken,called,6"
    );
    // Another that serves: the row may call it, but set 2 was started, and is not then.
    assert_eq!(
        said_of(&[("0,1,1,1,4100000", "0,1,1,2,4100000")]),
        "broken,counts,9"
    );
    let no_start = [
        ("0,1,1,1,4100000", "0,1,1,2,4100000"),
        ("2,4,1,1", "2,4,0,1"),
    ];
    assert_eq!(said_of(&no_start), "holds");
}

#[test]
fn called_at_the_edge_of_covering() {
    // P9 and P10, and P11: nothing to spare, no reserve.
    let spinning_none = with4(CONTROL, 0);
    let judged = |load: &str, row: &str, lines: [&str; 2]| {
        said(
            &spinning_none,
            &sheet(load, "0", "0"),
            "1",
            &text(&[row], &lines),
        )
    };
    let one = ["1,0,0,0,0,0", "2,1,0,0,60000,16500"];
    assert_eq!(
        judged("60", "0,60000,0,0,0,0,0,60000,0,2,1,1,1000000", one),
        "holds"
    );
    let two = ["1,0,1,0,0,0", "2,1,0,0,60000,16500"];
    assert_eq!(
        judged("60.001", "0,60001,0,0,0,0,1,60000,0,2,1,2,999900", two),
        "holds"
    );
    assert_eq!(
        judged("60.001", "0,60001,0,0,0,0,1,60000,0,2,1,1,999900", one),
        "broken,called,2"
    );
    // Above 170,000 W none covers, and none is judged.
    let row = |call: u32| format!("0,170001,0,0,0,0,10000,60000,100001,2,1,{call},0");
    assert_eq!(judged("170.001", &row(1), one), "holds");
    assert_eq!(judged("170.001", &row(3), two), "holds");
    assert_eq!(judged("170.001", &row(4), two), "broken,called,2");
}

/// P8's reserve: spinning 10,000, coverage 50 % of 10,001 W, live 12,000: 0, and with
/// maintain 10,000. R is 55,001 W, and configuration 1 has 60,000 W. Coverage of all of
/// 10,001 W less the live 5,000 is 5,001 with maintain, and with no spinning reserve.
#[test]
fn reserve_with_live_load_and_maintain() {
    let called_1 = |spinning: u32, coverage: u32, maintain: u32, live: &str| {
        let mut station = station_a::station();
        station.control.spinning_reserve = spinning;
        station.control.solar_coverage = coverage;
        station.control.maintain = maintain;
        let rows = ["0,65002,0,10001,0,0,0,55001,0,2,1,1,1000000"];
        let lines = ["1,0,0,0,0,0", "2,1,0,0,55001,15250"];
        let sheet = sheet("65.002", "10.001", live);
        said(&station_bytes(&station), &sheet, "1", &text(&rows, &lines))
    };
    assert_eq!(called_1(10_000, 50, 0, "12"), "holds");
    assert_eq!(called_1(10_000, 50, 1, "12"), "broken,called,2");
    assert_eq!(called_1(0, 100, 1, "5"), "broken,called,2");
    assert_eq!(called_1(0, 100, 1, "5.002"), "holds");
    // 50 % of 10,001 W is 5,001 W, rounded up; 4,999 W are to spare.
    assert_eq!(called_1(0, 50, 0, "0.001"), "broken,called,2");
    assert_eq!(called_1(0, 50, 0, "0.002"), "holds");
}

#[test]
fn clocks_not_followed() {
    let samples = std::str::from_utf8(SAMPLES).expect("ASCII");
    let rows = text(&ROWS, &LINES);
    let interval = |seconds: u32| {
        let numbers = [seconds, 5].map(u32::to_le_bytes).concat();
        with(SET_2 + 12, &numbers)
    };
    // Set 2 runs four seconds and cools one. With an interval of 4 it is in service in
    // row 4, which may not call it; with 5 it is not due yet.
    assert_eq!(said(&interval(5), samples, "5", &rows), "holds");
    assert_eq!(said(&interval(4), samples, "5", &rows), "broken,called,6");
    // With 1 it is due in row 0, which calls it.
    assert_eq!(said(&interval(1), samples, "5", &rows), "broken,called,2");
}

#[test]
fn setpoint_rounded_five_times() {
    let row = |call: u32| format!("1,165662,0,0,0,0,0,165662,0,3,2,{call},1000000");
    let energy = [84_662, 165_662].map(|diesel: u64| diesel * 100_619 / 200_619);
    let first = energy.iter().sum::<u64>();
    let lines = [
        format!("1,2,0,0,{first},0"),
        format!("2,2,0,0,{},0", 250_324 - first),
    ];
    let judged = |call: u32| {
        let rows = ["0,84662,0,0,0,0,0,84662,0,3,2,2,1000000", &row(call)];
        let text = text(&rows, &[&lines[0], &lines[1]]);
        said(&station_bytes(&filtered()), FILTERED_SAMPLES, "2", &text)
    };
    assert_eq!(judged(2), "holds");
    assert_eq!(judged(1), "broken,called,3");
}

#[test]
fn fuel_between_the_exact_sum_and_a_unit_a_second_below() {
    // Set 1 ran at 15,625 W and 30,000 W: 5,906.25 and 9,500. Set 2's sum is 45,843.75.
    for (fuel, answer) in [
        (15_407, "broken,fuel,8"),
        (15_406, "holds"),
        (15_405, "holds"),
        (15_404, "broken,fuel,8"),
    ] {
        let line = format!("45625,{fuel}");
        assert_eq!(said_of(&[("45625,15406", &line)]), answer, "{fuel}");
    }
    for (fuel, answer) in [
        (45_844, "broken,fuel,9"),
        (45_840, "holds"),
        (45_839, "broken,fuel,9"),
    ] {
        let line = format!("159375,{fuel}");
        assert_eq!(said_of(&[("159375,45843", &line)]), answer, "{fuel}");
    }
}

#[test]
fn counts() {
    for (old, new) in [
        ("1,2,1,0,45625", "1,3,1,0,45625"),
        ("1,2,1,0,45625", "1,2,2,0,45625"),
        ("1,2,1,0,45625", "1,2,1,1,45625"),
        ("1,2,1,0,45625", "1,2,1,0,45624"),
    ] {
        assert_eq!(said_of(&[(old, new)]), "broken,counts,8", "{new}");
    }
    // Shares rounded alone: 1 W over two sets, which neither would then carry.
    let both = with4(CONTROL + 32, 3);
    let row = "0,1,0,0,0,0,0,1,0,3,2,3,1000000";
    let judged = |set_2: &str| {
        let lines = ["1,1,0,0,0,2000", set_2];
        said(&both, &sheet("0.001", "0", "0"), "1", &text(&[row], &lines))
    };
    assert_eq!(judged("2,1,0,0,1,1500"), "holds");
    assert_eq!(judged("2,1,0,0,0,1500"), "broken,counts,5");
}

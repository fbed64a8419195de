//! Refusals 1 to 8 with their places, and the readings A1 to A7.

mod station_a;

use station_a::{check_station, file, refused, with, with4, with8};
use station_a::{BATTERY, CONTROL, SET_1, SET_2, TABLE};

#[test]
fn refusal_1_sizes() {
    for size in [0, 164, 677, 10_000] {
        let mut bytes = file();
        bytes.resize(size, 0);
        assert_eq!(check_station(&bytes), refused(1, 0));
    }
    // 165 and 676 bytes go on to the contents.
    assert_eq!(check_station(&[0; 165]), refused(2, 1));
    assert_eq!(check_station(&[0; 676]), refused(2, 1));
}

#[test]
fn refusal_2_the_first_wrong_entry() {
    for entry in 0..4 {
        let place = entry as u64 + 1;
        assert_eq!(check_station(&with(8 * entry, &[9])), refused(2, place));
        assert_eq!(
            check_station(&with(8 * entry + 2, &[0, 0])),
            refused(2, place)
        );
        assert_eq!(check_station(&with(8 * entry + 4, &[1])), refused(2, place));
        assert_eq!(check_station(&with(8 * entry + 7, &[1])), refused(2, place));
    }
    assert_eq!(check_station(&with(2, &[2])), refused(2, 1));
    assert_eq!(check_station(&with(18, &[9])), refused(2, 3));
    assert_eq!(check_station(&with(26, &[65])), refused(2, 4));
    assert_eq!(check_station(&with(27, &[1])), refused(2, 4));
}

#[test]
fn reading_a1_a_set_count_in_range_but_not_the_true_one() {
    assert_eq!(check_station(&with(18, &[1])), refused(2, 4));
    assert_eq!(check_station(&with(18, &[3])), refused(2, 4));
}

#[test]
fn refusal_3_and_reading_a2() {
    let mut longer = file();
    longer.push(1);
    assert_eq!(check_station(&longer), refused(3, 0));
    assert_eq!(check_station(&file()[..230]), refused(3, 0));
    // A configuration count in range but not the true one is a size's fault.
    assert_eq!(check_station(&with(26, &[4])), refused(3, 0));
    // Entries come first.
    longer[8] = 0;
    assert_eq!(check_station(&longer), refused(2, 2));
}

#[test]
fn refusal_4_each_control_value() {
    let limits = [50_000_000, 100, 100, 100, 60, 999, 86_400, 1, 3];
    for (index, limit) in limits.into_iter().enumerate() {
        let at = CONTROL + 4 * index;
        assert_eq!(check_station(&with4(at, limit)), None);
        assert_eq!(check_station(&with4(at, limit + 1)), refused(4, 0));
        assert_eq!(check_station(&with4(at, u32::MAX)), refused(4, 0));
    }
    assert_eq!(check_station(&with4(CONTROL + 16, 0)), refused(4, 0));
}

#[test]
fn reading_a5_start_mask_bits_above_the_sets() {
    for bit in [2, 7, 8, 31] {
        assert_eq!(check_station(&with4(CONTROL + 32, 1 << bit)), refused(4, 0));
    }
}

#[test]
fn refusal_5_each_battery_value() {
    assert_eq!(check_station(&with4(BATTERY, 50_000_000)), None);
    assert_eq!(check_station(&with4(BATTERY, 50_000_001)), refused(5, 0));
    for efficiency in [0, 101] {
        assert_eq!(
            check_station(&with4(BATTERY + 4, efficiency)),
            refused(5, 0)
        );
    }
    assert_eq!(check_station(&with8(BATTERY + 8, 1_000_000)), None);
    assert_eq!(check_station(&with8(BATTERY + 8, 1_000_001)), refused(5, 0));
    assert_eq!(check_station(&with8(BATTERY + 16, 999_999)), refused(5, 0));
    assert_eq!(
        check_station(&with8(BATTERY + 16, 10_000_000_000_000)),
        None
    );
    assert_eq!(
        check_station(&with8(BATTERY + 16, 10_000_000_000_001)),
        refused(5, 0)
    );
    assert_eq!(
        check_station(&with8(BATTERY + 24, 9_000_001)),
        refused(5, 0)
    );
}

#[test]
fn refusal_6_numbers_before_the_pairs() {
    let wrong = [
        (0, 0),
        (0, 10_000_001),
        (4, 0),
        (4, 3_601),
        (8, 0),
        (8, 3_601),
        (12, 1),
        (16, 1),
        (20, 0),
        (20, 1),
        (20, 6),
    ];
    for (at, number) in wrong {
        assert_eq!(check_station(&with4(SET_1 + at, number)), refused(6, 1));
        assert_eq!(check_station(&with4(SET_2 + at, number)), refused(6, 2));
    }
}

/// Station A with a service interval and a service time at set 2.
fn with_service(interval: u32, time: u32) -> Vec<u8> {
    let numbers = [interval.to_le_bytes(), time.to_le_bytes()].concat();
    with(SET_2 + 12, &numbers)
}

#[test]
fn reading_a4_service_time_and_interval() {
    assert_eq!(check_station(&with_service(1, 1)), None);
    assert_eq!(check_station(&with_service(100_000_000, 2_592_000)), None);
    assert_eq!(check_station(&with_service(0, 1)), refused(6, 2));
    assert_eq!(check_station(&with_service(1, 0)), refused(6, 2));
    assert_eq!(check_station(&with_service(1, 2_592_001)), refused(6, 2));
    assert_eq!(check_station(&with_service(100_000_001, 1)), refused(6, 2));
}

#[test]
fn refusal_7_pairs() {
    let wrong = [
        (32, 1_501),
        (28, 10_000_001),
        (36, 10_000_001),
        (32, 0),
        (24, 1_000),
        (24, 1_001),
        (40, 1_001),
        (44, 1),
        (60, 1),
    ];
    for (at, number) in wrong {
        assert_eq!(check_station(&with4(SET_1 + at, number)), refused(7, 1));
        assert_eq!(check_station(&with4(SET_2 + at, number)), refused(7, 2));
    }
    assert_eq!(check_station(&with4(SET_1 + 32, 1_500)), None);
    // A first pair 0,0 is a real point.
    assert_eq!(check_station(&with4(SET_1 + 28, 0)), None);
}

#[test]
fn reading_a3_points_belong_to_6_and_a_third_point_is_7() {
    assert_eq!(check_station(&with4(SET_1 + 20, 6)), refused(6, 1));
    // Three points whose third is 0,0: the loads do not rise.
    assert_eq!(check_station(&with4(SET_1 + 20, 3)), refused(7, 1));
}

#[test]
fn refusal_8_configurations() {
    for index in 0..3 {
        let place = index as u64 + 1;
        assert_eq!(check_station(&with(TABLE + index, &[0])), refused(8, place));
        assert_eq!(check_station(&with(TABLE + index, &[4])), refused(8, place));
        assert_eq!(
            check_station(&with(TABLE + index, &[255])),
            refused(8, place)
        );
    }
}

#[test]
fn reading_a6_equal_masks_are_accepted() {
    assert_eq!(check_station(&with(TABLE, &[1, 1, 1])), None);
}

#[test]
fn the_order_of_the_station_checks() {
    let mut bytes = file();
    let mut then = |at: usize, byte: u8, number: u8, place: u64| {
        bytes[at] = byte;
        assert_eq!(check_station(&bytes), refused(number, place));
    };
    then(TABLE + 1, 0, 8, 2);
    then(SET_2 + 44, 1, 7, 2);
    then(SET_2 + 20, 9, 6, 2);
    then(SET_1 + 44, 1, 7, 1);
    then(SET_1 + 4, 0, 6, 1);
    then(BATTERY + 4, 0, 5, 0);
    then(CONTROL + 16, 0, 4, 0);
    then(26, 4, 3, 0);
    then(26, 0, 2, 4);
    then(0, 0, 2, 1);
    assert_eq!(check_station(&bytes[..164]), refused(1, 0));
}

#[test]
fn reading_a7_a_record_that_no_file_gives() {
    let good = station_a::station();
    assert!(good.given_by_a_file());
    let mut past_sets = good;
    past_sets.gensets[2].warm_up = 1;
    let mut past_table = good;
    past_table.masks[3] = 1;
    let mut no_sets = good;
    no_sets.sets = 0;
    let mut too_many = good;
    too_many.configurations = 65;
    let mut huge = good;
    huge.sets = u32::MAX;
    for station in [past_sets, past_table, no_sets, too_many, huge] {
        assert!(!station.given_by_a_file());
    }
}

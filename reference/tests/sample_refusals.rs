//! Refusals 11 to 22 with their places, and the readings B1 to B18.

mod station_a;

use reference::samples;
use station_a::{check_rows, check_samples, refused};

/// Below the usual heading line, the times of the rows that are not skipped.
fn accepted_times(rows: &str) -> Vec<u64> {
    let file = format!("t,LoadP,PvAvailP,ShedLoadP\n{rows}");
    let accepted = samples::read(file.as_bytes()).expect("an accepted file");
    accepted.iter().map(|sample| sample.time).collect()
}

/// A heading line alone.
fn check_headings(line: &str) -> Option<(u8, u64)> {
    check_samples(format!("{line}\n0,1,1,1\n").as_bytes())
}

/// A first row `length` bytes long before its ending, padded with zeros.
fn padded(length: usize, ending: &str) -> String {
    format!("{}{ending}", "0".repeat(length))
}

#[test]
fn refusal_11_and_reading_b4() {
    for (length, ending) in [(512, "\n"), (511, "\r\n"), (512, ""), (511, "\r")] {
        assert_eq!(check_rows(&padded(length, ending)), refused(17, 2));
    }
    for (length, ending) in [(513, "\n"), (512, "\r\n"), (513, ""), (512, "\r")] {
        assert_eq!(check_rows(&padded(length, ending)), refused(11, 2));
        let rows = format!("0,1,1,1\n{}", padded(length, ending));
        assert_eq!(check_rows(&rows), refused(11, 3));
    }
    assert_eq!(check_samples(&[b'x'; 513]), refused(11, 1));
    assert_eq!(check_samples(&[b'x'; 512]), refused(16, 1));
}

#[test]
fn refusals_12_13_14_and_reading_b8() {
    assert_eq!(
        check_headings("t,LoadP,,PvAvailP,ShedLoadP"),
        refused(12, 1)
    );
    assert_eq!(check_headings("t,"), refused(12, 1));
    assert_eq!(
        check_headings("t,LoadP,X,PvAvailP,ShedLoadP"),
        refused(13, 1)
    );
    assert_eq!(check_headings("t,LoadP,PvAvailP,LoadP"), refused(14, 1));
    assert_eq!(check_headings("t,X,,LoadP"), refused(13, 1));
    assert_eq!(check_headings("t,LoadP,LoadP,,X"), refused(14, 1));
    assert_eq!(check_headings("t,X,X"), refused(13, 1));
}

#[test]
fn reading_b7_t_twice() {
    assert_eq!(
        check_headings("t,t,LoadP,PvAvailP,ShedLoadP"),
        refused(14, 1)
    );
}

#[test]
fn refusal_15_and_reading_b9() {
    assert_eq!(check_headings("t"), refused(15, 1));
    assert_eq!(check_headings("t,LoadP,ShedLoadP"), refused(15, 1));
    // Five headings or more meet 12, 13 or 14.
    assert_eq!(
        check_headings("t,LoadP,PvAvailP,ShedLoadP,LoadP"),
        refused(14, 1)
    );
    assert_eq!(
        check_headings("t,LoadP,PvAvailP,ShedLoadP,"),
        refused(12, 1)
    );
}

#[test]
fn refusal_16_and_readings_b1_b2_b10() {
    for file in [
        "",
        "\n",
        "\r\n",
        ",t,LoadP",
        "T,LoadP",
        "LoadP,t",
        "\u{feff}t,LoadP",
        " t",
    ] {
        assert_eq!(check_samples(file.as_bytes()), refused(16, 1));
    }
}

#[test]
fn reading_b3_carriage_returns() {
    let headings = "t,LoadP,PvAvailP,ShedLoadP";
    assert_eq!(
        check_samples(format!("{headings}\r\n0,1,1,1\r\n").as_bytes()),
        None
    );
    assert_eq!(
        check_samples(format!("{headings}\r").as_bytes()),
        refused(13, 1)
    );
    assert_eq!(
        check_samples(format!("{headings}\r\r\n0,1,1,1").as_bytes()),
        refused(13, 1)
    );
    assert_eq!(check_rows("0,1,1,1\r"), refused(18, 2));
    assert_eq!(check_rows("0,1,1,1\r\r\n"), refused(18, 2));
    // A CR elsewhere ends no line.
    assert_eq!(check_rows("0,1,1,1\r1,1,1,1\n"), refused(17, 2));
}

#[test]
fn reading_b5_last_lines() {
    assert_eq!(check_rows("0,1,1,1"), None);
    assert_eq!(check_rows("0,1,1,1\n"), None);
    assert_eq!(check_rows("0,1,1,1\n\n"), refused(17, 3));
    assert_eq!(check_rows("\n"), refused(17, 2));
}

#[test]
fn reading_b6_blank_is_no_byte_at_all() {
    assert_eq!(
        check_headings("t,LoadP, ,PvAvailP,ShedLoadP"),
        refused(13, 1)
    );
    assert_eq!(check_rows("0,1, ,1\n"), refused(18, 2));
    assert_eq!(check_rows("0,1,,1\n"), refused(18, 2));
}

#[test]
fn refusal_17_counts() {
    assert_eq!(check_rows("0,1,1\n"), refused(17, 2));
    assert_eq!(check_rows("0,1,1,1,1\n"), refused(17, 2));
    assert_eq!(check_rows("0,1,1,1\n1,x\n"), refused(17, 3));
}

#[test]
fn refusal_18_and_readings_b11_b12_b13() {
    let wrong = [
        "0050000",
        "50000.0001",
        "50000.",
        ".5",
        ".",
        "1.2.3",
        "-1",
        "+1",
        "1e3",
        "1 ",
        "\0",
    ];
    for cell in wrong {
        for row in [format!("0,{cell},1,1\n"), format!("0,1,1,{cell}\n")] {
            assert_eq!(check_rows(&row), refused(18, 2));
        }
    }
    for time in ["0000000000", "1.0", "", "-0", "t"] {
        assert_eq!(check_rows(&format!("{time},1,1,1\n")), refused(18, 2));
    }
    assert_eq!(check_rows("000000000,050000,50000.000,0\n"), None);
}

#[test]
fn refusal_19_limits() {
    assert_eq!(check_rows("0,1,1,1\n316223999,1,1,1\n"), None);
    assert_eq!(check_rows("0,1,1,1\n316224000,1,1,1\n"), refused(19, 3));
    assert_eq!(check_rows("0,999999.999,1,1\n"), refused(19, 2));
    assert_eq!(check_rows("0,1,50000.001,1\n"), refused(19, 2));
    assert_eq!(check_rows("0,1,1,50001\n"), refused(19, 2));
}

#[test]
fn reading_b14_cells_left_to_right() {
    assert_eq!(check_rows("0,50001,x,1\n"), refused(19, 2));
    assert_eq!(check_rows("0,x,50001,1\n"), refused(18, 2));
    assert_eq!(check_rows("999999999,x,1,1\n"), refused(19, 2));
    let file = b"t,ShedLoadP,PvAvailP,LoadP\n0,50001,1,x\n";
    assert_eq!(check_samples(file), refused(19, 2));
}

#[test]
fn reading_b15_lines_from_the_top() {
    let rows = format!("0,1,1,1\n1,x,1,1\n{}\n", "0".repeat(600));
    assert_eq!(check_rows(&rows), refused(18, 3));
}

#[test]
fn reading_b16_skipped_rows_are_checked() {
    let rows = "0,1,1,1\n5,1,1,1\n3,1,1,1\n4,1,1,1\n5,1,1,1\n6,1,1,1\n";
    assert_eq!(accepted_times(rows), [0, 5, 6]);
    assert_eq!(check_rows("0,1,1,1\n0,1,1,2\n"), refused(20, 3));
    assert_eq!(check_rows("0,1,1,1\n0,1,1,x\n"), refused(18, 3));
}

#[test]
fn refusals_20_21_and_reading_b17() {
    assert_eq!(check_rows("0,1,1,1.001\n"), refused(20, 2));
    assert_eq!(check_rows("0,1,1,1.000\n"), None);
    assert_eq!(check_rows("1,1,1,1\n"), refused(21, 2));
    assert_eq!(check_rows("1,1,1,2\n"), refused(20, 2));
    assert_eq!(
        check_rows("0,1,1,1\n1,1,1,1\n2,0,0,0.001\n"),
        refused(20, 4)
    );
}

#[test]
fn refusal_22_and_reading_b18() {
    assert_eq!(check_rows(""), refused(22, 0));
    assert_eq!(check_samples(b"t,ShedLoadP,LoadP,PvAvailP"), refused(22, 0));
}

#[test]
fn columns_in_any_order() {
    let file = b"t,ShedLoadP,LoadP,PvAvailP\n0,1.5,20,3.25\n";
    let accepted = samples::read(file).expect("an accepted file");
    let row = accepted[0];
    assert_eq!((row.load, row.solar, row.sheddable), (20_000, 3_250, 1_500));
}

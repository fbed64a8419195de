//! The rows of the lines before the refused one, as `batch sheets` answers them; the
//! expected answers are worked out by hand.

use reference::batch::{answer_line, Kind};
use reference::hex;

const HEADINGS: &[u8] = b"t,LoadP,PvAvailP,ShedLoadP\n";

/// The answer of a whole file.
fn sheet(file: &[u8]) -> String {
    answer_line(Kind::Sheets, &hex::write(file)).expect("a case")
}

/// The answer of rows below the usual heading line.
fn rows(rows: &[u8]) -> String {
    sheet(&[HEADINGS, rows].concat())
}

#[test]
fn heading_lines_and_22_have_no_row_before() {
    let good = b"\n0,1,1,1\n1,1,1,1\n".as_slice();
    let lines: [(&[u8], u8); 7] = [
        (b"", 16),
        (b"T,LoadP,PvAvailP,ShedLoadP", 16),
        (b"t,LoadP,,PvAvailP,ShedLoadP", 12),
        (b"t,LoadP,X,PvAvailP,ShedLoadP", 13),
        (b"t,LoadP,LoadP,PvAvailP,ShedLoadP", 14),
        (b"t,LoadP,ShedLoadP", 15),
        (&[b't'; 513], 11),
    ];
    for (line, number) in lines {
        let expected = format!("refused,{number},1 0");
        assert_eq!(sheet(&[line, good].concat()), expected);
        assert_eq!(sheet(line), expected);
    }
    assert_eq!(sheet(HEADINGS), "refused,22,0 0");
    assert_eq!(sheet(b"t,ShedLoadP,LoadP,PvAvailP"), "refused,22,0 0");
}

#[test]
fn a_refused_first_row_has_no_row_before() {
    for later in [b"".as_slice(), b"0,1,1,1\n1,1,1,1\n"] {
        let answer = |row: &[u8]| rows(&[row, later].concat());
        assert_eq!(answer(b"\n"), "refused,17,2 0");
        assert_eq!(answer(b"0,x,1,1\n"), "refused,18,2 0");
        assert_eq!(answer(b"0,50001,1,1\n"), "refused,19,2 0");
        assert_eq!(answer(b"0,1,1,1.001\n"), "refused,20,2 0");
        assert_eq!(answer(b"1,1,1,1\n"), "refused,21,2 0");
        let long = [[b'0'; 513].as_slice(), b"\n"].concat();
        assert_eq!(answer(&long), "refused,11,2 0");
    }
}

#[test]
fn a_later_row_has_the_rows_before_it() {
    let before = b"0,1,2,0.5\r\n7,12.25,0,12.250\n".as_slice();
    let shown = " 2 0:1000:2000:500 7:12250:0:12250";
    let long = vec![b'0'; 513];
    let wrong: [(&[u8], u8); 8] = [
        (&long, 11),
        (b"8,1,1", 17),
        (b"8,1,1,1,1", 17),
        (b"8,1,1,-1", 18),
        (b"8,1,1,1\r\r", 18),
        (b"316224000,1,1,1", 19),
        (b"8,1,50000.001,1", 19),
        (b"8,1,1,1.001", 20),
    ];
    // In the middle, last with LF, and last without it.
    for end in [b"\n9,1,1,1\n10,1,1\n".as_slice(), b"\n", b""] {
        for (line, number) in wrong {
            let expected = format!("refused,{number},4{shown}");
            assert_eq!(rows(&[before, line, end].concat()), expected);
        }
    }
    // An empty line; at the end of the file it needs an LF.
    let empty = format!("refused,17,4{shown}");
    assert_eq!(rows(&[before, b"\n"].concat()), empty);
    assert_eq!(rows(&[before, b"\r\n"].concat()), empty);
    assert_eq!(rows(&[before, b"\n9,1,1,1"].concat()), empty);
    let accepted = format!("accepted{shown}");
    assert_eq!(rows(before), accepted);
    assert_eq!(rows(&before[..before.len() - 1]), accepted);
    // A CR that no LF follows is part of the cell: now the row itself is refused.
    let kept = [&before[..before.len() - 1], b"\r"].concat();
    assert_eq!(rows(&kept), "refused,18,3 1 0:1000:2000:500");
}

#[test]
fn skipped_rows_are_left_out_and_may_be_refused() {
    let before = b"0,1,1,1\n5,2,2,2\n3,3,3,3\n4,4,4,4\n5,5,5,5\n6,6,6,6\n0,7,7,7\n".as_slice();
    let three = "3 0:1000:1000:1000 5:2000:2000:2000 6:6000:6000:6000";
    assert_eq!(rows(before), format!("accepted {three}"));
    let refused = |line: &[u8]| rows(&[before, line].concat());
    assert_eq!(refused(b"7,1,1\n"), format!("refused,17,9 {three}"));
    // A row that would be skipped has its checks all the same; 21 is the first row's.
    assert_eq!(refused(b"6,1,1,1.001\n"), format!("refused,20,9 {three}"));
    assert_eq!(refused(b"0,50000.001,1,1"), format!("refused,19,9 {three}"));
    // Refused amid the skipped ones.
    let file = b"0,1,1,1\n5,2,2,2\n3,3,3,3\n4,4,4,x\n5,5,5,5\n6,6,6,6\n";
    let two = "refused,18,5 2 0:1000:1000:1000 5:2000:2000:2000";
    assert_eq!(rows(file), two);
    // All later rows skipped.
    let file = b"0,1,1,0\n0,2,2,2\n0,3,3,3\n1,4,4\n";
    assert_eq!(rows(file), "refused,17,5 1 0:1000:1000:0");
}

#[test]
fn columns_and_limits_of_the_rows_before() {
    let file = b"t,ShedLoadP,PvAvailP,LoadP\r\n000000000,0.5,050000,1.25\r\n316223999,0,0.001,50000.000\r\n,,,";
    let expected = "refused,18,4 2 0:1250:50000000:500 316223999:50000000:1:0";
    assert_eq!(sheet(file), expected);
}

#[test]
fn many_rows_before() {
    let mut file = HEADINGS.to_vec();
    let mut expected = "refused,18,3002 3000".to_string();
    for time in 0..3_000 {
        file.extend(format!("{time},{time}.5,0,0\n").bytes());
        expected.push_str(&format!(" {time}:{time}500:0:0"));
    }
    file.extend(b"3000,1.,0,0\n");
    // The load of second 0 is 0.5 kW: 500 W.
    let expected = expected.replace(" 0:0500:0:0", " 0:500:0:0");
    assert_eq!(sheet(&file), expected);
}

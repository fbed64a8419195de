//! The sample files of the kind `sheets`: their answers are those they were made
//! for, their classes have fixed shares, and in each class what it is for is met.

use std::collections::BTreeMap;
use std::sync::OnceLock;

use reference::generator::random::Random;
use reference::generator::varied_sheets::{class, made, Class, Made, CYCLE, SHARES};
use reference::generator::{case, write_cases};
use reference::samples::{self, Reading};
use reference::{batch::Kind, hex};

const CASES: u64 = 20_000;

/// Every file with its class and the answer that it gets; made once for all tests.
fn for_each_file(mut look: impl FnMut(Class, &Made, &Reading)) {
    static FILES: OnceLock<Vec<(Class, Made, Reading)>> = OnceLock::new();
    let files = FILES.get_or_init(|| {
        let mut random = Random::from_seed(20_001);
        let file = |before| {
            let class = class(before);
            let made = made(&mut random, class);
            let answer = samples::read_lines(&made.bytes);
            (class, made, answer)
        };
        (0..CASES).map(file).collect()
    });
    for (class, made, answer) in files {
        look(*class, made, answer);
    }
}

/// How often each thing has happened.
#[derive(Default)]
struct Events(BTreeMap<String, u64>);

impl Events {
    /// Counts an event that may happen, also where it does not.
    fn note(&mut self, event: impl Into<String>, happened: bool) {
        *self.0.entry(event.into()).or_insert(0) += u64::from(happened);
    }

    fn check(&self, least: u64) {
        for (event, count) in &self.0 {
            assert!(*count >= least, "{event}: {count}");
        }
    }
}

/// The lines of a file without LF, any CR kept; a last LF starts no further one.
fn lines(file: &[u8]) -> Vec<&[u8]> {
    let mut lines: Vec<&[u8]> = file.split(|byte| *byte == b'\n').collect();
    if lines.last().is_some_and(|line| line.is_empty()) {
        lines.pop();
    }
    lines
}

#[test]
fn files_get_the_answer_that_they_were_made_for() {
    let mut known = 0;
    for_each_file(|class, made, answer| {
        if let Some(expected) = &made.answer {
            assert_eq!(expected, answer, "{class:?} {}", hex::write(&made.bytes));
            known += 1;
        }
    });
    assert!(known >= CASES / 5, "known: {known}");
}

#[test]
fn the_seed_decides_the_cases() {
    let mut printed = [Vec::new(), Vec::new()];
    for out in &mut printed {
        write_cases(Kind::Sheets, 8, 600, out).expect("a vector takes all bytes");
    }
    assert_eq!(printed[0], printed[1]);
    let (mut one, mut two) = (Random::from_seed(8), Random::from_seed(8));
    for before in 0..600 {
        let file = made(&mut one, class(before)).bytes;
        assert_eq!(case(Kind::Sheets, &mut two, before), hex::write(&file));
    }
}

#[test]
fn classes_have_their_shares() {
    assert_eq!(SHARES.iter().map(|(_, share)| share).sum::<u64>(), CYCLE);
    for start in [0, 1, 250, 19_501] {
        let mut counts = BTreeMap::new();
        for before in start..start + CYCLE {
            *counts.entry(class(before)).or_insert(0) += 1;
        }
        assert_eq!(counts, BTreeMap::from(SHARES));
    }
}

#[test]
fn files_are_short_and_long() {
    let mut events = Events::default();
    for_each_file(|class, made, answer| {
        let (bytes, lines) = (made.bytes.len(), lines(&made.bytes).len());
        let answered = match answer.refusal {
            None => "accepted",
            Some(_) => "refused",
        };
        let mut note = |of: Class, size: &str, is_so: bool| {
            let happened = |wanted| class == of && answered == wanted && is_so;
            for wanted in ["accepted", "refused"] {
                events.note(format!("{of:?}, {wanted}, {size}"), happened(wanted));
            }
        };
        note(Class::Past65536, "over 65,536 bytes", bytes > 65_536);
        note(Class::Past65536, "over 131,000 bytes", bytes > 131_000);
        note(Class::TenThousandLines, "over 9,000 lines", lines > 9_000);
        note(Class::ManyLines, "over 1,000 lines", lines > 1_000);
        note(
            Class::ManyLines,
            "under 100 lines",
            (50..100).contains(&lines),
        );
        note(Class::Past4096, "over 4,096 bytes", bytes > 4_096);
        note(Class::Past4096, "over 8,100 bytes", bytes > 8_100);
        note(Class::Past512, "over 512 bytes", bytes > 512);
        note(Class::Past512, "over 1,500 bytes", bytes > 1_500);
        note(
            Class::Plain,
            "four to seven lines",
            (4..=7).contains(&lines),
        );
        note(Class::Plain, "fifteen lines or more", lines >= 15);
        note(Class::Small, "two lines", lines == 2);
        note(Class::Small, "ten lines or more", lines >= 10);
        let refused = answer.refusal.is_some();
        events.note("refused, one line", lines == 1 && refused);
        events.note("refused, no byte", bytes == 0 && refused);
    });
    events.check(3);
}

#[test]
fn lines_end_at_multiples_and_beside_them() {
    let mut events = Events::default();
    for_each_file(|class, made, answer| {
        let (length, each_byte) = match class {
            Class::Past512 => (512, true),
            Class::Past4096 => (4_096, true),
            // Few files are so long: there any of the seven bytes counts.
            Class::Past65536 => (65_536, false),
            _ => return,
        };
        let (file, good) = (&made.bytes, answer.refusal.is_none());
        for end in length - 3..=length + 3 {
            let ends = file.get(end - 1) == Some(&b'\n');
            let beside = if each_byte { end } else { length };
            let event = format!("accepted, a line ends before byte {beside}");
            events.note(event, good && ends);
            let event = format!("accepted, without LF, the end is beside {length}");
            events.note(event, good && file.len() == end && !ends);
        }
        let around = file.get(length - 5..length + 5);
        let across = around.is_some_and(|bytes| !bytes.contains(&b'\n'));
        events.note(format!("accepted, a line across {length}"), good && across);
        let ends_there = file.len() == length && file.last() == Some(&b'\n');
        let split = file.get(length - 1..=length) == Some(b"\r\n");
        if each_byte {
            events.note(format!("accepted, CR LF across {length}"), good && split);
            events.note(
                format!("accepted, LF and end at {length}"),
                good && ends_there,
            );
        }
        // Whether the refused line is the one that has the multiple's first byte.
        let first_byte_in = file.iter().take(length).filter(|byte| **byte == b'\n');
        let line = first_byte_in.count() as u64 + 1;
        let refused_there = answer.refusal.is_some_and(|refusal| refusal.place == line);
        events.note(format!("refused, the line at {length}"), refused_there);
    });
    events.check(2);
}

#[test]
fn lines_are_as_long_as_a_line_may_be_and_longer() {
    let mut events = Events::default();
    for_each_file(|class, made, answer| {
        let Some(refusal) = answer.refusal else {
            assert_ne!(class, Class::LongLine);
            return;
        };
        let lines = lines(&made.bytes);
        let at = (refusal.place as usize).wrapping_sub(1);
        let Some(line) = lines.get(at) else { return };
        assert_eq!(refusal.number == 11, line.len() > 512);
        let ended = at + 1 < lines.len() || made.bytes.ends_with(b"\n");
        let part = if at == 0 { "heading line" } else { "row" };
        let cr = line.ends_with(b"\r");
        for length in [511, 512, 513] {
            for (wanted_cr, wanted_lf) in
                [(false, false), (false, true), (true, false), (true, true)]
            {
                let happened = line.len() == length && (cr, ended) == (wanted_cr, wanted_lf);
                let event = format!("{part} of {length}, CR {wanted_cr}, LF {wanted_lf}");
                events.note(event, happened);
            }
        }
        let numbers: &[u8] = if at == 0 {
            &[12, 13, 14, 16]
        } else {
            &[17, 18]
        };
        for number in numbers {
            let happened = refusal.number == *number && line.len() == 512;
            events.note(format!("{part} of 512 refused {number}"), happened);
        }
        events.note("a line of 65,535 bytes or more", line.len() >= 65_535);
    });
    // Each event is noted for both kinds of lines.
    assert_eq!(events.0.len(), 2 * 12 + 6 + 1);
    events.check(3);
}

#[test]
fn lines_end_in_lf_cr_lf_either_or_neither() {
    let mut events = Events::default();
    for_each_file(|class, made, answer| {
        if answer.refusal.is_some() {
            return;
        }
        let lines = lines(&made.bytes);
        let ended = match made.bytes.ends_with(b"\n") {
            true => lines.as_slice(),
            false => &lines[..lines.len() - 1],
        };
        let crs = ended.iter().filter(|line| line.ends_with(b"\r")).count();
        let skipped = lines.len() - 1 - answer.rows.len();
        events.note(format!("{class:?}, LF"), crs == 0);
        events.note(format!("{class:?}, CR LF"), crs == ended.len());
        events.note(format!("{class:?}, either"), crs > 0 && crs < ended.len());
        events.note(format!("{class:?}, no last LF"), ended.len() < lines.len());
        events.note(format!("{class:?}, a last LF"), ended.len() == lines.len());
        events.note(format!("{class:?}, no row skipped"), skipped == 0);
        events.note(format!("{class:?}, rows skipped"), skipped > 0);
        events.note(format!("{class:?}, many rows skipped"), skipped > 5);
    });
    events.check(2);
}

#[test]
fn refusals_are_at_every_kind_of_line() {
    let mut events = Events::default();
    for_each_file(|_, made, answer| {
        let Some(refusal) = answer.refusal else {
            return;
        };
        let (number, place) = (refusal.number, refusal.place);
        let last = lines(&made.bytes).len() as u64;
        for row_number in [11, 17, 18, 19, 20] {
            let mut note = |at: &str, is_so: bool| {
                events.note(
                    format!("{row_number} at {at}"),
                    number == row_number && is_so,
                );
            };
            note("line 2", place == 2);
            note("lines 3 to 20", (3..=20).contains(&place));
            note("lines 21 to 1,000", (21..=1_000).contains(&place));
            note("a line above 1,000", place > 1_000);
            note("the last line", place == last);
            note("a line before the last", place < last);
        }
        let strange = |wanted: fn(&u8) -> bool| made.bytes.iter().any(wanted);
        for any_number in [11, 12, 13, 14, 16, 17, 18] {
            let mut note = |has: &str, is_so: bool| {
                events.note(
                    format!("{any_number}, {has}"),
                    number == any_number && is_so,
                );
            };
            note("NUL", strange(|byte| *byte == 0));
            note("high bytes", strange(|byte| *byte >= 0x80));
        }
        events.note("above 9,000", place > 9_000);
        match number {
            12..=16 => assert_eq!(place, 1),
            21 => assert_eq!(place, 2),
            22 => assert_eq!(place, 0),
            _ => (),
        }
    });
    events.check(3);
}

/// The times of good rows.
fn times(rows: &[&[u8]]) -> Vec<u64> {
    let time = |row: &&[u8]| {
        let digits = row.split(|byte| *byte == b',').next().expect("a cell");
        let text = std::str::from_utf8(digits).expect("digits");
        text.parse().expect("a time")
    };
    rows.iter().map(time).collect()
}

#[test]
fn rows_stand_before_the_refused_line() {
    let mut events = Events::default();
    for_each_file(|_, made, answer| {
        let Some(refusal) = answer.refusal else {
            return;
        };
        let rows = answer.rows.len();
        if refusal.place <= 2 {
            assert_eq!(rows, 0);
            return;
        }
        let place = refusal.place as usize;
        let lines = lines(&made.bytes);
        let times = times(&lines[1..place - 1]);
        let skipped = times.len() - rows;
        // A row that is skipped, and later one that is not.
        let last = answer.rows.last().map(|row| row.time);
        let first_of_last = times.iter().position(|time| Some(*time) == last);
        let between = first_of_last.is_some_and(|index| index + 1 > rows);
        let ended = made.bytes.ends_with(b"\n");
        let at = match place == lines.len() {
            false => "a middle line",
            true if ended => "the last line",
            true => "the last line, without LF",
        };
        for number in [11, 17, 18, 19, 20] {
            for wanted in [
                "a middle line",
                "the last line",
                "the last line, without LF",
            ] {
                let mut note = |has: &str, is_so: bool| {
                    let happened = is_so && number == refusal.number && wanted == at;
                    events.note(format!("{number} at {wanted}, {has}"), happened);
                };
                note("one row before", rows == 1);
                note("two rows or more, none skipped", rows >= 2 && skipped == 0);
                note("five rows or more, none skipped", rows >= 5 && skipped == 0);
                note(
                    "three rows or more, one skipped between",
                    rows >= 3 && between,
                );
                note("over twenty-four rows", rows > 24);
            }
        }
    });
    assert_eq!(events.0.len(), 5 * 3 * 5);
    events.check(5);
}

/// Whether a row is of the plain form, and whether it has a point in it.
fn plain(row: &[u8]) -> Option<bool> {
    let cells: Vec<&[u8]> = row.split(|byte| *byte == b',').collect();
    let digits = |text: &[u8]| !text.is_empty() && text.iter().all(u8::is_ascii_digit);
    let whole = |text: &[u8]| digits(text) && (text.len() == 1 || text[0] != b'0');
    let decimals = |text: &[u8]| digits(text) && text.len() <= 3 && !text.ends_with(b"0");
    let power = |cell: &&[u8]| match cell.iter().position(|byte| *byte == b'.') {
        None => whole(cell),
        Some(at) => whole(&cell[..at]) && decimals(&cell[at + 1..]),
    };
    let good = cells.len() == 4 && whole(cells[0]) && cells[1..].iter().all(power);
    good.then(|| row.contains(&b'.'))
}

#[test]
fn plain_sheets_have_plain_rows() {
    let mut events = Events::default();
    for_each_file(|class, made, answer| {
        let lines = lines(&made.bytes);
        let known = made.answer.is_some();
        let place = answer.refusal.map(|refusal| refusal.place as usize);
        // Heading faults and 22 leave no row to look at.
        if class != Class::Plain || !known || place.is_some_and(|place| place <= 2) {
            return;
        }
        let refused = if place.is_some() {
            "refused"
        } else {
            "accepted"
        };
        let rows = &lines[1..place.unwrap_or(lines.len() + 1) - 1];
        let without_cr = |row: &&[u8]| plain(row.strip_suffix(b"\r").unwrap_or(row));
        let points: Option<Vec<bool>> = rows.iter().map(without_cr).collect();
        let points = points.expect("plain rows").contains(&true);
        let ended = made.bytes.ends_with(b"\n");
        // Of these rows the last of an accepted file may have no ending.
        let endings = rows.len() - usize::from(place.is_none() && !ended);
        let crs = rows.iter().filter(|row| row.ends_with(b"\r")).count();
        let ending = match crs {
            0 => "LF",
            _ if crs == endings => "CR LF",
            _ => "either",
        };
        for verdict in ["accepted", "refused"] {
            for wanted in ["LF", "CR LF", "either"] {
                for (has_points, has_lf) in
                    [(false, false), (false, true), (true, false), (true, true)]
                {
                    let happened = (refused, ending) == (verdict, wanted)
                        && (points, ended) == (has_points, has_lf);
                    let event =
                        format!("{verdict}, {wanted}, points {has_points}, a last LF {has_lf}");
                    events.note(event, happened && rows.len() >= 3);
                }
            }
        }
    });
    assert_eq!(events.0.len(), 2 * 3 * 4);
    events.check(10);
}

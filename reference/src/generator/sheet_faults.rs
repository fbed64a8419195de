//! One fault in a good sample file at a line of choice, with the refusal that
//! document 01 gives for it.

use super::random::Random;
use super::sheet::{Sheet, SheetLine};
use crate::refusal::Refusal;

/// Most bytes of a line without the LF.
const LINE: usize = 512;

/// Puts a fault of a number into a good sheet and answers the file's refusal. The
/// fault of a row (11, 17 to 20) is at the line of an `index`, 1 or above.
pub fn put(random: &mut Random, sheet: &mut Sheet, number: u8, index: usize) -> Refusal {
    match number {
        11 => {
            let whole = random.pick([513, 513, 513, 514, 600]);
            return lengthen(random, sheet, index, whole);
        }
        12..=16 => {
            break_headings(random, &mut sheet.lines[0].cells, number);
            return Refusal::at(number, 1);
        }
        17 => miscount(random, &mut sheet.lines[index]),
        18 => malform(random, &mut sheet.lines[index]),
        19 => pass_limit(random, &mut sheet.lines[index].cells),
        20 => shed_too_much(random, sheet, index),
        21 => {
            sheet.lines[1].cells[0] = random
                .pick([b"1".as_slice(), b"000000001", b"316223999"])
                .to_vec();
            return Refusal::at(21, 2);
        }
        _ => {
            sheet.lines.truncate(1);
            sheet.lines[0].ending = random.pick([b"\n".as_slice(), b"\r\n", b""]);
            return Refusal::placeless(22);
        }
    }
    Refusal::at(number, index as u64 + 1)
}

/// Puts a line of `whole` bytes, its LF not counted, in place of another; 11 where
/// they are too many, else what is wrong with the line. `whole` is above 500, and
/// no good line is so long.
pub fn lengthen(random: &mut Random, sheet: &mut Sheet, index: usize, whole: usize) -> Refusal {
    let last = index + 1 == sheet.lines.len();
    // CR and LF, LF alone; at the end of the file neither, or a CR that is kept.
    let ending: &[u8] = match last && random.chance(50) {
        true => random.pick([b"".as_slice(), b"\r"]),
        false => random.pick([b"\n".as_slice(), b"\n", b"\r\n", b"\r\n", b"\r\r\n"]),
    };
    let crs = ending.iter().filter(|byte| **byte == b'\r').count();
    let (content, wrong) = match index {
        0 => long_headings(random, whole - crs),
        _ => long_row(random, whole - crs),
    };
    sheet.lines[index] = SheetLine {
        cells: vec![content],
        ending,
    };
    let number = if whole > LINE { 11 } else { wrong };
    Refusal::at(number, index as u64 + 1)
}

/// A heading line of many bytes, and what is wrong with it but for its length.
fn long_headings(random: &mut Random, length: usize) -> (Vec<u8>, u8) {
    let (start, number) = random.pick([
        (b"".as_slice(), 16),
        (b"t,", 13),
        (b"t,LoadP,PvAvailP,ShedLoadP,", 13),
        (b"t,,", 12),
        (b"t,LoadP,PvAvailP,,", 12),
        (b"t,t,", 14),
        (b"t,ShedLoadP,LoadP,ShedLoadP,", 14),
    ]);
    let rest = filling(random, length - start.len());
    ([start, &rest].concat(), number)
}

/// A row of many bytes, and what is wrong with it but for its length.
fn long_row(random: &mut Random, length: usize) -> (Vec<u8>, u8) {
    match random.between(0, 4) {
        // One cell; many blank cells; many cells.
        0 => (filling(random, length), 17),
        1 => (vec![b','; length], 17),
        2 => (b"0,".iter().copied().cycle().take(length).collect(), 17),
        // Four cells, one of them far too long.
        _ => {
            let mut cells = [(); 4].map(|()| b"1".to_vec());
            cells[random.index(4)] = filling(random, length - 6);
            (cells.join(&b','), 18)
        }
    }
}

/// Bytes without comma and LF that do not end in CR.
fn filling(random: &mut Random, length: usize) -> Vec<u8> {
    let byte = random.pick([b'0', b'9', b'.', b' ', b'x', b'\r', 0, 0x80, 0xff]);
    let mut bytes = vec![byte; length];
    if let Some(last) = bytes.last_mut() {
        *last = b'1';
    }
    bytes
}

const UNKNOWN: [&[u8]; 9] = [
    b"X",
    b" ",
    b"T",
    b"loadp",
    b" LoadP",
    b"PvAvailP\0",
    b"\xffLoadP",
    b"ShedLoad",
    b"\r",
];

const NOT_T: [&[u8]; 9] = [
    b"",
    b"T",
    b"tt",
    b" t",
    b"t\0",
    b"\0",
    b"\xff",
    b"\xef\xbb\xbft",
    b"LoadP",
];

/// Only one fault, so that left of it all headings are in order.
fn break_headings(random: &mut Random, headings: &mut Vec<Vec<u8>>, number: u8) {
    // After `t`, and not last, so that no CR of a heading is dropped.
    let at = 1 + random.index(headings.len() - 1);
    match number {
        12 => headings.insert(at, Vec::new()),
        13 => headings.insert(at, random.pick(UNKNOWN).to_vec()),
        14 => {
            let twice = headings[random.index(headings.len())].clone();
            headings.insert(at, twice);
        }
        15 => drop(headings.remove(at)),
        _ => match random.between(0, 3) {
            0 => drop(headings.remove(0)),
            1 => headings.swap(0, at),
            _ => headings[0] = random.pick(NOT_T).to_vec(),
        },
    }
}

/// Cells more or less than four.
fn miscount(random: &mut Random, line: &mut SheetLine) {
    let cells = &mut line.cells;
    match random.between(0, 5) {
        0 => drop(cells.pop()),
        1 => drop(cells.remove(0)),
        2 => cells.push(Vec::new()),
        3 => cells.insert(1, b"1".to_vec()),
        4 => *cells = vec![cells.join(&b';')],
        // An empty line has one cell, which is blank; without LF there is no line.
        _ => {
            *cells = vec![Vec::new()];
            line.ending = random.pick([b"\n".as_slice(), b"\r\n"]);
        }
    }
}

const MALFORMED: [&[u8]; 18] = [
    b"",
    b" ",
    b"+1",
    b"-1",
    b" 1",
    b"1 ",
    b"x",
    b"1e1",
    b"\0",
    b"1\0",
    b"\x80",
    b"1\xff",
    b"1\r1",
    b"1.",
    b"1..2",
    b"\"1\"",
    b"0000000000",
    b"1/2",
];

const MALFORMED_TIMES: [&[u8]; 4] = [b"0.0", b"1.5", b"1234567890", b"1:00"];

const MALFORMED_POWERS: [&[u8]; 8] = [
    b".5",
    b".",
    b"1.2.3",
    b"1.2345",
    b"50000.0001",
    b"0050000",
    b"1234567",
    b"1:5",
];

/// One cell that is no time or no power; the others stay good.
fn malform(random: &mut Random, line: &mut SheetLine) {
    if random.chance(10) {
        // Of CR CR LF one CR is part of the cell, and so is one that no LF follows.
        line.ending = match line.ending {
            b"" => b"\r",
            _ => b"\r\r\n",
        };
        return;
    }
    let at = random.index(line.cells.len());
    let own = random.chance(50);
    line.cells[at] = match at {
        0 if own => random.pick(MALFORMED_TIMES).to_vec(),
        _ if own => random.pick(MALFORMED_POWERS).to_vec(),
        _ => random.pick(MALFORMED).to_vec(),
    };
}

/// One cell over its limit; the others stay good.
fn pass_limit(random: &mut Random, cells: &mut [Vec<u8>]) {
    let at = random.index(cells.len());
    let over = match at {
        0 => random.pick([b"316224000".as_slice(), b"316224001", b"999999999"]),
        _ => random.pick([
            b"50000.001".as_slice(),
            b"50000.1",
            b"050000.01",
            b"50001",
            b"100000",
            b"999999.999",
        ]),
    };
    cells[at] = over.to_vec();
}

/// Sheddable load above load, by a watt or by much.
fn shed_too_much(random: &mut Random, sheet: &mut Sheet, index: usize) {
    let (low, high) = random.pick([
        (b"0".as_slice(), b"0.001".as_slice()),
        (b"1.999", b"2"),
        (b"09.99", b"10.0"),
        (b"49999.999", b"50000"),
        (b"0.000", b"50000.000"),
    ]);
    let columns = [sheet.column(b"LoadP"), sheet.column(b"ShedLoadP")];
    for (column, text) in columns.into_iter().flatten().zip([low, high]) {
        sheet.lines[index].cells[column] = text.to_vec();
    }
}

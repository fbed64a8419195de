//! Faults of a small sample file, aimed at each refusal 11 to 22, alone or several
//! at once so that the order of checks matters. A fault may turn out to be another
//! one or none; the reader decides.

use super::random::Random;
use super::sheet::{Sheet, SheetLine};

/// The bytes of a sheet after one to three faults.
pub fn damaged(random: &mut Random, mut sheet: Sheet) -> Vec<u8> {
    let faults = random.pick([1, 1, 1, 2, 2, 3]);
    for _ in 0..faults {
        let number = random.between(11, 22) as u8;
        damage(random, &mut sheet, number);
    }
    let mut bytes = sheet.bytes();
    if random.chance(12) {
        damage_byte(random, &mut bytes);
    }
    if random.chance(2) {
        bytes = random
            .pick([
                b"".as_slice(),
                b"\n",
                b"\r\n",
                b"\r",
                b"\0",
                b"t",
                b",",
                b"t\n\n",
            ])
            .to_vec();
    }
    bytes
}

/// One fault, aimed at a refusal.
fn damage(random: &mut Random, sheet: &mut Sheet, number: u8) {
    match number {
        11 => lengthen_line(random, sheet),
        12..=16 => damage_headings(random, sheet, number),
        17 => miscount_cells(random, sheet),
        18 => replace_cell(random, sheet, malformed_cell),
        19 => replace_cell(random, sheet, cell_over_limit),
        20 => shed_too_much(random, sheet),
        21 => start_late(random, sheet),
        _ => drop_rows(random, sheet),
    }
}

/// Any line; mostly a row.
fn any_line<'a>(random: &mut Random, sheet: &'a mut Sheet) -> Option<&'a mut SheetLine> {
    let index = random.index(sheet.lines.len());
    sheet.lines.get_mut(index)
}

/// Any row's line, the first of them often.
fn any_row<'a>(random: &mut Random, sheet: &'a mut Sheet) -> Option<&'a mut SheetLine> {
    let rows = sheet.lines.len().saturating_sub(1);
    let index = match random.chance(25) {
        true => 1,
        false => 1 + random.index(rows),
    };
    sheet.lines.get_mut(index)
}

/// Pads a line to 511 to 514 bytes or to 600 before its ending, and gives it
/// another ending.
fn lengthen_line(random: &mut Random, sheet: &mut Sheet) {
    let filling = random.pick([b'0', b'9', b' ', b',', b'x', 0, 0xff]);
    let length = random.pick([511, 512, 513, 513, 513, 514, 600]);
    let ending = random.pick([b"\n".as_slice(), b"\r\n", b"\r\r\n"]);
    let at_the_end = random.chance(30);
    if at_the_end {
        // Make it the last line, with no LF or with a CR alone.
        let ending = random.pick([b"".as_slice(), b"\r", b"\n", b"\r\n"]);
        if let Some(last) = sheet.lines.last_mut() {
            pad(last, length, filling);
            last.ending = ending;
        }
    } else if let Some(line) = any_line(random, sheet) {
        pad(line, length, filling);
        line.ending = ending;
    }
}

/// Fills the last cell at its front.
fn pad(line: &mut SheetLine, length: usize, filling: u8) {
    let lacking = length.saturating_sub(line.content().len());
    if let Some(last) = line.cells.last_mut() {
        last.splice(0..0, std::iter::repeat_n(filling, lacking));
    }
}

const UNKNOWN: [&[u8]; 12] = [
    b"X",
    b"loadp",
    b" LoadP",
    b"LoadP ",
    b"\"LoadP\"",
    b"T",
    b" ",
    b"ShedLoad",
    b"PvAvailP\r",
    b"LoadP\0",
    b"\xff",
    b"ShedLoadPP",
];

fn damage_headings(random: &mut Random, sheet: &mut Sheet, number: u8) {
    let Some(line) = sheet.lines.first_mut() else {
        return;
    };
    let cells = &mut line.cells;
    let at = 1 + random.index(cells.len().saturating_sub(1));
    let heading = match number {
        12 => b"".as_slice(),
        13 => random.pick(UNKNOWN),
        14 => random.pick([b"t".as_slice(), b"LoadP", b"PvAvailP", b"ShedLoadP"]),
        15 => {
            if at < cells.len() {
                cells.remove(at);
            }
            return;
        }
        _ => return damage_first_heading(random, cells),
    };
    let replace = random.chance(40);
    match cells.get_mut(at) {
        Some(cell) if replace => *cell = heading.to_vec(),
        _ => cells.insert(at.min(cells.len()), heading.to_vec()),
    }
}

fn damage_first_heading(random: &mut Random, cells: &mut Vec<Vec<u8>>) {
    let first = random.pick([
        b"".as_slice(),
        b"T",
        b"time",
        b"\xef\xbb\xbft",
        b" t",
        b"t ",
        b"\"t\"",
        b"LoadP",
        b"0",
    ]);
    let swap = random.chance(15) && cells.len() > 1;
    let replace = random.chance(80);
    match cells.first_mut() {
        _ if swap => cells.swap(0, 1),
        Some(cell) if replace => *cell = first.to_vec(),
        _ => cells.insert(0, first.to_vec()),
    }
}

/// A cell more, a cell less, no cell, an empty line.
fn miscount_cells(random: &mut Random, sheet: &mut Sheet) {
    let choice = random.between(0, 4);
    if choice == 0 {
        let at = 1 + random.index(sheet.lines.len());
        let cells = vec![Vec::new()];
        let ending = random.pick([b"\n".as_slice(), b"\r\n"]);
        let line = SheetLine { cells, ending };
        sheet.lines.insert(at.min(sheet.lines.len()), line);
        return;
    }
    let Some(line) = any_row(random, sheet) else {
        return;
    };
    match choice {
        1 => line.cells.push(b"".to_vec()),
        2 => line.cells.insert(1.min(line.cells.len()), b"1".to_vec()),
        3 => line.cells.clear(),
        _ => drop(line.cells.pop()),
    }
}

fn replace_cell(
    random: &mut Random,
    sheet: &mut Sheet,
    with: fn(&mut Random, bool) -> &'static [u8],
) {
    let Some(line) = any_row(random, sheet) else {
        return;
    };
    let at = random.index(line.cells.len());
    if let Some(cell) = line.cells.get_mut(at) {
        *cell = with(random, at == 0).to_vec();
    }
}

/// A malformed cell; one with a comma is two, and a last CR may be its line's.
fn malformed_cell(random: &mut Random, time: bool) -> &'static [u8] {
    if time && random.chance(50) {
        return random.pick([
            b"0000000000".as_slice(),
            b"1.0",
            b"0.",
            b"1234567890",
            b"-0",
            b"0\r",
        ]);
    }
    random.pick([
        b"".as_slice(),
        b" ",
        b"-1",
        b"+1",
        b" 1",
        b"1 ",
        b"1.",
        b".5",
        b".",
        b"1..2",
        b"1.2.3",
        b"1.2345",
        b"50000.0001",
        b"0050000",
        b"1234567",
        b"1e3",
        b"x",
        b"1,5",
        b"\xc2\xb2",
        b"1\0",
        b"\xff",
        b"1\r",
        b"0x1",
        b"\"1\"",
        b"NaN",
    ])
}

/// A value over its limit, or just at it.
fn cell_over_limit(random: &mut Random, time: bool) -> &'static [u8] {
    if time {
        return random.pick([b"316224000".as_slice(), b"999999999", b"316223999"]);
    }
    random.pick([
        b"50000.001".as_slice(),
        b"50001",
        b"50000.1",
        b"999999.999",
        b"999999",
        b"050000.01",
        b"50000.000",
        b"050000",
    ])
}

/// Sheddable load above load, by a watt or by much.
fn shed_too_much(random: &mut Random, sheet: &mut Sheet) {
    let (load, shed) = (sheet.column(b"LoadP"), sheet.column(b"ShedLoadP"));
    let (Some(load), Some(shed)) = (load, shed) else {
        return;
    };
    let (low, high) = random.pick([
        (b"0".as_slice(), b"0.001".as_slice()),
        (b"10", b"10.001"),
        (b"1.999", b"2"),
        (b"0", b"50000"),
        (b"49999.999", b"50000"),
    ]);
    let Some(line) = any_row(random, sheet) else {
        return;
    };
    for (column, text) in [(load, low), (shed, high)] {
        if let Some(cell) = line.cells.get_mut(column) {
            *cell = text.to_vec();
        }
    }
}

/// A first row whose time is not 0.
fn start_late(random: &mut Random, sheet: &mut Sheet) {
    let time = random.pick([b"1".as_slice(), b"000000001", b"5", b"316223999"]);
    if let Some(cell) = sheet
        .lines
        .get_mut(1)
        .and_then(|line| line.cells.first_mut())
    {
        *cell = time.to_vec();
    }
}

/// The heading line alone, with or without an ending; or with an empty line after
/// it, or with a CR that no LF follows.
fn drop_rows(random: &mut Random, sheet: &mut Sheet) {
    sheet.lines.truncate(1);
    if let Some(line) = sheet.lines.first_mut() {
        line.ending = random.pick([b"\n".as_slice(), b"\r\n", b"", b"\n\n", b"\r"]);
    }
}

/// Another byte somewhere, put in or in place of one.
fn damage_byte(random: &mut Random, bytes: &mut Vec<u8>) {
    let at = random.index(bytes.len() + 1);
    let new = random.pick([
        0, 0x80, 0xff, b'\r', b'\n', b',', b' ', b'.', b'0', b'\t', b';',
    ]);
    match bytes.get_mut(at) {
        Some(byte) if random.chance(50) => *byte = new,
        _ => bytes.insert(at.min(bytes.len()), new),
    }
}

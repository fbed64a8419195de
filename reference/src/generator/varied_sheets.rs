//! Sample files of all sizes, for a reader that takes a file in pieces: each class
//! of sizes has a fixed share of the cases. Long files are few, so that many cases
//! can be read in a short time.

use super::growing_sheet::{GrowingSheet, Style};
use super::plain_rows::Numbers;
use super::random::Random;
use super::sheet_faults;
use super::{exact_rows, samples_file};
use crate::refusal::Refusal;
use crate::samples::Reading;

/// The classes of sizes.
#[derive(Clone, Copy, Debug, PartialEq, Eq, PartialOrd, Ord)]
pub enum Class {
    /// Past 65,536 bytes, mostly with a line that ends there or beside it.
    Past65536,
    /// Some ten thousand short lines.
    TenThousandLines,
    /// Many short lines, up to two thousand.
    ManyLines,
    /// Past one or two multiples of 4,096 bytes, as above.
    Past4096,
    /// Past one to three multiples of 512 bytes, as above.
    Past512,
    /// With a line of about 512 bytes; no such line is good.
    LongLine,
    /// Some plain rows as a logger writes them; of a refused file, mostly several
    /// before the refused line.
    Plain,
    /// A heading line and some rows.
    Small,
}

/// How many of each `CYCLE` cases in a row a class has.
pub const SHARES: [(Class, u64); 8] = [
    (Class::Past65536, 2),
    (Class::TenThousandLines, 1),
    (Class::ManyLines, 6),
    (Class::Past4096, 16),
    (Class::Past512, 60),
    (Class::LongLine, 60),
    (Class::Plain, 80),
    (Class::Small, 275),
];

/// The sum of the shares.
pub const CYCLE: u64 = 500;

/// Has no divisor in common with `CYCLE`: steps of so many meet every case of a
/// cycle once, and those of a class lie apart.
const STRIDE: u64 = 309;

/// A file, and the answer that it was made for where that is known: the accepted
/// rows, or the refusal and the rows before it.
pub struct Made {
    pub bytes: Vec<u8>,
    pub answer: Option<Reading>,
}

impl Made {
    /// A file that is accepted as it is.
    fn good(growing: &GrowingSheet) -> Made {
        Made {
            bytes: growing.sheet.bytes(),
            answer: Some(Reading {
                rows: growing.rows(),
                refusal: None,
            }),
        }
    }

    /// A file with a fault in it. Without a place no line is before the refusal.
    fn refused(growing: &GrowingSheet, refusal: Refusal) -> Made {
        let index = (refusal.place as usize).saturating_sub(1);
        Made {
            bytes: growing.sheet.bytes(),
            answer: Some(Reading {
                rows: growing.rows_before(index),
                refusal: Some(refusal),
            }),
        }
    }
}

/// The file of the case that has so many cases before it.
pub fn file(random: &mut Random, before: u64) -> Vec<u8> {
    made(random, class(before)).bytes
}

/// The class of the case that has so many cases before it.
pub fn class(before: u64) -> Class {
    let mut left = before % CYCLE * STRIDE % CYCLE;
    for (class, share) in SHARES {
        if left < share {
            return class;
        }
        left -= share;
    }
    Class::Small
}

/// A file of a class, good or damaged.
pub fn made(random: &mut Random, class: Class) -> Made {
    match class {
        Class::Past65536 => {
            let pieces = random.pick([1, 1, 1, 2]);
            past(random, 65_536, pieces)
        }
        Class::TenThousandLines => {
            let rows = random.between(9_000, 12_000);
            short_rows(random, rows)
        }
        Class::ManyLines => {
            let most = random.pick([125, 250, 500, 1_000, 2_000]);
            let rows = random.between(most / 2, most);
            short_rows(random, rows)
        }
        Class::Past4096 => {
            let pieces = random.pick([1, 1, 1, 2]);
            past(random, 4_096, pieces)
        }
        Class::Past512 => {
            let pieces = random.pick([1, 1, 2, 3]);
            past(random, 512, pieces)
        }
        Class::LongLine => long_line(random),
        Class::Plain => plain(random),
        Class::Small => Made {
            bytes: samples_file(random),
            answer: None,
        },
    }
}

fn style(random: &mut Random, longest_row: usize) -> Style {
    Style {
        longest_row,
        rise_percent: random.pick([0, 1, 30, 90, 100]),
        longest_step: random.pick([1, 1, 20, 30_000]),
    }
}

/// Where a line is to end for the sake of a multiple: there, up to three bytes
/// beside it, or further on so that the line lies across it.
fn beside(random: &mut Random, multiple: usize) -> usize {
    match random.chance(80) {
        true => multiple + 3 - random.index(7),
        false => multiple + random.index(40),
    }
}

/// A file that goes on past so many multiples of a length, or ends at the last.
fn past(random: &mut Random, length: usize, multiples: usize) -> Made {
    let longest_row = random.pick([8, 20, 42]);
    let style = style(random, longest_row);
    let mut growing = GrowingSheet::new(random, style);
    let more_rows = random.pick([0, 0, 0, 1, 2, 20]);
    for multiple in 1..=multiples {
        let size = beside(random, length * multiple);
        let ends_the_file = multiple == multiples && more_rows == 0;
        let without_lf = ends_the_file && random.chance(50);
        growing.grow_to(random, size, without_lf);
    }
    growing.add_rows(random, more_rows);
    if more_rows > 0 && random.chance(50) {
        growing.end_without_lf();
    }
    good_or_damaged(random, growing, length)
}

/// A file of very many rows that are as short as rows can be, or nearly.
fn short_rows(random: &mut Random, rows: u64) -> Made {
    let longest_row = exact_rows::shortest(0) + random.pick([0, 0, 1, 3]);
    let style = style(random, longest_row);
    let mut growing = GrowingSheet::new(random, style);
    growing.add_rows(random, rows);
    if random.chance(50) {
        growing.end_without_lf();
    }
    good_or_damaged(random, growing, 4_096)
}

/// A file of some plain rows, with or without CR, as it is, with another byte
/// somewhere, or with a fault: in the last line, which may have no LF, or in one
/// before it with rows on both sides.
fn plain(random: &mut Random) -> Made {
    let style = Style {
        longest_row: exact_rows::LONGEST,
        rise_percent: random.pick([50, 85, 100, 100]),
        longest_step: random.pick([1, 10, 3_600, 20_000_000]),
    };
    let mut growing = GrowingSheet::new(random, style);
    let numbers = Numbers {
        kilowatts: random.pick([9, 99, 999, 50_000]),
        decimals: random.pick([0, 0, 1, 3]),
    };
    let rows = random.between(3, 16);
    growing.add_plain_rows(random, rows, numbers);
    if random.chance(50) {
        growing.end_without_lf();
    }
    let last = growing.sheet.lines.len() - 1;
    match random.between(0, 99) {
        0..=39 => Made::good(&growing),
        40..=64 => faulty(random, growing, last),
        65..=89 => {
            let index = random.between(2, last as u64 - 1) as usize;
            faulty(random, growing, index)
        }
        _ => changed(random, &growing, 64),
    }
}

/// A file as it is, or with a fault, or with another byte somewhere.
fn good_or_damaged(random: &mut Random, growing: GrowingSheet, length: usize) -> Made {
    match random.between(0, 99) {
        0..=49 => Made::good(&growing),
        50..=91 => {
            let index = row_index(random, &growing);
            faulty(random, growing, index)
        }
        _ => changed(random, &growing, length),
    }
}

/// A file with one fault, mostly in the row of an index so that all lines before it
/// are read; now and then with another fault in a later line, which is not met.
fn faulty(random: &mut Random, mut growing: GrowingSheet, index: usize) -> Made {
    let lines = growing.sheet.lines.len();
    if index + 1 < lines && random.chance(30) {
        let later = index + 1 + random.index(lines - index - 1);
        let number = random.pick([11, 17, 18, 19]);
        sheet_faults::put(random, &mut growing.sheet, number, later);
    }
    let number = match random.chance(85) {
        true => random.pick([11, 17, 18, 18, 19, 20]),
        false => random.pick([12, 13, 14, 15, 16, 21, 22]),
    };
    let refusal = sheet_faults::put(random, &mut growing.sheet, number, index);
    Made::refused(&growing, refusal)
}

/// The index of a row's line: one that was placed or the one after it, the last,
/// the first, or any.
fn row_index(random: &mut Random, growing: &GrowingSheet) -> usize {
    let last = growing.sheet.lines.len() - 1;
    let placed = &growing.placed;
    match random.between(0, 9) {
        0..=3 if !placed.is_empty() => {
            let index = placed[random.index(placed.len())];
            (index + random.index(2)).min(last)
        }
        0 | 1 | 4 | 5 => last,
        6 => 1,
        _ => 1 + random.index(last),
    }
}

/// A file with another byte put in, or in place of one, anywhere or beside a length.
fn changed(random: &mut Random, growing: &GrowingSheet, length: usize) -> Made {
    let mut bytes = growing.sheet.bytes();
    let anywhere = random.index(bytes.len());
    let beside = (length + 2 - random.index(5)).min(bytes.len() - 1);
    let at = random.pick([anywhere, beside]);
    let byte = random.pick([0, 0x80, 0xff, b'\r', b'\n', b'\n', b',', b'.', b'0', b' ']);
    match random.chance(50) {
        true => bytes[at] = byte,
        false => bytes.insert(at, byte),
    }
    Made {
        bytes,
        answer: None,
    }
}

/// A file with a line of about 512 bytes, with CR or without, at any place: it is
/// too long or wrong in another way.
fn long_line(random: &mut Random) -> Made {
    let style = style(random, exact_rows::LONGEST);
    let mut growing = GrowingSheet::new(random, style);
    match random.between(0, 3) {
        0 => {
            let size = beside(random, 512);
            growing.grow_to(random, size, false);
        }
        _ => {
            let rows = random.between(0, 6);
            growing.add_rows(random, rows);
        }
    }
    // Often the last line, where the end of the file may end it.
    let mut index = growing.sheet.lines.len() - 1;
    if random.chance(30) {
        index = random.index(index + 1);
    }
    let whole = match random.chance(1) {
        true => random.pick([4_096, 65_535, 65_536, 65_537]),
        false => random.pick([510, 511, 511, 512, 512, 512, 513, 513, 513, 514, 1_024]),
    };
    let refusal = sheet_faults::lengthen(random, &mut growing.sheet, index, whole);
    Made::refused(&growing, refusal)
}

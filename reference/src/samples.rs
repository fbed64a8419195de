//! The sample file: its heading line, its rows, and the inputs of each second.

use crate::cells::{self, Cell};
use crate::lines::{cells as parts, Line, Lines};
use crate::refusal::Refusal;

/// A column of the sample file.
#[derive(Clone, Copy, Debug, PartialEq, Eq)]
pub enum Column {
    Time,
    Load,
    Solar,
    Sheddable,
}

/// One row, powers in watts.
#[derive(Clone, Copy, Debug, Default, PartialEq, Eq)]
pub struct Sample {
    pub time: u64,
    pub load: u64,
    pub solar: u64,
    pub sheddable: u64,
}

/// What a reader that goes from the top line by line has of a sample file.
#[derive(Clone, Debug, Default, PartialEq, Eq)]
pub struct Reading {
    /// The accepted rows, skipped ones left out: of all lines, or of those before
    /// the refused one.
    pub rows: Vec<Sample>,
    /// The first refusal; none where the file is accepted.
    pub refusal: Option<Refusal>,
}

/// The accepted rows of a sample file, skipped ones left out, or its first refusal.
pub fn read(file: &[u8]) -> Result<Vec<Sample>, Refusal> {
    let reading = read_lines(file);
    match reading.refusal {
        None => Ok(reading.rows),
        Some(refusal) => Err(refusal),
    }
}

/// Reads a sample file up to its first refused line, or to its end.
pub fn read_lines(file: &[u8]) -> Reading {
    let mut rows = Vec::new();
    let refusal = take_rows(file, &mut rows).err();
    Reading { rows, refusal }
}

/// Hands over the accepted rows line by line; those of the lines before the
/// refused one stay handed over.
fn take_rows(file: &[u8], accepted: &mut Vec<Sample>) -> Result<(), Refusal> {
    let mut lines = Lines::of(file);
    // "first heading not `t` (an empty file too)": the heading line is line 1.
    let heading_line = lines.next().ok_or(Refusal::at(16, 1))?;
    let columns = read_headings(&heading_line)?;
    for line in lines {
        let sample = read_row(&line, &columns)?;
        match accepted.last() {
            // "The first row's time is 0."
            None if sample.time != 0 => return Err(Refusal::at(21, line.number)),
            // "A later row whose time is not above the last accepted one is
            // skipped, after its checks".
            Some(last) if sample.time <= last.time => (),
            _ => accepted.push(sample),
        }
    }
    match accepted.is_empty() {
        true => Err(Refusal::placeless(22)),
        false => Ok(()),
    }
}

/// The column that a heading names, compared byte for byte.
fn column(heading: &[u8]) -> Option<Column> {
    match heading {
        b"t" => Some(Column::Time),
        b"LoadP" => Some(Column::Load),
        b"PvAvailP" => Some(Column::Solar),
        b"ShedLoadP" => Some(Column::Sheddable),
        _ => None,
    }
}

/// "Heading line: 11, 16, left to right 12, 13, 14, then 15."
fn read_headings(line: &Line) -> Result<Vec<Column>, Refusal> {
    let refuse = |number| Err(Refusal::at(number, line.number));
    if line.too_long {
        return refuse(11);
    }
    if parts(line.content).next() != Some(b"t") {
        return refuse(16);
    }
    let mut columns = Vec::new();
    for heading in parts(line.content) {
        if heading.is_empty() {
            return refuse(12);
        }
        let Some(column) = column(heading) else {
            return refuse(13);
        };
        // A second `t` is a heading given twice, too.
        if columns.contains(&column) {
            return refuse(14);
        }
        columns.push(column);
    }
    if columns.len() < 4 {
        return refuse(15);
    }
    Ok(columns)
}

/// "Row: 11, 17, cells left to right 18 before 19, then 20"; 21 is asked of the
/// first row alone, by the caller.
fn read_row(line: &Line, columns: &[Column]) -> Result<Sample, Refusal> {
    let refuse = |number| Err(Refusal::at(number, line.number));
    if line.too_long {
        return refuse(11);
    }
    if parts(line.content).count() != columns.len() {
        return refuse(17);
    }
    let mut sample = Sample::default();
    for (cell, column) in parts(line.content).zip(columns) {
        let answer = match column {
            Column::Time => cells::time(cell),
            _ => cells::power(cell),
        };
        let value = match answer {
            Cell::Malformed => return refuse(18),
            Cell::OverLimit => return refuse(19),
            Cell::Value(value) => value,
        };
        match column {
            Column::Time => sample.time = value,
            Column::Load => sample.load = value,
            Column::Solar => sample.solar = value,
            Column::Sheddable => sample.sheddable = value,
        }
    }
    if sample.sheddable > sample.load {
        return refuse(20);
    }
    Ok(sample)
}

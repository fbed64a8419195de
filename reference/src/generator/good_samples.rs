//! Good sample files: any order of columns, either ending, values written in
//! any way that the rules accept.

use super::random::Random;
use super::sheet::{Sheet, SheetLine};
use crate::samples::Sample;

/// A good sample file with rows of any size.
pub fn any(random: &mut Random) -> Sheet {
    let rows = random.edge(1, 12);
    let mut time = 0;
    let mut samples = Vec::new();
    for row in 0..rows {
        samples.push(any_row(random, if row == 0 { 0 } else { time }));
        time = next_time(random, time);
    }
    sheet(random, &samples)
}

fn any_row(random: &mut Random, time: u64) -> Sample {
    let load = random.edge(0, 50_000_000);
    Sample {
        time,
        load,
        solar: random.edge(0, 50_000_000),
        sheddable: random.edge(0, load),
    }
}

/// A later time, mostly; one that is not above the last now and then.
fn next_time(random: &mut Random, time: u64) -> u64 {
    match random.between(0, 9) {
        0 => time,
        1 => time.saturating_sub(random.between(0, 5)),
        2 => random.pick([0, 1, 316_223_999, 316_223_998]),
        _ => (time + random.between(1, 20)).min(316_223_999),
    }
}

/// Rows as a sheet, written in some accepted way.
pub fn sheet(random: &mut Random, samples: &[Sample]) -> Sheet {
    let mut columns: [usize; 3] = [0, 1, 2];
    let (one, two) = (random.index(3), random.index(3));
    columns.swap(0, one);
    columns.swap(1, two);
    let names: [&[u8]; 3] = [b"LoadP", b"PvAvailP", b"ShedLoadP"];
    let mut headings = vec![b"t".to_vec()];
    headings.extend(columns.map(|column| names[column].to_vec()));
    let style = random.between(0, 2);
    let mut sheet = Sheet::default();
    sheet.lines.push(line(random, headings, style));
    for sample in samples {
        let powers = [sample.load, sample.solar, sample.sheddable];
        let mut cells = vec![time_text(random, sample.time)];
        cells.extend(columns.map(|column| power_text(random, powers[column])));
        sheet.lines.push(line(random, cells, style));
    }
    if random.chance(40) {
        if let Some(last) = sheet.lines.last_mut() {
            last.ending = b"";
        }
    }
    sheet
}

/// A line that ends in LF, in CR LF, or in either.
fn line(random: &mut Random, cells: Vec<Vec<u8>>, style: u64) -> SheetLine {
    let ending: &[u8] = match style {
        0 => b"\n",
        1 => b"\r\n",
        _ => random.pick([b"\n".as_slice(), b"\r\n"]),
    };
    SheetLine { cells, ending }
}

/// A time, with leading zeros now and then.
fn time_text(random: &mut Random, time: u64) -> Vec<u8> {
    let width = random.pick([1, 1, 1, 2, 9]);
    format!("{time:0width$}").into_bytes()
}

/// Watts as kW with as many decimals as are needed, or more, and now and then
/// leading zeros.
fn power_text(random: &mut Random, watts: u64) -> Vec<u8> {
    let (kilowatts, rest) = (watts / 1_000, watts % 1_000);
    let width = random.pick([1, 1, 1, 3, 6]);
    let full = format!("{rest:03}");
    let needed = full.trim_end_matches('0').len();
    let decimals = match random.chance(70) {
        true => needed,
        false => random.between(needed as u64, 3) as usize,
    };
    let mut text = format!("{kilowatts:0width$}");
    if decimals > 0 {
        text.push('.');
        text.push_str(&full[..decimals]);
    }
    text.into_bytes()
}

//! The generator: good and damaged cases of each kind from a seed alone.

pub mod encode;
pub mod exact_rows;
pub mod good_samples;
pub mod good_stations;
pub mod growing_sheet;
pub mod judged_runs;
pub mod plain_rows;
pub mod random;
pub mod record_damage;
pub mod records;
pub mod runs;
pub mod seconds;
pub mod sheet;
pub mod sheet_damage;
pub mod sheet_faults;
pub mod sizing_queries;
pub mod station_damage;
pub mod stations;
pub mod varied_sheets;

use std::io::{self, Write};

use crate::batch::Kind;
use crate::hex;
use random::Random;

/// Prints `count` cases of a kind, one a line; the seed decides them.
pub fn write_cases(kind: Kind, seed: u64, count: u64, out: &mut impl Write) -> io::Result<()> {
    let mut random = Random::from_seed(seed);
    for before in 0..count {
        writeln!(out, "{}", case(kind, &mut random, before))?;
    }
    Ok(())
}

/// One case of a kind, as its line without LF. How many cases come before it
/// decides the size of a sheet.
pub fn case(kind: Kind, random: &mut Random, before: u64) -> String {
    match kind {
        Kind::Stations => stations::case(random),
        Kind::Samples => hex::write(&samples_file(random)),
        Kind::Sheets => hex::write(&varied_sheets::file(random, before)),
        Kind::Runs => runs::case(random),
        Kind::Seconds => seconds::case(random),
        // Runs that are still to be printed.
        Kind::Judged | Kind::Exercised | Kind::Changed => judged_runs::case(random),
    }
}

/// A small sample file, good or damaged, half and half.
fn samples_file(random: &mut Random) -> Vec<u8> {
    let sheet = good_samples::any(random);
    if random.chance(50) {
        sheet.bytes()
    } else {
        sheet_damage::damaged(random, sheet)
    }
}

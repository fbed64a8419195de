//! The run program: both files checked, then a row a second and a line a set.

use std::io::{self, Write};

use crate::cells::digits;
use crate::dispatch::Inputs;
use crate::limits::{ROW_BUFFER, SECONDS};
use crate::refusal::Refusal;
use crate::row::HEADING;
use crate::run_record::RunRecord;
use crate::samples::{self, Sample};
use crate::second::second;
use crate::station::Station;
use crate::station_file;

const SET_HEADING: &str = "set,run,starts,stops,energy,fuel\n";

/// "Seconds asked are 1 to 9 digits, else 18; over 316,224,000 gives 23".
pub fn read_seconds(argument: &[u8]) -> Result<u64, Refusal> {
    match digits(argument, 9) {
        None => Err(Refusal::placeless(18)),
        Some(seconds) if seconds > SECONDS => Err(Refusal::placeless(23)),
        Some(seconds) => Ok(seconds),
    }
}

/// Prints a whole run, or "only `refused,number,place`" with its LF.
pub fn write_run(
    station_file: &[u8],
    sample_file: &[u8],
    seconds: &[u8],
    out: &mut impl Write,
) -> io::Result<()> {
    match check(station_file, sample_file, seconds) {
        Ok((station, samples, seconds)) => write_seconds(&station, &samples, seconds, out),
        Err(refusal) => writeln!(out, "{refusal}"),
    }
}

/// "The run program checks both files, station first, before second 0"; the
/// seconds asked come after the files.
fn check(
    station_file: &[u8],
    sample_file: &[u8],
    seconds: &[u8],
) -> Result<(Station, Vec<Sample>, u64), Refusal> {
    let station = station_file::read(station_file)?;
    let samples = samples::read(sample_file)?;
    Ok((station, samples, read_seconds(seconds)?))
}

/// The rows of all seconds, then the set lines.
fn write_seconds(
    station: &Station,
    samples: &[Sample],
    seconds: u64,
    out: &mut impl Write,
) -> io::Result<()> {
    let mut record = RunRecord::start(station);
    let mut rest = samples.iter().peekable();
    let mut inputs = Inputs::default();
    out.write_all(HEADING.as_bytes())?;
    for time in 0..seconds {
        // "A row holds until the next."
        while let Some(sample) = rest.next_if(|sample| sample.time <= time) {
            inputs = sample_inputs(sample);
        }
        let mut buffer = [0; ROW_BUFFER];
        match second(station, &mut record, &inputs, &mut buffer) {
            Ok(length) => out.write_all(buffer.get(..length).unwrap_or(&[]))?,
            // Checked files and a record from its start are never refused.
            Err(refusal) => return Err(io::Error::other(refusal.to_string())),
        }
    }
    write_sets(station, &record, out)
}

/// A row's watts as a second is handed them; each is at most 50,000,000.
fn sample_inputs(sample: &Sample) -> Inputs {
    Inputs {
        load: sample.load as u32,
        solar: sample.solar as u32,
        sheddable: sample.sheddable as u32,
    }
}

/// A line for each existing set.
fn write_sets(station: &Station, record: &RunRecord, out: &mut impl Write) -> io::Result<()> {
    out.write_all(SET_HEADING.as_bytes())?;
    let sets = record.sets.iter().zip(station.existing_sets());
    for (before, (set, _)) in sets.enumerate() {
        writeln!(
            out,
            "{},{},{},{},{},{}",
            before + 1,
            set.run_seconds,
            set.starts,
            set.stops,
            set.energy,
            set.fuel
        )?;
    }
    Ok(())
}

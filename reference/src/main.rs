//! The program `reference`: the run program of document 01, the file checks,
//! the sizing answers, and batches of cases for a comparison.

use std::ffi::{OsStr, OsString};
use std::fs;
use std::io::{self, BufWriter, Read, Write};
use std::os::unix::ffi::OsStrExt;
use std::process::ExitCode;

use reference::batch::{self, Kind};
use reference::judge::{answers, judge};
use reference::{run, samples, sizing, station_file, text};

const USAGE: &str = "how to call it:
  reference run STATION SAMPLES SECONDS
  reference check-station FILE
  reference check-samples FILE
  reference share STATION MASK POWER SET
  reference rate STATION MASK POWER
  reference second            (one case on standard input)
  reference judge STATION SAMPLES SECONDS ROWS   (ROWS is what was printed, - for standard input)
  reference batch KIND        (stations, samples, sheets, runs, seconds, judged, exercised or changed;
                               cases on standard input)";

fn main() -> ExitCode {
    let arguments: Vec<OsString> = std::env::args_os().skip(1).collect();
    match perform(&arguments) {
        Ok(()) => ExitCode::SUCCESS,
        Err(message) => {
            // A message that can't be written has nobody to read it.
            let _ = writeln!(io::stderr(), "reference: {message}");
            ExitCode::from(2)
        }
    }
}

/// Does what the arguments ask, or says what was wrong.
fn perform(arguments: &[OsString]) -> Result<(), String> {
    let Some((command, rest)) = arguments.split_first() else {
        return Err(USAGE.to_string());
    };
    let rest: Vec<&OsStr> = rest.iter().map(OsString::as_os_str).collect();
    match (command.as_bytes(), rest.as_slice()) {
        (b"run", [station, samples, seconds]) => run_files(station, samples, seconds),
        (b"check-station", [file]) => print(&batch::checked(station_file::read(&read(file)?))),
        (b"check-samples", [file]) => print(&batch::checked(samples::read(&read(file)?))),
        (b"share", [station, mask, power, set]) => {
            let (mask, power, set) = (number(mask)?, number(power)?, number(set)?);
            print(&batch::numbered(sizing::share(
                &read(station)?,
                mask,
                power,
                set,
            )))
        }
        (b"rate", [station, mask, power]) => {
            let (mask, power) = (number(mask)?, number(power)?);
            print(&batch::numbered(sizing::rate(&read(station)?, mask, power)))
        }
        (b"judge", [station, samples, seconds, rows]) => {
            judge_files(station, samples, seconds, rows)
        }
        (b"second", []) => answer_second(),
        (b"batch", [kind]) => answer_batch(kind),
        _ => Err(USAGE.to_string()),
    }
}

/// The run program. The station comes first: its refusal is printed even where
/// the sample file can't be opened.
fn run_files(station: &OsStr, samples: &OsStr, seconds: &OsStr) -> Result<(), String> {
    let station = read(station)?;
    if let Err(refusal) = station_file::read(&station) {
        return print(&refusal.to_string());
    }
    let samples = read(samples)?;
    let mut out = BufWriter::new(io::stdout().lock());
    run::write_run(&station, &samples, seconds.as_bytes(), &mut out)
        .and_then(|()| out.flush())
        .map_err(written)
}

/// The judge of demand 3, on what a run program printed.
fn judge_files(
    station: &OsStr,
    samples: &OsStr,
    seconds: &OsStr,
    rows: &OsStr,
) -> Result<(), String> {
    let (station, samples) = (read(station)?, read(samples)?);
    let rows = match rows.as_bytes() {
        b"-" => read_input()?,
        _ => read(rows)?,
    };
    let verdict = judge(&station, &samples, seconds.as_bytes(), &rows);
    print(&answers::answer(&verdict))
}

fn read_input() -> Result<Vec<u8>, String> {
    let mut input = Vec::new();
    let read = io::stdin().read_to_end(&mut input);
    read.map_err(|error| format!("standard input: {error}"))?;
    Ok(input)
}

/// One case on standard input.
fn answer_second() -> Result<(), String> {
    let mut input = String::new();
    let read = io::stdin().read_to_string(&mut input);
    read.map_err(|error| format!("standard input: {error}"))?;
    match text::read_case(&input) {
        Some(case) => print(&text::answer(&case)),
        None => Err("standard input holds no case of one second".to_string()),
    }
}

/// Many cases on standard input.
fn answer_batch(kind: &OsStr) -> Result<(), String> {
    let kind = kind.to_str().and_then(Kind::named).ok_or(USAGE)?;
    let mut out = BufWriter::new(io::stdout().lock());
    batch::answer_all(kind, io::stdin().lock(), &mut out)
        .and_then(|()| out.flush())
        .map_err(written)
}

fn read(file: &OsStr) -> Result<Vec<u8>, String> {
    fs::read(file).map_err(|error| format!("{}: {error}", file.to_string_lossy()))
}

fn number(argument: &OsStr) -> Result<u64, String> {
    let number = argument.to_str().and_then(|text| text.parse().ok());
    number.ok_or_else(|| format!("{}: no number\n{USAGE}", argument.to_string_lossy()))
}

fn print(line: &str) -> Result<(), String> {
    writeln!(io::stdout(), "{line}").map_err(written)
}

fn written(error: io::Error) -> String {
    format!("standard output: {error}")
}

//! Many cases, one a line, answered one a line.

use std::io::{self, BufRead, Write};

use crate::hex;
use crate::judge::answers;
use crate::refusal::Refusal;
use crate::run::write_run;
use crate::samples::{self, Reading};
use crate::sizing;
use crate::station_file;
use crate::text;

/// The kinds of cases.
#[derive(Clone, Copy, Debug, PartialEq, Eq)]
pub enum Kind {
    Stations,
    Samples,
    Sheets,
    Runs,
    Seconds,
    /// Printed runs, for the judge of demand 3.
    Judged,
    Exercised,
    Changed,
}

impl Kind {
    pub fn named(name: &str) -> Option<Kind> {
        match name {
            "stations" => Some(Kind::Stations),
            "samples" => Some(Kind::Samples),
            "sheets" => Some(Kind::Sheets),
            "runs" => Some(Kind::Runs),
            "seconds" => Some(Kind::Seconds),
            "judged" => Some(Kind::Judged),
            "exercised" => Some(Kind::Exercised),
            "changed" => Some(Kind::Changed),
            _ => None,
        }
    }
}

/// What stands for the answer of a line that is no case of its kind.
pub const MALFORMED: &str = "malformed";

/// Answers every line of the input.
pub fn answer_all(kind: Kind, input: impl BufRead, out: &mut impl Write) -> io::Result<()> {
    for line in input.split(b'\n') {
        let line = line?;
        let case = std::str::from_utf8(&line).ok();
        let answer = case.and_then(|case| answer_line(kind, case));
        writeln!(out, "{}", answer.as_deref().unwrap_or(MALFORMED))?;
    }
    Ok(())
}

/// The answer of one case, or nothing where the line is no case of the kind.
pub fn answer_line(kind: Kind, line: &str) -> Option<String> {
    match kind {
        Kind::Stations => answer_station(line),
        Kind::Samples => Some(checked(samples::read(&hex::read(line)?))),
        Kind::Sheets => Some(rows(samples::read_lines(&hex::read(line)?))),
        Kind::Runs => answer_run(line),
        Kind::Seconds => Some(text::answer(&text::read_case(line)?)),
        Kind::Judged => answers::judged(line),
        Kind::Exercised => answers::exercised(line),
        Kind::Changed => answers::changed(line),
    }
}

/// A file check's answer: `accepted` or its refusal.
pub fn checked<T>(outcome: Result<T, Refusal>) -> String {
    match outcome {
        Ok(_) => "accepted".to_string(),
        Err(refusal) => refusal.to_string(),
    }
}

/// A sample file's accepted rows, skipped ones left out: `accepted` or the refusal,
/// how many rows there are (before the refused line), and each as
/// `time:load:solar:sheddable`.
pub fn rows(reading: Reading) -> String {
    let verdict = match reading.refusal {
        None => "accepted".to_string(),
        Some(refusal) => refusal.to_string(),
    };
    let mut text = format!("{verdict} {}", reading.rows.len());
    for sample in reading.rows {
        let (time, load) = (sample.time, sample.load);
        let (solar, sheddable) = (sample.solar, sample.sheddable);
        text.push_str(&format!(" {time}:{load}:{solar}:{sheddable}"));
    }
    text
}

/// A number or its refusal.
pub fn numbered(outcome: Result<u64, Refusal>) -> String {
    match outcome {
        Ok(number) => number.to_string(),
        Err(refusal) => refusal.to_string(),
    }
}

/// Exactly `N` fields with one space between them.
fn fields<const N: usize>(line: &str) -> Option<[&str; N]> {
    line.split(' ').collect::<Vec<_>>().try_into().ok()
}

/// `HEX MASK POWER SET`: check, share and rate.
fn answer_station(line: &str) -> Option<String> {
    let [file, mask, power, set] = fields(line)?;
    let file = hex::read(file)?;
    let (mask, power) = (mask.parse().ok()?, power.parse().ok()?);
    let set = set.parse().ok()?;
    let check = checked(station_file::read(&file));
    let share = numbered(sizing::share(&file, mask, power, set));
    let rate = numbered(sizing::rate(&file, mask, power));
    Some(format!("{check} {share} {rate}"))
}

/// `HEX HEX HEX`: the hex of what the run program prints.
fn answer_run(line: &str) -> Option<String> {
    let [station, samples, seconds] = fields(line)?;
    let (station, samples) = (hex::read(station)?, hex::read(samples)?);
    let mut printed = Vec::new();
    write_run(&station, &samples, &hex::read(seconds)?, &mut printed).ok()?;
    Some(hex::write(&printed))
}

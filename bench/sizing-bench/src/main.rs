//! sizing-bench STATION-A: the library's three calls against the reference's, side by side in this one process.

mod calls;
mod stations;

use std::hint::black_box;
use std::process::ExitCode;
use std::time::{Duration, Instant};

use calls::{ours, theirs, Answer, Call};

/// Rounds of each row; every round times both sides, and the medians stand for them.
const ROUNDS: usize = 401;
/// How long one side's turn in a round is to last: short, so that both sides meet the same state of the machine.
const TURN: Duration = Duration::from_micros(100);

/// One side of the comparison.
type Side = fn(&[u8], Call) -> Answer;

fn main() -> ExitCode {
    let arguments: Vec<_> = std::env::args_os().skip(1).collect();
    let [station_a] = arguments.as_slice() else {
        eprintln!("usage: sizing-bench STATION-A   (the file examples/station-a/station)");
        return ExitCode::from(2);
    };
    match std::fs::read(station_a) {
        Ok(bytes) => measure_all(bytes),
        Err(error) => {
            eprintln!("sizing-bench: {}: {error}", station_a.to_string_lossy());
            ExitCode::from(2)
        }
    }
}

/// Prints the table and, last, the greatest ratio.
fn measure_all(station_a: Vec<u8>) -> ExitCode {
    print_heading();
    let mut greatest: f64 = 0.0;
    for station in stations::all(station_a) {
        for call in station.calls {
            let (one, other) = (ours(&station.bytes, call), theirs(&station.bytes, call));
            if one != other {
                eprintln!(
                    "{}, {}: ours is {one:?} and the reference's {other:?}",
                    call.name(),
                    station.name
                );
                return ExitCode::FAILURE;
            }
            let (mine, reference) = measure(&station.bytes, call);
            let ratio = mine / reference;
            greatest = greatest.max(ratio);
            println!(
                "{:<14}{:<28}{mine:>10.1}{reference:>14.1}{ratio:>8.2}",
                call.name(),
                station.name
            );
        }
    }
    println!("greatest ratio: {greatest:.2}");
    ExitCode::SUCCESS
}

fn print_heading() {
    println!("The C calls of libsizing.a against the reference's own functions, in one process.");
    println!("Each row: {ROUNDS} rounds of some {} us a side, the sides in turn; medians; ratio is ours / reference.", TURN.as_micros());
    println!(
        "No buffer is cleared first: the station is lent read-only, and there is no output buffer."
    );
    println!("The reference is built with its own profile's settings, release with overflow checks; its check hands back the record.");
    println!(
        "{:<14}{:<28}{:>10}{:>14}{:>8}",
        "call", "station", "ours ns", "reference ns", "ratio"
    );
}

/// The medians of both sides, in ns for one call.
fn measure(station: &[u8], call: Call) -> (f64, f64) {
    let (our_count, their_count) = (
        calls_of_a_turn(ours, station, call),
        calls_of_a_turn(theirs, station, call),
    );
    let (mut mine, mut reference) = (Vec::new(), Vec::new());
    for round in 0..ROUNDS {
        // Whoever is second may find the caches warm, so the two take turns at being first.
        if round % 2 == 0 {
            mine.push(timed(ours, station, call, our_count));
            reference.push(timed(theirs, station, call, their_count));
        } else {
            reference.push(timed(theirs, station, call, their_count));
            mine.push(timed(ours, station, call, our_count));
        }
    }
    (median(mine), median(reference))
}

/// So many calls last about one turn.
fn calls_of_a_turn(side: Side, station: &[u8], call: Call) -> u32 {
    let mut count = 1;
    while count < 1 << 20
        && timed(side, station, call, count) * f64::from(count) < TURN.as_nanos() as f64
    {
        count *= 2;
    }
    count
}

/// ns for one call, over a number of calls.
fn timed(side: Side, station: &[u8], call: Call, count: u32) -> f64 {
    let start = Instant::now();
    for _ in 0..count {
        black_box(side(black_box(station), black_box(call)));
    }
    start.elapsed().as_nanos() as f64 / f64::from(count)
}

fn median(mut times: Vec<f64>) -> f64 {
    times.sort_by(f64::total_cmp);
    times.get(times.len() / 2).copied().unwrap_or(f64::NAN)
}

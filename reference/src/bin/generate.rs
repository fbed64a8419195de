//! The program `generate`: cases of a kind from a seed, one a line.

use std::io::{self, BufWriter, Write};
use std::process::ExitCode;

use reference::batch::Kind;
use reference::generator::write_cases;

const USAGE: &str = "how to call it: generate KIND SEED COUNT
  KIND is stations, samples, sheets, runs, seconds or judged; SEED and COUNT are whole numbers";

fn main() -> ExitCode {
    let arguments: Vec<_> = std::env::args_os().skip(1).collect();
    let texts: Option<Vec<&str>> = arguments.iter().map(|text| text.to_str()).collect();
    let outcome = match asked(&texts.unwrap_or_default()) {
        Some((kind, seed, count)) => print(kind, seed, count),
        None => Err(USAGE.to_string()),
    };
    match outcome {
        Ok(()) => ExitCode::SUCCESS,
        Err(message) => {
            // A message that can't be written has nobody to read it.
            let _ = writeln!(io::stderr(), "generate: {message}");
            ExitCode::from(2)
        }
    }
}

/// What the arguments ask for.
fn asked(arguments: &[&str]) -> Option<(Kind, u64, u64)> {
    match arguments {
        [kind, seed, count] => Some((Kind::named(kind)?, seed.parse().ok()?, count.parse().ok()?)),
        _ => None,
    }
}

fn print(kind: Kind, seed: u64, count: u64) -> Result<(), String> {
    let mut out = BufWriter::new(io::stdout().lock());
    write_cases(kind, seed, count, &mut out)
        .and_then(|()| out.flush())
        .map_err(|error| format!("standard output: {error}"))
}

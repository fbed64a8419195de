//! Reading one cell: a time or a power. 18 where it is malformed, 19 where its
//! value is over its limit.

use crate::limits::{POWER, SECONDS};

/// What a cell holds.
#[derive(Clone, Copy, Debug, PartialEq, Eq)]
pub enum Cell {
    Value(u64),
    Malformed,
    OverLimit,
}

/// A whole number of 1 to `most` digits; leading zeros are digits too.
pub fn digits(bytes: &[u8], most: usize) -> Option<u64> {
    if bytes.is_empty() || bytes.len() > most || !bytes.iter().all(u8::is_ascii_digit) {
        return None;
    }
    let value = |sum: u64, digit: &u8| 10 * sum + u64::from(digit - b'0');
    Some(bytes.iter().fold(0, value))
}

/// "Time: 1 to 9 digits, at most 316,223,999."
pub fn time(cell: &[u8]) -> Cell {
    match digits(cell, 9) {
        None => Cell::Malformed,
        Some(seconds) if seconds >= SECONDS => Cell::OverLimit,
        Some(seconds) => Cell::Value(seconds),
    }
}

/// "Power in kW: 1 to 6 digits, then nothing or a point and 1 to 3 digits, at
/// most 50,000 kW." The value is in watts.
pub fn power(cell: &[u8]) -> Cell {
    let mut parts = cell.splitn(2, |byte| *byte == b'.');
    let kilowatts = parts.next().and_then(|whole| digits(whole, 6));
    let watts = match parts.next() {
        None => Some(0),
        Some(decimals) => thousandths(decimals),
    };
    match (kilowatts, watts) {
        (Some(kilowatts), Some(watts)) if 1_000 * kilowatts + watts > POWER => Cell::OverLimit,
        (Some(kilowatts), Some(watts)) => Cell::Value(1_000 * kilowatts + watts),
        _ => Cell::Malformed,
    }
}

/// 1 to 3 digits after the point, as thousandths.
fn thousandths(decimals: &[u8]) -> Option<u64> {
    let value = digits(decimals, 3)?;
    Some(match decimals.len() {
        1 => 100 * value,
        2 => 10 * value,
        _ => value,
    })
}

//! The three calls on both sides, each as a number, a place and a value.

use std::hint::black_box;

use reference::refusal::Refusal;
use reference::{sizing, station_file};

/// The C side's answer, as include/sizing.h declares it.
#[repr(C)]
#[derive(Clone, Copy, Debug, PartialEq, Eq)]
pub struct Answer {
    pub number: u64,
    pub place: u64,
    pub value: u64,
}

extern "C" {
    fn sizing_check_station(station: *const u8, size: usize) -> Answer;
    fn sizing_share(station: *const u8, size: usize, mask: u64, power: u64, set: u64) -> Answer;
    fn sizing_fuel_rate(station: *const u8, size: usize, mask: u64, power: u64) -> Answer;
}

/// What is asked of a station.
#[derive(Clone, Copy)]
pub enum Call {
    Check,
    Share { mask: u64, power: u64, set: u64 },
    FuelRate { mask: u64, power: u64 },
}

impl Call {
    pub fn name(self) -> &'static str {
        match self {
            Call::Check => "check_station",
            Call::Share { .. } => "share",
            Call::FuelRate { .. } => "fuel_rate",
        }
    }
}

/// The library's answer.
pub fn ours(station: &[u8], call: Call) -> Answer {
    let (at, size) = (station.as_ptr(), station.len());
    // SAFETY: the slice has `size` readable bytes, which is all that the header asks for.
    unsafe {
        match call {
            Call::Check => sizing_check_station(at, size),
            Call::Share { mask, power, set } => sizing_share(at, size, mask, power, set),
            Call::FuelRate { mask, power } => sizing_fuel_rate(at, size, mask, power),
        }
    }
}

/// The reference's answer. Its check hands back the whole record, which is kept alive, since a caller of it would use it.
pub fn theirs(station: &[u8], call: Call) -> Answer {
    match call {
        Call::Check => answer(black_box(station_file::read(station)).map(|_| 0)),
        Call::Share { mask, power, set } => answer(sizing::share(station, mask, power, set)),
        Call::FuelRate { mask, power } => answer(sizing::rate(station, mask, power)),
    }
}

fn answer(outcome: Result<u64, Refusal>) -> Answer {
    match outcome {
        Ok(value) => Answer {
            number: 0,
            place: 0,
            value,
        },
        Err(refusal) => Answer {
            number: u64::from(refusal.number),
            place: refusal.place,
            value: 0,
        },
    }
}

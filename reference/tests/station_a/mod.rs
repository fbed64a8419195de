//! Station A of document 01, as a record and as the bytes of its file, and small
//! changes to either. Each test program uses its own part of this.
#![allow(dead_code)]

use reference::dispatch::Inputs;
use reference::refusal::Refusal;
use reference::row::HEADING;
use reference::run::write_run;
use reference::run_record::RunRecord;
use reference::second::second;
use reference::station::Station;
use reference::{samples, station_file};

/// Offsets in station A's file.
pub const CONTROL: usize = 32;
pub const BATTERY: usize = 68;
pub const SET_1: usize = 100;
pub const SET_2: usize = 164;
pub const TABLE: usize = 228;

pub const SAMPLES: &[u8] = b"t,LoadP,PvAvailP,ShedLoadP
0,40,10,0
1,75,10,5
2,75,10,5
3,30,40,5
";

/// The file, number by number as document 01 gives it.
pub fn file() -> Vec<u8> {
    let contents: [(u16, u16, u32); 4] = [(1, 1, 32), (2, 1, 68), (3, 2, 100), (4, 3, 228)];
    let control = [10_000, 50, 40, 90, 1, 0, 3, 0, 2];
    let set_1 = [
        100_000, 2, 1, 0, 0, 2, 0, 2_000, 1_000, 27_000, 0, 0, 0, 0, 0, 0,
    ];
    let set_2 = [
        60_000, 1, 1, 0, 0, 2, 0, 1_500, 1_000, 16_500, 0, 0, 0, 0, 0, 0,
    ];
    let mut bytes = Vec::new();
    for (kind, count, offset) in contents {
        bytes.extend(kind.to_le_bytes());
        bytes.extend(count.to_le_bytes());
        bytes.extend(offset.to_le_bytes());
    }
    bytes.extend(control.into_iter().flat_map(u32::to_le_bytes));
    bytes.extend([20_000, 90].into_iter().flat_map(u32::to_le_bytes));
    bytes.extend(
        [0, 9_000_000, 1_000_000]
            .into_iter()
            .flat_map(u64::to_le_bytes),
    );
    bytes.extend(
        [set_1, set_2]
            .concat()
            .into_iter()
            .flat_map(u32::to_le_bytes),
    );
    bytes.extend([2, 1, 3]);
    bytes
}

/// The station record that the file gives.
pub fn station() -> Station {
    station_file::read(&file()).expect("station A is accepted")
}

/// Station A's file with other bytes at an offset.
pub fn with(at: usize, new: &[u8]) -> Vec<u8> {
    let mut bytes = file();
    bytes[at..at + new.len()].copy_from_slice(new);
    bytes
}

/// Station A's file with another 4-byte number at an offset.
pub fn with4(at: usize, number: u32) -> Vec<u8> {
    with(at, &number.to_le_bytes())
}

/// Station A's file with another 8-byte number at an offset.
pub fn with8(at: usize, number: u64) -> Vec<u8> {
    with(at, &number.to_le_bytes())
}

/// A file check's answer, number and place.
pub fn refused(number: u8, place: u64) -> Option<(u8, u64)> {
    Some((number, place))
}

pub fn check_station(file: &[u8]) -> Option<(u8, u64)> {
    station_file::read(file).err().map(pair)
}

pub fn check_samples(file: &[u8]) -> Option<(u8, u64)> {
    samples::read(file).err().map(pair)
}

/// Rows below the usual heading line.
pub fn check_rows(rows: &str) -> Option<(u8, u64)> {
    check_samples(format!("t,LoadP,PvAvailP,ShedLoadP\n{rows}").as_bytes())
}

pub fn pair(refusal: Refusal) -> (u8, u64) {
    (refusal.number, refusal.place)
}

/// What the run program prints.
pub fn printed(station: &[u8], samples: &[u8], seconds: &[u8]) -> String {
    let mut out = Vec::new();
    write_run(station, samples, seconds, &mut out).expect("a vector takes all bytes");
    String::from_utf8(out).expect("rows are ASCII")
}

pub fn inputs(load: u32, solar: u32, sheddable: u32) -> Inputs {
    Inputs {
        load,
        solar,
        sheddable,
    }
}

/// Works one second that must be accepted; answers its row's numbers.
pub fn work(station: &Station, record: &mut RunRecord, inputs: Inputs) -> Vec<u64> {
    let mut buffer = [0; 256];
    let length = second(station, record, &inputs, &mut buffer).expect("an accepted second");
    let text = std::str::from_utf8(&buffer[..length - 1]).expect("rows are ASCII");
    let numbers = text
        .split(',')
        .map(|number| number.parse().expect("a number"));
    numbers.collect()
}

/// The number of a row's column, by its heading.
pub fn column(row: &[u64], heading: &str) -> u64 {
    let mut headings = HEADING.trim_end().split(',');
    let index = headings.position(|name| name == heading);
    row[index.expect("a heading of the row")]
}

pub const FILTERED_SAMPLES: &str = "t,LoadP,PvAvailP,ShedLoadP
0,84.662,0,0
1,165.662,0,0
";

/// Station A with sets of 100,619 W and 100,000 W and a filter of 803. After 84,662 W a
/// load of 165,662 W makes the exact setpoint 100,619 W, as a fused or a whole-number
/// filter has it. By five operations, each rounded once, it is a little above.
pub fn filtered() -> Station {
    let mut station = station();
    station.control.spinning_reserve = 0;
    station.control.filter_k = 803;
    station.control.start_mask = 3;
    for (set, rating) in station.gensets.iter_mut().zip([100_619, 100_000]) {
        set.rating = rating;
        set.curve.iter_mut().for_each(|point| point.rate = 0);
    }
    station.masks[..3].copy_from_slice(&[1, 3, 2]);
    station
}

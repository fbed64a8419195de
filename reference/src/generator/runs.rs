//! Cases of whole runs: mostly good ones in which much happens.

use super::encode::station_bytes;
use super::random::Random;
use super::{good_samples, good_stations, sheet_damage, stations};
use crate::hex;
use crate::samples::Sample;
use crate::share::capacity;
use crate::station::Station;

/// One case: a station file, a sample file, the seconds asked.
pub fn case(random: &mut Random) -> String {
    let station = match random.chance(92) {
        true => good_stations::lively(random),
        false => good_stations::wide(random),
    };
    let seconds = random.between(10, 300);
    let rows = rows(random, &station, seconds);
    let sheet = good_samples::sheet(random, &rows);
    let faults = match random.chance(75) {
        true => [false; 3],
        false => [30, 40, 50].map(|percent| random.chance(percent)),
    };
    let station_file = match faults[0] {
        true => stations::damaged(random, station),
        false => station_bytes(&station),
    };
    let sample_file = match faults[1] {
        true => sheet_damage::damaged(random, sheet),
        false => sheet.bytes(),
    };
    let asked = match faults[2] {
        true => refused_seconds(random),
        false => accepted_seconds(random, seconds),
    };
    let parts = [station_file, sample_file, asked].map(|part| hex::write(&part));
    parts.join(" ")
}

/// Rows whose loads lie around what the configurations can carry.
fn rows(random: &mut Random, station: &Station, seconds: u64) -> Vec<Sample> {
    let longest = random.pick([1, 3, 10, 40]);
    let mut samples = vec![lively_row(random, station, 0)];
    let mut time = 0;
    while time < seconds {
        time += random.between(1, longest);
        samples.push(lively_row(random, station, time));
        if random.chance(3) {
            // A time that steps back: the row is checked and skipped.
            let earlier = time.saturating_sub(random.between(0, 4));
            samples.push(lively_row(random, station, earlier));
        }
    }
    samples
}

fn lively_row(random: &mut Random, station: &Station, time: u64) -> Sample {
    let load = load_around(random, station);
    let solar = match random.chance(30) {
        true => 0,
        false => random.between(0, 3 * load / 2 + 10),
    };
    Sample {
        time,
        load,
        solar: solar.min(50_000_000),
        sheddable: match random.chance(40) {
            true => 0,
            false => random.edge(0, load),
        },
    }
}

/// A load beside the capacity of some configuration, or up to the whole station's.
pub fn load_around(random: &mut Random, station: &Station) -> u64 {
    let mask = station.called_mask(random.between32(1, station.configurations));
    let some = capacity(station, mask);
    let all = capacity(station, u8::MAX);
    let load = match random.between(0, 7) {
        0 => 0,
        1 => some,
        2 => some + 1,
        3 => some.saturating_sub(1),
        4 => random.between(0, some),
        5 => random.between(0, 2 * all),
        _ => random.between(0, all),
    };
    load.min(50_000_000)
}

/// The seconds as accepted text, at most 300.
fn accepted_seconds(random: &mut Random, seconds: u64) -> Vec<u8> {
    match random.between(0, 19) {
        0 => b"0".to_vec(),
        1 => b"1".to_vec(),
        2 => format!("{seconds:09}").into_bytes(),
        3 => b"000000000".to_vec(),
        _ => seconds.to_string().into_bytes(),
    }
}

/// Seconds that give 18 or 23; none of these is accepted.
fn refused_seconds(random: &mut Random) -> Vec<u8> {
    let text = random.pick([
        b"".as_slice(),
        b"-1",
        b"+5",
        b" 5",
        b"5 ",
        b"5\n",
        b"1.5",
        b"5.",
        b"1e2",
        b"five",
        b"0000000010",
        b"1000000000",
        b"99999999999999999999999",
        b"0x10",
        b"\xff",
        b"\0",
        b"1,0",
    ]);
    match random.chance(50) {
        true => text.to_vec(),
        false => random
            .pick([
                b"316224001".as_slice(),
                b"999999999",
                b"316224100",
                b"400000000",
            ])
            .to_vec(),
    }
}

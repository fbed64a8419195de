//! A station record as the bytes of its file.

use crate::station::Station;

/// The file of a station; counts and offsets are those of its record.
pub fn station_bytes(station: &Station) -> Vec<u8> {
    let table_at = 100 + 64 * station.sets;
    let contents = [
        (1, 1, 32),
        (2, 1, 68),
        (3, station.sets, 100),
        (4, station.configurations, table_at),
    ];
    let mut bytes = Vec::new();
    for (kind, count, offset) in contents {
        bytes.extend(u16::to_le_bytes(kind));
        bytes.extend(u16::to_le_bytes(count as u16));
        bytes.extend(u32::to_le_bytes(offset));
    }
    bytes.extend(control_bytes(station));
    bytes.extend(battery_bytes(station));
    bytes.extend(set_bytes(station));
    bytes.extend(station.table());
    bytes
}

fn control_bytes(station: &Station) -> Vec<u8> {
    let control = &station.control;
    let numbers = [
        control.spinning_reserve,
        control.solar_coverage,
        control.minimum_load,
        control.shed,
        control.shed_delay,
        control.filter_k,
        control.minimum_seconds,
        control.maintain,
        control.start_mask,
    ];
    numbers.into_iter().flat_map(u32::to_le_bytes).collect()
}

fn battery_bytes(station: &Station) -> Vec<u8> {
    let battery = &station.battery;
    let small = [battery.power, battery.efficiency];
    let contents = [battery.least, battery.most, battery.start];
    let mut bytes: Vec<u8> = small.into_iter().flat_map(u32::to_le_bytes).collect();
    bytes.extend(contents.into_iter().flat_map(u64::to_le_bytes));
    bytes
}

fn set_bytes(station: &Station) -> Vec<u8> {
    let mut numbers = Vec::new();
    for genset in station.existing_sets() {
        numbers.extend([genset.rating, genset.warm_up, genset.cool_down]);
        numbers.extend([genset.service_interval, genset.service_time]);
        numbers.push(genset.points);
        numbers.extend(genset.curve.iter().flat_map(|pair| [pair.load, pair.rate]));
    }
    numbers.into_iter().flat_map(u32::to_le_bytes).collect()
}

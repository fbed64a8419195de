//! Share and fuel rate as the C sizing screen asks for them, on plain numbers.

use crate::fuel;
use crate::refusal::Refusal;
use crate::share::{capacity, shares};
use crate::station::{existing_only, Station};
use crate::station_file;

/// "Share takes station bytes, a mask, a power and a set's number, and answers
/// that set's watts, 0 if it is not in the mask".
pub fn share(station_file: &[u8], mask: u64, power: u64, set: u64) -> Result<u64, Refusal> {
    let station = station_file::read(station_file)?;
    let mask = checked_mask(&station, mask)?;
    check_power(&station, mask, power)?;
    let watts = shares(&station, mask, power);
    let index = set.checked_sub(1).and_then(|index| index.try_into().ok());
    let answer = index.and_then(|index: usize| watts.get(index));
    Ok(answer.copied().unwrap_or(0))
}

/// "fuel rate takes the first three, with a mask of one set".
pub fn rate(station_file: &[u8], mask: u64, power: u64) -> Result<u64, Refusal> {
    let station = station_file::read(station_file)?;
    let mask = checked_mask(&station, mask)?;
    if mask.count_ones() != 1 {
        return Err(Refusal::placeless(8));
    }
    check_power(&station, mask, power)?;
    let genset = station.gensets.get(mask.trailing_zeros() as usize);
    Ok(genset.map_or(0, |genset| fuel::rate(genset, power)))
}

/// 8 for a mask that is zero or names a set that does not exist.
fn checked_mask(station: &Station, mask: u64) -> Result<u8, Refusal> {
    match u8::try_from(mask) {
        Ok(small) if small != 0 && existing_only(mask, station.sets) => Ok(small),
        _ => Err(Refusal::placeless(8)),
    }
}

/// "then 19 for power above its capacity".
fn check_power(station: &Station, mask: u8, power: u64) -> Result<(), Refusal> {
    if power > capacity(station, mask) {
        return Err(Refusal::placeless(19));
    }
    Ok(())
}

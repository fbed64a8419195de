//! One second over an explicit station, run record, inputs and row buffer.

use crate::dispatch::{self, Inputs};
use crate::limits::{POWER, ROW_BUFFER, SECONDS};
use crate::refusal::Refusal;
use crate::row::{write_row, Row};
use crate::run_record::{Held, RunRecord};
use crate::station::Station;

/// Works one second and writes its row at the front of the buffer; answers the
/// row's length, LF counted. "A refused call hands the run's record back
/// unchanged and writes nothing to a lent buffer."
pub fn second(
    station: &Station,
    record: &mut RunRecord,
    inputs: &Inputs,
    buffer: &mut [u8],
) -> Result<usize, Refusal> {
    if let Some(number) = refusal_number(station, record, inputs, buffer.len()) {
        return Err(Refusal::placeless(number));
    }
    let row = work(station, record, inputs);
    Ok(write_row(&row, buffer))
}

/// "A second: 25, 24, 23, 19, 20, 26."
fn refusal_number(
    station: &Station,
    record: &RunRecord,
    inputs: &Inputs,
    buffer_length: usize,
) -> Option<u8> {
    let over = |watts: u32| u64::from(watts) > POWER;
    if !station.given_by_a_file() {
        Some(25)
    } else if !record.possible(station) {
        Some(24)
    } else if u64::from(record.done) >= SECONDS {
        Some(23)
    } else if over(inputs.load) || over(inputs.solar) || over(inputs.sheddable) {
        Some(19)
    } else if inputs.sheddable > inputs.load {
        Some(20)
    } else if buffer_length < ROW_BUFFER {
        Some(26)
    } else {
        None
    }
}

/// The eleven steps in their order; moves the record and answers the row.
fn work(station: &Station, record: &mut RunRecord, inputs: &Inputs) -> Row {
    let sheddable = u64::from(inputs.sheddable);
    dispatch::tick_modes(station, record);
    let sums = dispatch::sums(station, record);
    let watts = dispatch::watts(station, record, &sums, inputs);
    record.store = dispatch::move_store(&station.battery, record.store, &watts);
    let decided = dispatch::shed_decided(&station.control, sheddable, sums.cap, &watts);
    dispatch::hold_decided(station, record, decided);
    dispatch::count_second(station, record, sums.mask, &watts);
    let held = dispatch::hold_setpoint(station, record, sheddable, &watts);
    record.held = Held::Present(held);
    dispatch::call_configuration(station, record, held);
    dispatch::command(station, record);
    let time = record.done;
    record.done += 1;
    Row {
        time,
        watts,
        mask: sums.mask,
        called: record.called,
        store: record.store,
    }
}

//! One row as text: thirteen numbers, commas between them, LF at the end.

use crate::dispatch::Watts;

/// The first line that the run program prints.
pub const HEADING: &str =
    "t,load,shed,solar,charge,spill,give,diesel,unserved,on,sets,call,store\n";

/// What a row shows. "Call and store are after the second."
#[derive(Clone, Copy, Debug, PartialEq, Eq)]
pub struct Row {
    pub time: u32,
    pub watts: Watts,
    pub mask: u8,
    pub called: u32,
    pub store: u64,
}

impl Row {
    /// The row's numbers from left to right; "Row shows their mask and how many
    /// sets that is".
    pub fn columns(&self) -> [u64; 13] {
        let watts = &self.watts;
        [
            u64::from(self.time),
            watts.load,
            watts.shed,
            watts.solar,
            watts.charge,
            watts.spill,
            watts.give,
            watts.diesel,
            watts.unserved,
            u64::from(self.mask),
            u64::from(self.mask.count_ones()),
            u64::from(self.called),
            self.store,
        ]
    }
}

/// Writes the row at the front of the buffer and answers its length, LF
/// counted; "bytes past the row stay". A row is far shorter than 256 bytes.
pub fn write_row(row: &Row, buffer: &mut [u8]) -> usize {
    let numbers = row.columns().map(|number| number.to_string());
    let mut text = numbers.join(",");
    text.push('\n');
    for (place, byte) in buffer.iter_mut().zip(text.bytes()) {
        *place = byte;
    }
    text.len()
}

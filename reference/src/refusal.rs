//! Refusals: "the number and its place from 1", place 0 where there is none.

use std::fmt;

/// One refusal of document 01's table.
#[derive(Clone, Copy, Debug, PartialEq, Eq)]
pub struct Refusal {
    pub number: u8,
    pub place: u64,
}

impl Refusal {
    /// A refusal at a place counted from 1.
    pub fn at(number: u8, place: u64) -> Refusal {
        Refusal { number, place }
    }

    /// A refusal that has no place ("0 for the rest").
    pub fn placeless(number: u8) -> Refusal {
        Refusal::at(number, 0)
    }
}

impl fmt::Display for Refusal {
    fn fmt(&self, f: &mut fmt::Formatter<'_>) -> fmt::Result {
        write!(f, "refused,{},{}", self.number, self.place)
    }
}

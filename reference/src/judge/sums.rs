//! The sums of demand 3: load, solar and store, over the whole list.
//!
//! Demand 3 speaks of every list of seconds, so of every beginning of the list that
//! was printed: the sums are held against each other after each row. As they are equal
//! after one row and after the next, the next row's own numbers balance too; that is
//! not a further clause.

use super::printed::Row;
use super::Clause;
use crate::samples::Sample;
use crate::station::Battery;

/// The sums so far.
#[derive(Clone, Copy, Debug, Default)]
pub struct Sums {
    load_handed_in: i128,
    load_shown: i128,
    /// diesel + solar on the load + given + shed + unserved
    load_parts: i128,
    solar_offered: i128,
    /// solar on the load + charged + spilled
    solar_parts: i128,
    charged: i128,
    given: i128,
}

impl Sums {
    /// Adds a row and what its second was handed.
    pub fn add(&mut self, handed_in: &Sample, row: &Row) {
        let sum = |parts: &[u64]| parts.iter().map(|part| i128::from(*part)).sum::<i128>();
        self.load_handed_in += i128::from(handed_in.load);
        self.load_shown += i128::from(row.load);
        self.load_parts += sum(&[row.diesel, row.solar, row.give, row.shed, row.unserved]);
        self.solar_offered += i128::from(handed_in.solar);
        self.solar_parts += sum(&[row.solar, row.charge, row.spill]);
        self.charged += i128::from(row.charge);
        self.given += i128::from(row.give);
    }

    /// The three clauses, with the store after the list so far.
    pub fn judge(&self, battery: &Battery, store: u64) -> Result<(), Clause> {
        if self.load_handed_in != self.load_parts || self.load_shown != self.load_parts {
            return Err(Clause::Load);
        }
        if self.solar_offered != self.solar_parts {
            return Err(Clause::Solar);
        }
        let gained = i128::from(battery.efficiency) * self.charged;
        if i128::from(store) + 100 * self.given != i128::from(battery.start) + gained {
            return Err(Clause::Store);
        }
        Ok(())
    }
}

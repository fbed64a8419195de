//! The run record: what one second hands to the next, its start, and when it is
//! possible.

use crate::limits::{DELAYS, FUEL, POWER, SECONDS, SETS};
use crate::station::{count, Genset, Station};

/// What a set is doing; counts are remaining seconds.
#[derive(Clone, Copy, Debug, Default, PartialEq, Eq)]
pub enum Mode {
    #[default]
    Off,
    Warming(u32),
    On,
    Cooling(u32),
    Service(u32),
}

/// The held setpoint: "until the first second there is no held setpoint".
#[derive(Clone, Copy, Debug, Default)]
pub enum Held {
    #[default]
    Absent,
    Present(f64),
}

/// "all NaN count as one"; every other number is the bits it is.
impl PartialEq for Held {
    fn eq(&self, other: &Held) -> bool {
        match (self, other) {
            (Held::Absent, Held::Absent) => true,
            (Held::Present(one), Held::Present(two)) => {
                one.to_bits() == two.to_bits() || one.is_nan() && two.is_nan()
            }
            _ => false,
        }
    }
}

/// One set's mode and counts.
#[derive(Clone, Copy, Debug, Default, PartialEq, Eq)]
pub struct SetRecord {
    pub mode: Mode,
    pub run_seconds: u32,
    pub service_clock: u32,
    pub starts: u32,
    pub stops: u32,
    pub energy: u64,
    pub fuel: u64,
}

/// The station totals: solar offered and each watt column of the row, in W s.
#[derive(Clone, Copy, Debug, Default, PartialEq, Eq)]
pub struct Totals {
    pub solar_offered: u64,
    pub load: u64,
    pub shed: u64,
    pub solar: u64,
    pub charge: u64,
    pub spill: u64,
    pub give: u64,
    pub diesel: u64,
    pub unserved: u64,
}

impl Totals {
    /// The nine totals in the order of the row.
    pub fn all(&self) -> [u64; 9] {
        [
            self.solar_offered,
            self.load,
            self.shed,
            self.solar,
            self.charge,
            self.spill,
            self.give,
            self.diesel,
            self.unserved,
        ]
    }
}

/// The record of a run after `done` seconds.
#[derive(Clone, Copy, Debug, PartialEq)]
pub struct RunRecord {
    pub done: u32,
    pub store: u64,
    pub called: u32,
    pub since: u32,
    pub held: Held,
    pub sets: [SetRecord; SETS],
    pub totals: Totals,
    /// "Decided amounts are held oldest first", as many as the delay.
    pub decided: [u32; DELAYS],
}

impl RunRecord {
    /// "At the start: store at its start value, named sets On, others Off,
    /// configuration 0, all counts 0".
    pub fn start(station: &Station) -> RunRecord {
        let mut sets = [SetRecord::default(); SETS];
        for (bit, set) in sets.iter_mut().enumerate() {
            if station.control.start_mask >> bit & 1 == 1 {
                set.mode = Mode::On;
            }
        }
        RunRecord {
            done: 0,
            store: station.battery.start,
            called: 0,
            since: 0,
            held: Held::Absent,
            sets,
            totals: Totals::default(),
            decided: [0; DELAYS],
        }
    }

    /// "A run record is possible when: ..." (else 24).
    pub fn possible(&self, station: &Station) -> bool {
        let delay = count(station.control.shed_delay);
        let most = u128::from(POWER) * u128::from(self.done);
        let mut past_sets = self.sets.iter().skip(count(station.sets));
        let mut decided = self.decided.iter().take(delay);
        let mut past_delay = self.decided.iter().skip(delay);
        u64::from(self.done) <= SECONDS
            && (station.battery.least..=station.battery.most).contains(&self.store)
            && self.called <= station.configurations
            && self.since <= self.done
            && self
                .sets
                .iter()
                .zip(station.existing_sets())
                .all(|(set, genset)| set.possible(genset, self.done))
            && past_sets.all(|set| *set == SetRecord::default())
            && self
                .totals
                .all()
                .iter()
                .all(|total| u128::from(*total) <= most)
            && decided.all(|amount| u64::from(*amount) <= POWER)
            && past_delay.all(|amount| *amount == 0)
    }
}

impl SetRecord {
    /// True where the set "is due (interval > 0, clock >= interval)".
    pub fn due(&self, genset: &Genset) -> bool {
        genset.service_interval > 0 && self.service_clock >= genset.service_interval
    }

    /// An existing set's share of "a run record is possible when".
    fn possible(&self, genset: &Genset, done: u32) -> bool {
        let energy_most = u128::from(genset.rating) * u128::from(done);
        let fuel_most = u128::from(FUEL) * u128::from(done);
        self.mode_possible(genset)
            && self.run_seconds <= done
            && self.service_clock <= done
            && self.starts <= done
            && self.stops <= done
            && u128::from(self.energy) <= energy_most
            && u128::from(self.fuel) <= fuel_most
    }

    /// "remaining seconds of a mode between 1 and that set's own delay; no
    /// service mode at interval 0".
    fn mode_possible(&self, genset: &Genset) -> bool {
        match self.mode {
            Mode::Off | Mode::On => true,
            Mode::Warming(remaining) => (1..=genset.warm_up).contains(&remaining),
            Mode::Cooling(remaining) => (1..=genset.cool_down).contains(&remaining),
            Mode::Service(remaining) => {
                genset.service_interval > 0 && (1..=genset.service_time).contains(&remaining)
            }
        }
    }
}

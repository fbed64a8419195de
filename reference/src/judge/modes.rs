//! A set's mode, its clock and its counts, replayed by steps 1, 8 and 11.

use crate::station::Genset;

/// What a set does. A number is the seconds that are left of it.
#[derive(Clone, Copy, Debug, PartialEq, Eq)]
pub enum Mode {
    Off,
    Warming(u32),
    On,
    Cooling(u32),
    Service(u32),
}

/// One set, replayed.
#[derive(Clone, Copy, Debug)]
pub struct ReplayedSet {
    pub mode: Mode,
    /// Seconds run since the last service.
    pub clock: u64,
    pub run: u64,
    pub starts: u64,
    pub stops: u64,
    pub energy: u64,
    /// The exact sum of the curve, in whole numbers (see `curve`).
    pub burned: i128,
}

impl ReplayedSet {
    /// "At the start: .. named sets On, others Off, .. all counts 0".
    pub fn at_start(named: bool) -> ReplayedSet {
        ReplayedSet {
            mode: if named { Mode::On } else { Mode::Off },
            clock: 0,
            run: 0,
            starts: 0,
            stops: 0,
            energy: 0,
            burned: 0,
        }
    }

    /// "due (interval > 0, clock >= interval)".
    pub fn is_due(&self, genset: &Genset) -> bool {
        let interval = u64::from(genset.service_interval);
        interval > 0 && self.clock >= interval
    }

    pub fn in_service(&self) -> bool {
        matches!(self.mode, Mode::Service(_))
    }

    /// Step 1. "A mode is entered with its full delay."
    pub fn tick(&mut self, genset: &Genset) {
        self.mode = match self.mode {
            Mode::Warming(1) => Mode::On,
            Mode::Cooling(1) if self.is_due(genset) => Mode::Service(genset.service_time),
            Mode::Cooling(1) => Mode::Off,
            Mode::Service(1) => {
                self.clock = 0;
                Mode::Off
            }
            Mode::Warming(left) => Mode::Warming(left.saturating_sub(1)),
            Mode::Cooling(left) => Mode::Cooling(left.saturating_sub(1)),
            Mode::Service(left) => Mode::Service(left.saturating_sub(1)),
            unchanged => unchanged,
        };
    }

    /// Step 8, fuel aside: "A set On adds 1 to run seconds and service clock, its
    /// power to energy".
    pub fn count_second(&mut self, watts: u64) {
        self.run += 1;
        self.clock += 1;
        self.energy += watts;
    }

    /// Step 11, for a set that is called or not.
    pub fn command(&mut self, genset: &Genset, called: bool, every_called_on: bool) {
        match (self.mode, called) {
            (Mode::Off, true) => {
                self.mode = Mode::Warming(genset.warm_up);
                self.starts += 1;
            }
            (Mode::Warming(_), false) => {
                self.mode = Mode::Off;
                self.stops += 1;
            }
            (Mode::On, false) if every_called_on => {
                self.mode = Mode::Cooling(genset.cool_down);
                self.stops += 1;
            }
            _ => (),
        }
    }
}

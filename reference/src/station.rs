//! The station record: what a station file says, and the rule of each value.

use crate::limits::{CONFIGURATIONS, CONTENT, PAIRS, POWER, SETS};

/// The nine control numbers, in the order of the file.
#[derive(Clone, Copy, Debug, Default, PartialEq, Eq)]
pub struct Control {
    pub spinning_reserve: u32,
    pub solar_coverage: u32,
    pub minimum_load: u32,
    pub shed: u32,
    pub shed_delay: u32,
    pub filter_k: u32,
    pub minimum_seconds: u32,
    pub maintain: u32,
    pub start_mask: u32,
}

/// The battery; contents are in hundredths of a Ws.
#[derive(Clone, Copy, Debug, Default, PartialEq, Eq)]
pub struct Battery {
    pub power: u32,
    pub efficiency: u32,
    pub least: u64,
    pub most: u64,
    pub start: u64,
}

/// One point of a fuel curve: thousandths of the rating, mL/h.
#[derive(Clone, Copy, Debug, Default, PartialEq, Eq)]
pub struct Point {
    pub load: u32,
    pub rate: u32,
}

/// One set (genset).
#[derive(Clone, Copy, Debug, Default, PartialEq, Eq)]
pub struct Genset {
    pub rating: u32,
    pub warm_up: u32,
    pub cool_down: u32,
    pub service_interval: u32,
    pub service_time: u32,
    pub points: u32,
    pub curve: [Point; PAIRS],
}

/// A station, with room for the most sets and configurations there may be.
#[derive(Clone, Copy, Debug, PartialEq, Eq)]
pub struct Station {
    pub sets: u32,
    pub configurations: u32,
    pub control: Control,
    pub battery: Battery,
    pub gensets: [Genset; SETS],
    pub masks: [u8; CONFIGURATIONS],
}

impl Default for Station {
    fn default() -> Station {
        Station {
            sets: 0,
            configurations: 0,
            control: Control::default(),
            battery: Battery::default(),
            gensets: [Genset::default(); SETS],
            masks: [0; CONFIGURATIONS],
        }
    }
}

/// True where a mask names existing sets only (bit 0 is set 1).
pub fn existing_only(mask: u64, sets: u32) -> bool {
    (0..u64::BITS).all(|bit| bit < sets || mask >> bit & 1 == 0)
}

impl Control {
    /// "Control, nine 4-byte numbers", each within its range.
    pub fn in_rule(&self, sets: u32) -> bool {
        u64::from(self.spinning_reserve) <= POWER
            && self.solar_coverage <= 100
            && self.minimum_load <= 100
            && self.shed <= 100
            && (1..=60).contains(&self.shed_delay)
            && self.filter_k <= 999
            && self.minimum_seconds <= 86_400
            && self.maintain <= 1
            && existing_only(u64::from(self.start_mask), sets)
    }
}

impl Battery {
    /// "least <= start <= most <= 10,000,000,000,000".
    pub fn in_rule(&self) -> bool {
        u64::from(self.power) <= POWER
            && (1..=100).contains(&self.efficiency)
            && self.least <= self.start
            && self.start <= self.most
            && self.most <= CONTENT
    }
}

impl Genset {
    /// "a set's number before its pairs" (6): the points' number is one of them.
    pub fn numbers_in_rule(&self) -> bool {
        let service_time_in_rule = if self.service_interval == 0 {
            self.service_time == 0
        } else {
            (1..=2_592_000).contains(&self.service_time)
        };
        (1..=10_000_000).contains(&self.rating)
            && (1..=3_600).contains(&self.warm_up)
            && (1..=3_600).contains(&self.cool_down)
            && self.service_interval <= 100_000_000
            && service_time_in_rule
            && (2..=5).contains(&self.points)
    }

    /// "its pairs" (7): "Loads rise strictly. Unused pairs are zero."
    pub fn pairs_in_rule(&self) -> bool {
        let used = self.used_points();
        let within = |point: &Point| point.load <= 1_500 && point.rate <= 10_000_000;
        let rise = used.iter().zip(used.iter().skip(1));
        let mut unused = self.curve.iter().skip(used.len());
        used.iter().all(within)
            && rise
                .into_iter()
                .all(|(lower, upper)| lower.load < upper.load)
            && unused.all(|point| *point == Point::default())
    }

    /// The pairs that are points of the curve.
    pub fn used_points(&self) -> &[Point] {
        let used = usize::try_from(self.points).unwrap_or(PAIRS).min(PAIRS);
        self.curve.get(..used).unwrap_or(&[])
    }
}

impl Station {
    /// The existing sets, set 1 first.
    pub fn existing_sets(&self) -> impl Iterator<Item = &Genset> {
        self.gensets.iter().take(count(self.sets))
    }

    /// The masks of the table's configurations, configuration 1 first.
    pub fn table(&self) -> impl Iterator<Item = u8> + '_ {
        self.masks.iter().copied().take(count(self.configurations))
    }

    /// The mask of a called configuration; "0 calls no set".
    pub fn called_mask(&self, called: u32) -> u8 {
        match called.checked_sub(1) {
            Some(before) => self.table().nth(count(before)).unwrap_or(0),
            None => 0,
        }
    }

    /// "Configuration: a mask, not zero, existing sets only."
    pub fn configuration_in_rule(&self, mask: u8) -> bool {
        mask != 0 && existing_only(u64::from(mask), self.sets)
    }

    /// False for a "station record that no file gives" (25): a file gives
    /// counts and values within their rules, and zeros past the counts.
    pub fn given_by_a_file(&self) -> bool {
        let (sets, configurations) = (count(self.sets), count(self.configurations));
        let mut past_sets = self.gensets.iter().skip(sets);
        let mut past_table = self.masks.iter().skip(configurations);
        (1..=SETS).contains(&sets)
            && (1..=CONFIGURATIONS).contains(&configurations)
            && self.control.in_rule(self.sets)
            && self.battery.in_rule()
            && self
                .existing_sets()
                .all(|set| set.numbers_in_rule() && set.pairs_in_rule())
            && past_sets.all(|set| *set == Genset::default())
            && self.table().all(|mask| self.configuration_in_rule(mask))
            && past_table.all(|mask| *mask == 0)
    }
}

/// A count as an index; a count too large for an index is past everything.
pub fn count(number: u32) -> usize {
    usize::try_from(number).unwrap_or(usize::MAX)
}

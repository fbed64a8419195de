//! Which changes of one number demand 3's words allow, apart from the judge: a second
//! decision, so that a change that the judge lets pass has to have a reason.
//!
//! By the words two columns alone have room. Every watt column stands once in a sum
//! that must come out after each row; `store` is given by what was charged and given;
//! `t`, `set`, `on`, `sets`, `run`, `starts`, `stops` and `energy` follow from station,
//! inputs and the other numbers. But `fuel` has an allowance, and `call` may be any
//! configuration that serves, or any at all where none does, so long as the later masks
//! and the starts and stops follow from it too. Setpoint, due sets and services follow
//! from watts and masks, and so do not change with `call`.

use super::changed_text::{Change, Way};
use super::printed::{number, Printed, Row};
use super::stories::{laid_up, story, Asked, Story};
use super::Case;
use crate::station::Genset;

/// A case with a text that holds.
pub struct Facts<'a> {
    pub case: &'a Case,
    pub printed: &'a Printed,
}

/// Why the words allow a change, or nothing where they do not.
pub fn allowed_by_words(facts: &Facts, change: &Change) -> Option<String> {
    // These change two columns that stand beside each other, and one of any two such
    // has no room.
    if matches!(change.way, Way::Swapped | Way::Moved) {
        return None;
    }
    let new = number(change.number.as_bytes())?;
    match change.column {
        "fuel" => facts.fuel_allowed(change.before, new),
        "call" => facts.call_allowed(change.before, new),
        _ => None,
    }
}

/// Where a number is by its set in a mask.
fn has(mask: u64, before: usize) -> bool {
    mask >> before & 1 == 1
}

impl Facts<'_> {
    fn genset(&self, before: usize) -> Option<&Genset> {
        self.case.station.existing_sets().nth(before)
    }

    /// The ratings of a mask's sets among the first so many, summed.
    fn rated(&self, mask: u64, first: usize) -> u64 {
        let sets = self.case.station.existing_sets().take(first).enumerate();
        let rating = |(before, set): (usize, &Genset)| match has(mask, before) {
            true => u64::from(set.rating),
            false => 0,
        };
        sets.map(rating).sum()
    }

    /// The exact sum of the curve lies between the count and the count with a unit for
    /// each second run.
    fn fuel_allowed(&self, before: usize, new: u64) -> Option<String> {
        let (whole, has_rest) = self.exact_fuel(before)?;
        let run = self.printed.sets.get(before)?.run;
        let least = (whole + u64::from(has_rest)).saturating_sub(run);
        let allowed = (least..=whole).contains(&new);
        allowed.then(|| "within-a-unit-a-second".to_string())
    }

    /// The whole part of the exact sum, and whether there is more: a sum of fractions
    /// for each piece of the curve, brought together at the end.
    fn exact_fuel(&self, before: usize) -> Option<(u64, bool)> {
        let genset = self.genset(before)?;
        let pieces: Vec<_> = genset.used_points().windows(2).collect();
        let mut over = vec![0_i128; pieces.len()];
        for row in self.printed.rows.iter().filter(|row| has(row.on, before)) {
            let load = 1_000 * i128::from(self.share(row, before));
            let rating = i128::from(genset.rating);
            let inner = genset.used_points().iter().skip(1).take(pieces.len() - 1);
            let piece = inner
                .take_while(|point| i128::from(point.load) * rating <= load)
                .count();
            let [from, to] = *pieces.get(piece)? else {
                return None;
            };
            // The height times the rating and the piece's width.
            let past = load - i128::from(from.load) * rating;
            let to_go = i128::from(to.load) * rating - load;
            let height = i128::from(from.rate) * to_go + i128::from(to.rate) * past;
            *over.get_mut(piece)? += height.max(0);
        }
        let width = |piece: &[crate::station::Point]| match piece {
            [from, to] => i128::from(to.load - from.load),
            _ => 1,
        };
        let under = i128::from(genset.rating) * pieces.iter().map(|p| width(p)).product::<i128>();
        let sum = pieces.iter().zip(&over);
        let sum: i128 = sum
            .map(|(piece, over)| over * (under / i128::from(genset.rating) / width(piece)))
            .sum();
        Some((u64::try_from(sum / under).ok()?, sum % under != 0))
    }

    /// A set's watts in a row.
    fn share(&self, row: &Row, before: usize) -> u64 {
        let whole = self.rated(row.on, usize::MAX);
        let up_to = |first| (row.diesel * self.rated(row.on, first)) / whole;
        up_to(before + 1) - up_to(before)
    }

    /// Another configuration that serves, or any where none does, from which the later
    /// masks, starts and stops follow as they were printed.
    fn call_allowed(&self, before: usize, new: u64) -> Option<String> {
        let station = &self.case.station;
        if new > u64::from(station.configurations) {
            return None;
        }
        let serving = self.serving(before)?;
        if !serving.is_empty() && !serving.contains(&new) {
            return None;
        }
        let serves = if serving.is_empty() {
            "none-serves"
        } else {
            "serves-too"
        };
        let old = self.printed.rows.get(before)?.call;
        if self.sets_of(old) == self.sets_of(new) {
            return Some(format!("{serves}-same-sets"));
        }
        let mut same_phases = true;
        for (place, genset) in station.existing_sets().enumerate() {
            let told = self.told(place, genset, None);
            let changed = self.told(place, genset, Some((before, new)));
            same_phases &= told == changed;
            if !self.shows(place, &changed)? {
                return None;
            }
        }
        Some(match same_phases && before + 1 < self.printed.rows.len() {
            true => format!("{serves}-same-commands"),
            false if same_phases => format!("{serves}-last-row-same-counts"),
            false => format!("{serves}-start-never-shown"),
        })
    }

    fn sets_of(&self, configuration: u64) -> u64 {
        let number = u32::try_from(configuration).unwrap_or(0);
        u64::from(self.case.station.called_mask(number))
    }

    /// The configurations that are usable and cover the held setpoint in a row.
    fn serving(&self, before: usize) -> Option<Vec<u64>> {
        let held = self.held(before);
        let mut unusable = 0;
        for (place, genset) in self.case.station.existing_sets().enumerate() {
            let rows = self.printed.rows.iter();
            let on_line: Vec<bool> = rows.map(|row| has(row.on, place)).collect();
            unusable |= u64::from(*laid_up(genset, &on_line).get(before)?) << place;
        }
        let serves = |number: &u64| {
            let sets = self.sets_of(*number);
            sets & unusable == 0 && self.rated(sets, usize::MAX) as f64 >= held
        };
        let numbers = 1..=u64::from(self.case.station.configurations);
        Some(numbers.filter(serves).collect())
    }

    /// The setpoint held after a row. R is what diesel, battery and nobody carried.
    fn held(&self, before: usize) -> f64 {
        let control = &self.case.station.control;
        let mut held = None;
        let rows = self.printed.rows.iter().take(before + 1);
        for (row, handed_in) in rows.zip(self.case.inputs()) {
            let carried = row.diesel + row.give + row.unserved;
            let live = handed_in.sheddable.saturating_sub(row.shed);
            let coverage = (row.solar * u64::from(control.solar_coverage)).div_ceil(100);
            let spinning = u64::from(control.spinning_reserve);
            let reserve = if control.maintain == 1 {
                coverage.saturating_sub(live).max(spinning)
            } else {
                coverage.max(spinning).saturating_sub(live)
            };
            let wanted = (carried + reserve) as f64;
            let k = f64::from(control.filter_k);
            held = Some(match held {
                None => wanted,
                Some(held) => held * (k / 1000.0) + wanted * ((1000.0 - k) / 1000.0),
            });
        }
        held.unwrap_or(f64::NAN)
    }

    /// The story of a set, as printed or with another call in one row.
    fn told(&self, place: usize, genset: &Genset, other: Option<(usize, u64)>) -> Story {
        let rows = self.printed.rows.iter().enumerate();
        let asked = rows.map(|(row_before, row)| {
            let call = match other {
                Some((before, new)) if before == row_before => new,
                _ => row.call,
            };
            let called = self.sets_of(call);
            Asked {
                called: has(called, place),
                every_called_on: called & !row.on == 0,
            }
        });
        let named = u64::from(self.case.station.control.start_mask);
        story(genset, has(named, place), asked)
    }

    /// Whether the masks and the set's line are those of a story.
    fn shows(&self, place: usize, told: &Story) -> Option<bool> {
        let line = self.printed.sets.get(place)?;
        let mut shown = self.printed.rows.iter().zip(&told.phases);
        let masks =
            shown.all(|(row, phase)| has(row.on, place) == (*phase == super::stories::Phase::Runs));
        Some(masks && (line.starts, line.stops) == (told.starts, told.stops))
    }
}

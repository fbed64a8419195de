//! The replay: takes the rows one by one, judges each, and follows what it commands;
//! then judges the sets' lines.

use super::curve::{scale, scaled_rate};
use super::exercised::Exercised;
use super::held;
use super::modes::{Mode, ReplayedSet};
use super::printed::{Row, SetLine};
use super::sums::Sums;
use super::watts::{capacity, watts};
use super::Clause;
use crate::samples::Sample;
use crate::station::{Genset, Station};

/// What follows from the station, the inputs and the rows so far.
pub struct Replay<'a> {
    station: &'a Station,
    sets: Vec<ReplayedSet>,
    held: Option<f64>,
    /// The store after the row before, at first the start's.
    store: u64,
    sums: Sums,
    pub exercised: Exercised,
}

impl<'a> Replay<'a> {
    /// The start of a run.
    pub fn start(station: &'a Station) -> Replay<'a> {
        let named = u64::from(station.control.start_mask);
        let numbers = station.existing_sets().enumerate();
        let at_start = |(before, _)| ReplayedSet::at_start(named >> before & 1 == 1);
        Replay {
            station,
            sets: numbers.map(at_start).collect(),
            held: None,
            store: station.battery.start,
            sums: Sums::default(),
            exercised: Exercised::default(),
        }
    }

    /// Judges the next row. The clauses come in the order in which later ones stand on
    /// earlier ones: watts need the right mask, the setpoint the right load.
    pub fn row(&mut self, handed_in: &Sample, row: &Row) -> Result<(), Clause> {
        self.each_set(|set, genset| set.tick(genset));
        self.judge_mask(row)?;
        self.sums.add(handed_in, row);
        self.sums.judge(&self.station.battery, row.store)?;
        self.judge_limits(row)?;
        let watts = watts(self.station, row.on, row.diesel);
        self.judge_unserved(row, &watts)?;
        self.judge_watts(row, &watts)?;
        self.count_second(row, &watts);
        let wanted = held::wanted(self.station, handed_in, row);
        let held = held::next_held(self.station, self.held, wanted);
        self.held = Some(held);
        self.judge_called(row, held)?;
        self.observe(row, held != wanted as f64);
        self.command(row);
        self.store = row.store;
        Ok(())
    }

    fn each_set(&mut self, mut action: impl FnMut(&mut ReplayedSet, &Genset)) {
        for (set, genset) in self.sets.iter_mut().zip(self.station.existing_sets()) {
            action(set, genset);
        }
    }

    /// The mask of the sets for which something is so.
    fn mask_of(&self, holds: impl Fn(&ReplayedSet, &Genset) -> bool) -> u64 {
        let sets = self.sets.iter().zip(self.station.existing_sets());
        let bits = sets.enumerate();
        bits.fold(0, |mask, (before, (set, genset))| {
            mask | u64::from(holds(set, genset)) << before
        })
    }

    /// "Row shows their mask and how many sets that is", of the sets On after step 1.
    fn judge_mask(&self, row: &Row) -> Result<(), Clause> {
        let on = self.mask_of(|set, _| set.mode == Mode::On);
        match row.on == on && row.sets == u64::from(on.count_ones()) {
            true => Ok(()),
            false => Err(Clause::Mask),
        }
    }

    /// "It is within its two limits in each row."
    fn judge_limits(&self, row: &Row) -> Result<(), Clause> {
        let battery = &self.station.battery;
        match (battery.least..=battery.most).contains(&row.store) {
            true => Ok(()),
            false => Err(Clause::Limits),
        }
    }

    /// "Where a row has load unserved, every set on line is at its rating, no solar is
    /// spilled or charged, and the battery gives all that its rating and content
    /// allow": "min(power, (store - least) / 100) of the store a row earlier".
    fn judge_unserved(&self, row: &Row, watts: &[u64]) -> Result<(), Clause> {
        if row.unserved == 0 {
            return Ok(());
        }
        let battery = &self.station.battery;
        let content = self.store.saturating_sub(battery.least) / 100;
        let allowed = u64::from(battery.power).min(content);
        let gensets = self.station.existing_sets().zip(watts).enumerate();
        let mut on_line = gensets.filter(|(before, _)| row.on >> before & 1 == 1);
        let at_rating = on_line.all(|(_, (genset, watts))| u64::from(genset.rating) == *watts);
        match at_rating && row.charge == 0 && row.spill == 0 && row.give == allowed {
            true => Ok(()),
            false => Err(Clause::Unserved),
        }
    }

    /// "with step 6's watts of that row's diesel": they are all of it, and no set is above
    /// its rating. A set that is not on line has no watts.
    fn judge_watts(&self, row: &Row, watts: &[u64]) -> Result<(), Clause> {
        let mut gensets = self.station.existing_sets().zip(watts);
        let within = gensets.all(|(genset, watts)| *watts <= u64::from(genset.rating));
        match within && watts.iter().sum::<u64>() == row.diesel {
            true => Ok(()),
            false => Err(Clause::Watts),
        }
    }

    /// Step 8 of the sets on line, with the exact curve "read as zero where it dips
    /// below zero".
    fn count_second(&mut self, row: &Row, watts: &[u64]) {
        let (mut cut, mut fractional) = (0, 0);
        let mut watts = watts.iter();
        self.each_set(|set, genset| {
            let watts = watts.next().copied().unwrap_or(0);
            if set.mode == Mode::On {
                let exact = scaled_rate(genset, watts);
                set.count_second(watts);
                set.burned += exact.max(0);
                cut += u64::from(exact < 0);
                fractional += u64::from(exact > 0 && exact % scale(genset) != 0);
            }
        });
        self.exercised.cut += cut;
        self.exercised.fractional += fractional;
        self.exercised.dark += u64::from(row.on == 0 && row.load > 0);
    }

    /// "Each row's called configuration is usable and covers the held setpoint, unless
    /// none does." 0 is never usable, and no number is past the table's end.
    fn judge_called(&mut self, row: &Row, held: f64) -> Result<(), Clause> {
        let unusable = self.mask_of(|set, genset| set.is_due(genset) || set.in_service());
        let (mut some_serves, mut called_serves, mut some_covers) = (false, false, false);
        for (number, mask) in (1_u64..).zip(self.station.table()) {
            let mask = u64::from(mask);
            // A capacity is below 2^53, so it is a double as it stands.
            let covers = held <= capacity(self.station, mask) as f64;
            let serves = covers && mask & unusable == 0;
            some_covers |= covers;
            some_serves |= serves;
            called_serves |= serves && number == row.call;
        }
        self.exercised.serving += u64::from(some_serves);
        self.exercised.none_serving += u64::from(!some_serves);
        self.exercised.kept_from_serving += u64::from(some_covers && !some_serves);
        let in_table = row.call <= u64::from(self.station.configurations);
        match in_table && (called_serves || !some_serves) {
            true => Ok(()),
            false => Err(Clause::Called),
        }
    }

    /// Step 11, by the configuration that the row calls.
    fn command(&mut self, row: &Row) {
        let number = u32::try_from(row.call).unwrap_or(0);
        let called = u64::from(self.station.called_mask(number));
        let every_called_on = called & !row.on == 0;
        let mut place = 0;
        self.each_set(|set, genset| {
            set.command(genset, called >> place & 1 == 1, every_called_on);
            place += 1;
        });
    }

    /// Counts what the row gave the clauses to speak of.
    fn observe(&mut self, row: &Row, filtered: bool) {
        let battery = &self.station.battery;
        let is_in = |mode: fn(&Mode) -> bool| self.mask_of(|set, _| mode(&set.mode)) != 0;
        let warming = is_in(|mode| matches!(mode, Mode::Warming(_)));
        let cooling = is_in(|mode| matches!(mode, Mode::Cooling(_)));
        let service = is_in(|mode| matches!(mode, Mode::Service(_)));
        let due = self.mask_of(|set, genset| set.is_due(genset) && !set.in_service()) != 0;
        let seen = &mut self.exercised;
        let unserved = row.unserved > 0;
        for (count, holds) in [
            (&mut seen.rows, true),
            (&mut seen.unserved, unserved),
            (&mut seen.unserved_on_line, unserved && row.on != 0),
            (&mut seen.unserved_given, unserved && row.give > 0),
            (&mut seen.shed, row.shed > 0),
            (&mut seen.charge, row.charge > 0),
            (&mut seen.spill, row.spill > 0),
            (&mut seen.give, row.give > 0),
            (&mut seen.at_least, row.store == battery.least),
            (&mut seen.at_most, row.store == battery.most),
            (&mut seen.service, service),
            (&mut seen.due, due),
            (&mut seen.warming, warming),
            (&mut seen.cooling, cooling),
            (&mut seen.filtered, filtered),
        ] {
            *count += u64::from(holds);
        }
    }

    /// Judges a set's line after the last row: its counts, and its fuel, "never above
    /// the exact sum of its curve .. and below that sum by at most one unit for each
    /// second run".
    pub fn set_line(&mut self, before: usize, line: &SetLine) -> Result<(), Clause> {
        let genset = self.station.existing_sets().nth(before);
        let (Some(set), Some(genset)) = (self.sets.get(before), genset) else {
            return Err(Clause::Shape);
        };
        let counted = (set.run, set.starts, set.stops, set.energy);
        if (line.run, line.starts, line.stops, line.energy) != counted {
            return Err(Clause::Counts);
        }
        let scale = scale(genset);
        let fuel = i128::from(line.fuel) * scale;
        let allowance = i128::from(line.run) * scale;
        if fuel > set.burned || set.burned > fuel + allowance {
            return Err(Clause::Fuel);
        }
        self.exercised.set_lines += 1;
        self.exercised.started += u64::from(set.starts > 0);
        self.exercised.stopped += u64::from(set.stops > 0);
        self.exercised.below_exact += u64::from(fuel < set.burned);
        Ok(())
    }
}

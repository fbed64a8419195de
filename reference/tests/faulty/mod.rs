//! A small simulator of document 01 with a fault to choose, for the judge to refuse what
//! it prints. Written from the papers beside the judge, and from no other simulator.

pub mod faults;

use faults::Fault;
use reference::samples::Sample;
use reference::station::{Genset, Station};

#[derive(Clone, Copy, PartialEq)]
enum Mode {
    Off,
    Warming,
    On,
    Cooling,
    Service,
}

#[derive(Clone, Copy)]
struct Set {
    genset: Genset,
    mode: Mode,
    left: u32,
    clock: i64,
    run: i64,
    starts: i64,
    stops: i64,
    energy: i64,
    fuel: i64,
}

/// A run so far, and what it has printed.
struct Run<'a> {
    station: &'a Station,
    fault: Fault,
    sets: Vec<Set>,
    store: i64,
    called: usize,
    since: i64,
    held: Option<f64>,
    decided: Vec<i64>,
    first_row: Option<[i64; 13]>,
    printed: String,
}

/// One second's watts.
#[derive(Clone, Copy, Default)]
struct Watts {
    load: i64,
    sheddable: i64,
    off: i64,
    solar: i64,
    charge: i64,
    spill: i64,
    give: i64,
    diesel: i64,
    unserved: i64,
    cap: i64,
}

/// What a simulator with this fault prints.
pub fn simulate(station: &Station, samples: &[Sample], seconds: i64, fault: Fault) -> String {
    let start = i64::from(station.control.start_mask);
    let set = |(place, genset): (usize, &Genset)| Set {
        genset: *genset,
        mode: if start >> place & 1 == 1 {
            Mode::On
        } else {
            Mode::Off
        },
        left: 0,
        clock: 0,
        run: 0,
        starts: 0,
        stops: 0,
        energy: 0,
        fuel: 0,
    };
    let mut run = Run {
        station,
        fault,
        sets: station.existing_sets().enumerate().map(set).collect(),
        store: station.battery.start as i64,
        called: 0,
        since: 0,
        held: None,
        decided: vec![0; station.control.shed_delay as usize],
        first_row: None,
        printed: "t,load,shed,solar,charge,spill,give,diesel,unserved,on,sets,call,store\n".into(),
    };
    for second in 0..seconds {
        let is_past = |sample: &&Sample| sample.time as i64 <= second;
        let sample = samples.iter().rfind(is_past).expect("a row at time 0");
        run.second(second, sample);
    }
    run.finished()
}

impl Run<'_> {
    fn second(&mut self, second: i64, sample: &Sample) {
        let fault = self.fault;
        self.sets.iter_mut().for_each(|set| set.tick(fault));
        let on = self.mask(|set| set.mode == Mode::On);
        let watts = self.watts(sample, on);
        let battery = &self.station.battery;
        let cost = match fault {
            Fault::EfficiencyOnGive => 10_000 * watts.give / i64::from(battery.efficiency),
            _ => 100 * watts.give,
        };
        let gain = match fault {
            Fault::ChargeWithoutLoss => 100 * watts.charge,
            _ => i64::from(battery.efficiency) * watts.charge,
        };
        self.store += gain - cost;
        self.count(&watts);
        self.hold(&watts);
        self.call(second);
        self.command();
        self.print(second, &watts, on);
    }

    fn mask(&self, holds: impl Fn(&Set) -> bool) -> i64 {
        let sets = self.sets.iter().enumerate();
        sets.fold(0, |mask, (place, set)| {
            mask | i64::from(holds(set)) << place
        })
    }

    fn rated(&self, mask: i64) -> i64 {
        let sets = self.sets.iter().enumerate();
        let named = sets.filter(|(place, _)| mask >> place & 1 == 1);
        named.map(|(_, set)| i64::from(set.genset.rating)).sum()
    }

    /// Steps 2 to 7.
    fn watts(&mut self, sample: &Sample, on: i64) -> Watts {
        let (load, offered, sheddable) = self.fault.inputs(sample);
        let cap = self.rated(on);
        let off = sheddable.min(self.decided.remove(0));
        let charge_before = match self.fault {
            Fault::ChargeFirst => offered.min(self.room()),
            _ => 0,
        };
        let solar = (offered - charge_before).min((load - off - self.floor(cap)).max(0));
        let rest = load - off - solar;
        let give = self.give((rest - cap).max(0));
        let charge = match self.fault {
            Fault::ChargeFirst => charge_before,
            _ => (offered - solar).min(self.room()),
        };
        let diesel = match self.fault {
            Fault::DieselOfNoSet if cap == 0 => rest - give,
            Fault::SetsHeldBack => (rest - give).min(cap * 9 / 10),
            _ => (rest - give).min(cap),
        };
        let kept = cap * i64::from(self.station.control.shed) / 100;
        self.decided
            .push(sheddable.min((load - solar - kept).max(0)));
        Watts {
            load,
            sheddable,
            off,
            solar,
            charge,
            spill: offered - solar - charge,
            give,
            diesel,
            unserved: rest - give - diesel,
            cap,
        }
    }

    fn floor(&self, cap: i64) -> i64 {
        match self.fault {
            Fault::NoFloor => 0,
            _ => cap * i64::from(self.station.control.minimum_load) / 100,
        }
    }

    /// What the battery takes up in a second.
    fn room(&self) -> i64 {
        let battery = &self.station.battery;
        let room = (battery.most as i64 - self.store).max(0) / i64::from(battery.efficiency);
        room.min(i64::from(battery.power))
    }

    fn give(&self, missing: i64) -> i64 {
        let battery = &self.station.battery;
        let power = i64::from(battery.power);
        let content = (self.store - battery.least as i64).max(0) / 100;
        match self.fault {
            Fault::GivesPastLeast => missing.min(power),
            Fault::GivesOfSameRow => missing.min(power).min(content / 2),
            Fault::KeepsAWatt => missing.min(power).min((content - 1).max(0)),
            _ => missing.min(power).min(content),
        }
    }

    /// Step 8.
    fn count(&mut self, watts: &Watts) {
        let (fault, mut total, mut taken) = (self.fault, 0, 0);
        for set in self.sets.iter_mut().filter(|set| set.mode == Mode::On) {
            let rating = i64::from(set.genset.rating);
            total += rating;
            let share = match fault {
                Fault::SharesAlone => watts.diesel * rating / watts.cap,
                _ => watts.diesel * total / watts.cap - taken,
            };
            taken += share;
            set.run += 1;
            set.clock += 1;
            set.energy += share;
            set.fuel += fault.rate(&set.genset, share);
        }
    }

    /// Step 9.
    fn hold(&mut self, watts: &Watts) {
        let control = &self.station.control;
        let covered = watts.solar * i64::from(control.solar_coverage);
        let coverage = match self.fault {
            Fault::CoverageRoundedDown => covered / 100,
            _ => (covered + 99) / 100,
        };
        let spinning = i64::from(control.spinning_reserve);
        let live = match self.fault {
            Fault::LiveAdded => watts.off - watts.sheddable,
            _ => watts.sheddable - watts.off,
        };
        let reserve = match (self.fault, control.maintain) {
            (Fault::NoReserve, _) => 0,
            (Fault::MaintainIgnored, _) | (_, 0) => (spinning.max(coverage) - live).max(0),
            _ => spinning.max((coverage - live).max(0)),
        };
        let rest = watts.load - watts.off - watts.solar;
        let wanted = (rest + reserve) as f64;
        let k = f64::from(control.filter_k);
        let (old, new) = (k / 1000.0, (1000.0 - k) / 1000.0);
        self.held = Some(match (self.held, self.fault) {
            (None, _) | (_, Fault::NoFilter) => wanted,
            (Some(held), Fault::FusedFilter) => held.mul_add(old, wanted * new),
            (Some(held), Fault::FilterTurned) => held * new + wanted * old,
            (Some(held), _) => held * old + wanted * new,
        });
    }

    /// Step 10.
    fn call(&mut self, second: i64) {
        let table: Vec<i64> = self.station.table().map(i64::from).collect();
        let laid_up = match self.fault {
            Fault::DueCalled => self.mask(|set| set.mode == Mode::Service),
            Fault::ServiceCalled => self.mask(|set| set.is_due() && set.mode != Mode::Service),
            _ => self.mask(|set| set.is_due() || set.mode == Mode::Service),
        };
        let held = self.held.unwrap_or(0.0);
        let usable = |number: usize| number > 0 && table[number - 1] & laid_up == 0;
        let capacity = |number: usize| self.rated(table[number - 1]);
        let serves = |number: usize| usable(number) && held <= capacity(number) as f64;
        let minimum = i64::from(self.station.control.minimum_seconds);
        let recent = second - self.since < minimum;
        let keeps = match self.fault {
            Fault::KeptWhateverComes => self.called > 0 && recent,
            _ => serves(self.called) && recent,
        };
        let mut next = if keeps { Some(self.called) } else { None };
        next = next.or((1..=table.len()).find(|number| serves(*number)));
        if self.fault == Fault::NothingCalled && second % 7 == 6 {
            next = Some(0);
        }
        let usables = (1..=table.len()).filter(|number| usable(*number));
        let next = next.or(usables.rev().max_by_key(|number| capacity(*number)));
        let next = next.unwrap_or(0);
        if next != self.called {
            (self.called, self.since) = (next, second);
        }
    }

    /// Step 11.
    fn command(&mut self) {
        let number = self.called as u32;
        let called = i64::from(self.station.called_mask(number));
        let on = self.mask(|set| set.mode == Mode::On);
        let every = called & !on == 0 || self.fault == Fault::OldSetDroppedFirst;
        for (place, set) in self.sets.iter_mut().enumerate() {
            set.command(called >> place & 1 == 1, every, self.fault);
        }
    }

    fn print(&mut self, second: i64, w: &Watts, on: i64) {
        let spill = if self.fault == Fault::NoSpill {
            0
        } else {
            w.spill
        };
        let shown = [
            second,
            w.load,
            w.off,
            w.solar,
            w.charge,
            spill,
            w.give,
            w.diesel,
            w.unserved,
            on,
            i64::from(on.count_ones()),
            self.called as i64,
            self.store,
        ];
        let first = *self.first_row.get_or_insert(shown);
        self.printed.push_str(&self.fault.row(shown, first));
        self.printed.push('\n');
    }

    fn finished(mut self) -> String {
        self.printed.push_str("set,run,starts,stops,energy,fuel\n");
        for (place, set) in self.sets.iter().enumerate() {
            let numbers = [
                place as i64 + 1,
                set.run,
                set.starts,
                set.stops,
                set.energy,
                set.fuel,
            ];
            self.printed
                .push_str(&numbers.map(|number| number.to_string()).join(","));
            self.printed.push('\n');
        }
        self.printed
    }
}

impl Set {
    fn is_due(&self) -> bool {
        let interval = i64::from(self.genset.service_interval);
        interval > 0 && self.clock >= interval
    }

    fn enter(&mut self, mode: Mode, left: u32) {
        (self.mode, self.left) = (mode, left);
    }

    /// Step 1.
    fn tick(&mut self, fault: Fault) {
        if matches!(self.mode, Mode::Off | Mode::On) {
            return;
        }
        if self.left > 1 {
            self.left -= 1;
            return;
        }
        match self.mode {
            Mode::Warming => self.enter(Mode::On, 0),
            Mode::Cooling if self.is_due() && fault != Fault::NoService => {
                self.enter(Mode::Service, self.genset.service_time)
            }
            Mode::Service => {
                self.clock = if fault == Fault::ClockNotReset {
                    self.clock
                } else {
                    0
                };
                self.enter(Mode::Off, 0);
            }
            _ => self.enter(Mode::Off, 0),
        }
        if self.mode == Mode::Off && fault == Fault::NoService {
            self.clock = 0;
        }
    }

    /// Step 11.
    fn command(&mut self, called: bool, every_called_on: bool, fault: Fault) {
        match self.mode {
            Mode::Off if called => {
                let warm_up = self.genset.warm_up;
                let shorter = u32::from(fault == Fault::WarmUpShort && warm_up > 1);
                self.enter(Mode::Warming, warm_up - shorter);
                self.starts += 1;
            }
            Mode::Warming if called && fault == Fault::StartsInvented => self.starts += 1,
            Mode::Warming if !called => {
                self.enter(Mode::Off, 0);
                self.stops += i64::from(fault != Fault::StopsForgotten);
            }
            Mode::On if !called && every_called_on => {
                self.enter(Mode::Cooling, self.genset.cool_down);
                self.stops += 1;
            }
            _ => (),
        }
    }
}

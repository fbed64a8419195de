//! The eleven steps of one second, one function each; steps 9 and 10 lean on
//! `setpoint` and `configuration`.

use crate::configuration;
use crate::fuel;
use crate::run_record::{Mode, RunRecord, SetRecord};
use crate::setpoint;
use crate::share::{capacity, in_mask, shares};
use crate::station::{Battery, Control, Station};

/// What one second is handed: load L, solar offered S, sheddable H, in watts.
#[derive(Clone, Copy, Debug, Default, PartialEq, Eq)]
pub struct Inputs {
    pub load: u32,
    pub solar: u32,
    pub sheddable: u32,
}

/// The watt columns of a second's row, with the solar offered.
#[derive(Clone, Copy, Debug, Default, PartialEq, Eq)]
pub struct Watts {
    pub solar_offered: u64,
    pub load: u64,
    pub shed: u64,
    pub solar: u64,
    pub charge: u64,
    pub spill: u64,
    pub give: u64,
    pub diesel: u64,
    pub unserved: u64,
}

/// The sums of step 2.
#[derive(Clone, Copy, Debug, PartialEq, Eq)]
pub struct Sums {
    pub mask: u8,
    pub cap: u64,
    pub floor_load: u64,
}

/// Step 1. "Warming 1 becomes On, Cooling 1 becomes Off (Service with its time
/// if due), Service 1 becomes Off with its service clock 0; larger counts fall by 1."
pub fn tick_modes(station: &Station, record: &mut RunRecord) {
    for (set, genset) in record.sets.iter_mut().zip(station.existing_sets()) {
        set.mode = match set.mode {
            Mode::Off => Mode::Off,
            Mode::On => Mode::On,
            Mode::Warming(0 | 1) => Mode::On,
            Mode::Warming(remaining) => Mode::Warming(remaining - 1),
            Mode::Cooling(0 | 1) if set.due(genset) => Mode::Service(genset.service_time),
            Mode::Cooling(0 | 1) => Mode::Off,
            Mode::Cooling(remaining) => Mode::Cooling(remaining - 1),
            Mode::Service(0 | 1) => {
                set.service_clock = 0;
                Mode::Off
            }
            Mode::Service(remaining) => Mode::Service(remaining - 1),
        };
    }
}

/// The mask of the sets On.
pub fn on_mask(record: &RunRecord) -> u8 {
    let on = |set: &(usize, &SetRecord)| set.1.mode == Mode::On;
    let sets = record.sets.iter().enumerate().filter(on);
    sets.fold(0, |mask, (index, _)| mask | 1 << index)
}

/// Step 2. "cap = ratings of the sets On"; "Floor load = cap x minimum load % / 100."
pub fn sums(station: &Station, record: &RunRecord) -> Sums {
    let mask = on_mask(record);
    let cap = capacity(station, mask);
    Sums {
        mask,
        cap,
        floor_load: cap * u64::from(station.control.minimum_load) / 100,
    }
}

/// Step 3. "off = smaller of H and the amount decided 'delay' seconds ago": the
/// oldest one held.
pub fn shed_now(record: &RunRecord, sheddable: u64) -> u64 {
    let oldest = record.decided.first().copied().unwrap_or(0);
    sheddable.min(u64::from(oldest))
}

/// Step 4. "Solar on load = smaller of S and max(0, D - floor load)."
pub fn solar_on_load(offered: u64, demand: u64, floor_load: u64) -> u64 {
    offered.min(demand.saturating_sub(floor_load))
}

/// Step 5. "If R > cap it gives min(R - cap, power, (store - least) / 100)."
pub fn battery_gives(battery: &Battery, store: u64, lacking: u64) -> u64 {
    let content = store.saturating_sub(battery.least) / 100;
    lacking.min(u64::from(battery.power)).min(content)
}

/// Step 5. The surplus "charges min(surplus, power, (most - store) / efficiency)".
pub fn battery_charges(battery: &Battery, store: u64, surplus: u64) -> u64 {
    let room = battery.most.saturating_sub(store);
    let room_watts = room.checked_div(u64::from(battery.efficiency)).unwrap_or(0);
    surplus.min(u64::from(battery.power)).min(room_watts)
}

/// Steps 3 to 6: the watts of this second, from the record before it.
pub fn watts(station: &Station, record: &RunRecord, sums: &Sums, inputs: &Inputs) -> Watts {
    let (load, offered) = (u64::from(inputs.load), u64::from(inputs.solar));
    let battery = &station.battery;
    let shed = shed_now(record, u64::from(inputs.sheddable));
    let demand = load.saturating_sub(shed);
    let solar = solar_on_load(offered, demand, sums.floor_load);
    let rest = demand - solar;
    let surplus = offered - solar;
    let give = battery_gives(battery, record.store, rest.saturating_sub(sums.cap));
    let charge = battery_charges(battery, record.store, surplus);
    // Step 6. "Diesel = min(R - given, cap). Unserved = R - given - diesel."
    let diesel = (rest - give).min(sums.cap);
    Watts {
        solar_offered: offered,
        load,
        shed,
        solar,
        charge,
        spill: surplus - charge,
        give,
        diesel,
        unserved: rest - give - diesel,
    }
}

/// Step 5. "Store + charge x efficiency - 100 x given."
pub fn move_store(battery: &Battery, store: u64, watts: &Watts) -> u64 {
    store + watts.charge * u64::from(battery.efficiency) - 100 * watts.give
}

/// Step 7. "Shed decided = min(H, max(0, L - solar on load - cap x shed % / 100))."
pub fn shed_decided(control: &Control, sheddable: u64, cap: u64, watts: &Watts) -> u64 {
    let kept = cap * u64::from(control.shed) / 100;
    sheddable.min(watts.load.saturating_sub(watts.solar + kept))
}

/// Step 7's amount goes last; the oldest one has been used.
pub fn hold_decided(station: &Station, record: &mut RunRecord, amount: u64) {
    let delay = station.control.shed_delay as usize;
    if let Some(held) = record.decided.get_mut(..delay) {
        held.rotate_left(1);
        if let Some(last) = held.last_mut() {
            *last = amount as u32;
        }
    }
}

/// Step 8. "A set On adds 1 to run seconds and service clock, its power to
/// energy, its rate to fuel." The station totals gain the row's watts.
pub fn count_second(station: &Station, record: &mut RunRecord, mask: u8, watts: &Watts) {
    let powers = shares(station, mask, watts.diesel);
    let sets = record.sets.iter_mut().zip(station.existing_sets());
    for (index, ((set, genset), power)) in sets.zip(powers).enumerate() {
        if in_mask(mask, index) {
            set.run_seconds += 1;
            set.service_clock += 1;
            set.energy += power;
            set.fuel += fuel::rate(genset, power);
        }
    }
    let totals = &mut record.totals;
    totals.solar_offered += watts.solar_offered;
    totals.load += watts.load;
    totals.shed += watts.shed;
    totals.solar += watts.solar;
    totals.charge += watts.charge;
    totals.spill += watts.spill;
    totals.give += watts.give;
    totals.diesel += watts.diesel;
    totals.unserved += watts.unserved;
}

/// Step 9. "Live = H - off."; "Wanted = R + reserve."
pub fn hold_setpoint(station: &Station, record: &RunRecord, sheddable: u64, watts: &Watts) -> f64 {
    let control = &station.control;
    let live = sheddable - watts.shed;
    let rest = watts.load - watts.shed - watts.solar;
    let wanted = rest + setpoint::reserve(control, watts.solar, live);
    setpoint::filtered(control.filter_k, record.held, wanted)
}

/// Step 10. "The since-second changes only when the number does."
pub fn call_configuration(station: &Station, record: &mut RunRecord, held: f64) {
    let called = configuration::choose(station, record, held);
    if called != record.called {
        record.called = called;
        record.since = record.done;
    }
}

/// Step 11. "Called sets that are Off go Warming, one start. Warming sets not
/// called go Off, one stop. If every called set is On, sets On that are not
/// called go Cooling, one stop." Configuration 0 calls no set, so every called
/// set is On then.
pub fn command(station: &Station, record: &mut RunRecord) {
    let called = station.called_mask(record.called);
    let all_called_on = called & !on_mask(record) == 0;
    let sets = record.sets.iter_mut().zip(station.existing_sets());
    for (index, (set, genset)) in sets.enumerate() {
        match (set.mode, in_mask(called, index)) {
            (Mode::Off, true) => {
                set.mode = Mode::Warming(genset.warm_up);
                set.starts += 1;
            }
            (Mode::Warming(_), false) => {
                set.mode = Mode::Off;
                set.stops += 1;
            }
            (Mode::On, false) if all_called_on => {
                set.mode = Mode::Cooling(genset.cool_down);
                set.stops += 1;
            }
            _ => (),
        }
    }
}

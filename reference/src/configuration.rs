//! Step 10: which configuration is called.

use crate::run_record::{Mode, RunRecord};
use crate::share::{capacity, in_mask};
use crate::station::Station;

/// "Usable: none of its sets is due (interval > 0, clock >= interval) or in
/// Service." Configuration 0 "is never usable".
pub fn usable(station: &Station, record: &RunRecord, called: u32) -> bool {
    let mask = station.called_mask(called);
    let sets = record.sets.iter().zip(station.existing_sets());
    let mut named = sets
        .enumerate()
        .filter(|(index, _)| in_mask(mask, *index))
        .map(|(_, pair)| pair);
    called != 0
        && named.all(|(set, genset)| !set.due(genset) && !matches!(set.mode, Mode::Service(_)))
}

/// "It covers when held <= capacity, its sets' ratings summed." A NaN is
/// covered by nothing.
pub fn covers(station: &Station, called: u32, held: f64) -> bool {
    held <= capacity(station, station.called_mask(called)) as f64
}

/// "Keep the called one exactly if usable, covering and called fewer than
/// 'minimum seconds' seconds ago. Else the first usable covering; else the
/// usable one of greatest capacity, first of equals; else 0."
pub fn choose(station: &Station, record: &RunRecord, held: f64) -> u32 {
    let ago = record.done.saturating_sub(record.since);
    let kept = usable(station, record, record.called)
        && covers(station, record.called, held)
        && ago < station.control.minimum_seconds;
    if kept {
        return record.called;
    }
    let usable_ones = || (1..=station.configurations).filter(|one| usable(station, record, *one));
    let covering = usable_ones().find(|one| covers(station, *one, held));
    covering.unwrap_or_else(|| greatest(station, usable_ones()))
}

/// The one of greatest capacity, the first of equals, or 0 where there is none.
fn greatest(station: &Station, usable_ones: impl Iterator<Item = u32>) -> u32 {
    let mut best = (0, 0);
    for one in usable_ones {
        let power = capacity(station, station.called_mask(one));
        if power > best.1 {
            best = (one, power);
        }
    }
    best.0
}

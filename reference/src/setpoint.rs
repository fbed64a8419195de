//! Step 9: the reserve, the wanted setpoint and its filter.

use crate::run_record::Held;
use crate::station::Control;

/// "Coverage = solar on load x coverage % / 100, rounded up."
pub fn coverage(control: &Control, solar_on_load: u64) -> u64 {
    (solar_on_load * u64::from(control.solar_coverage)).div_ceil(100)
}

/// "Reserve = max(0, max(spinning, coverage) - live), or with maintain 1
/// max(spinning, max(0, coverage - live))."
pub fn reserve(control: &Control, solar_on_load: u64, live: u64) -> u64 {
    let spinning = u64::from(control.spinning_reserve);
    let coverage = coverage(control, solar_on_load);
    if control.maintain == 1 {
        spinning.max(coverage.saturating_sub(live))
    } else {
        spinning.max(coverage).saturating_sub(live)
    }
}

/// "The filter's two weights and its held number are kept together."
#[derive(Clone, Copy, Debug)]
struct Filter {
    held_weight: f64,
    wanted_weight: f64,
    held: f64,
}

impl Filter {
    /// The two quotients k/1000 and (1000-k)/1000.
    fn new(filter_k: u32, held: f64) -> Filter {
        Filter {
            held_weight: f64::from(filter_k) / 1000.0,
            wanted_weight: f64::from(1000_u32.saturating_sub(filter_k)) / 1000.0,
            held,
        }
    }

    /// Two products and one sum, "each rounded once".
    fn toward(self, wanted: f64) -> Filter {
        let kept = self.held * self.held_weight;
        let taken = wanted * self.wanted_weight;
        Filter {
            held: kept + taken,
            ..self
        }
    }
}

/// "With none held, held becomes wanted; else held x (k/1000) + wanted x
/// ((1000-k)/1000)". Wanted is at most 100,000,000, so the cast is exact.
pub fn filtered(filter_k: u32, held: Held, wanted: u64) -> f64 {
    match held {
        Held::Absent => wanted as f64,
        Held::Present(number) => Filter::new(filter_k, number).toward(wanted as f64).held,
    }
}

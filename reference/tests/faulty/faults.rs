//! The faults, those of the trade among them ("Errors this trade makes").

use reference::samples::Sample;
use reference::station::Genset;

#[derive(Clone, Copy, Debug, PartialEq, Eq)]
pub enum Fault {
    None,
    EfficiencyOnGive,
    ChargeWithoutLoss,
    ChargeFirst,
    GivesPastLeast,
    GivesOfSameRow,
    KeepsAWatt,
    SetsHeldBack,
    DieselOfNoSet,
    NoSpill,
    NoFloor,
    ColumnsMoved,
    ColumnsExchanged,
    RowZeroAgain,
    SharesAlone,
    FuelRoundedUp,
    FuelNotCut,
    SlopeUpsideDown,
    FuelOfFirstPiece,
    FuelForgotten,
    NoService,
    ClockNotReset,
    DueCalled,
    ServiceCalled,
    OldSetDroppedFirst,
    WarmUpShort,
    StartsInvented,
    StopsForgotten,
    NothingCalled,
    KeptWhateverComes,
    NoFilter,
    FilterTurned,
    FusedFilter,
    NoReserve,
    MaintainIgnored,
    CoverageRoundedDown,
    LiveAdded,
}

impl Fault {
    /// Load, solar and sheddable as the simulator takes them from the sheet. A skipped
    /// blank heading moves the columns by one.
    pub fn inputs(self, sample: &Sample) -> (i64, i64, i64) {
        let (load, solar) = (sample.load as i64, sample.solar as i64);
        let sheddable = sample.sheddable as i64;
        match self {
            Fault::ColumnsExchanged => (solar, load, sheddable.min(solar)),
            _ => (load, solar, sheddable),
        }
    }

    /// A row's text.
    pub fn row(self, shown: [i64; 13], first: [i64; 13]) -> String {
        let mut shown = shown;
        if self == Fault::ColumnsMoved {
            shown[1..].rotate_left(1);
        }
        if self == Fault::RowZeroAgain {
            shown[1..].copy_from_slice(&first[1..]);
        }
        shown.map(|number| number.to_string()).join(",")
    }

    /// Step 8's rate in mL/h.
    pub fn rate(self, genset: &Genset, watts: i64) -> i64 {
        let points = genset.used_points();
        let (load, rating) = (1_000 * i128::from(watts), i128::from(genset.rating));
        let mut piece = 0;
        while piece + 2 < points.len() && i128::from(points[piece + 1].load) * rating <= load {
            piece += 1;
        }
        if self == Fault::FuelOfFirstPiece {
            piece = 0;
        }
        let (from, to) = (points[piece], points[piece + 1]);
        let step = i128::from(to.load - from.load);
        let rise = i128::from(to.rate) - i128::from(from.rate);
        let past = load - i128::from(from.load) * rating;
        let under = rating * step;
        let exact = i128::from(from.rate) * under + rise * past;
        let exact = match self {
            Fault::SlopeUpsideDown if rise != 0 => {
                i128::from(from.rate) * under + past * step * step / rise
            }
            _ => exact,
        };
        let rate = match self {
            Fault::FuelNotCut => exact.div_euclid(under),
            Fault::FuelRoundedUp => (exact.max(0) + under - 1) / under,
            Fault::FuelForgotten => (exact.max(0) / under - 2).max(0),
            _ => exact.max(0) / under,
        };
        rate as i64
    }
}

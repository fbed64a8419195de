//! The judge of demand 3: is handed a station file, a sample file, the seconds asked
//! and the bytes that a run program printed for them, and says whether every clause
//! of demand 3 holds of the rows and of the sets' lines, and if not which is broken.
//!
//! Written from the papers alone (00's demand 3 and 01, the section "What each call
//! owes" above all), by somebody who has seen neither the definitions nor the code of
//! any simulator, this crate's included. "Modes, clocks and held setpoint follow by
//! steps 1, 8, 9 and 11 from station, inputs and rows, not the record": they are
//! replayed here anew. Nothing is worked out a second time that the rows show, no
//! simulator is run, and no record is looked at. With the simulator beside it, the
//! judge shares the readers of the two files alone (`station`, `station_file`,
//! `samples`, `lines`, `cells`).

pub mod answers;
pub mod changed_text;
pub mod changes;
pub mod curve;
pub mod exercised;
pub mod held;
pub mod modes;
pub mod printed;
pub mod replay;
pub mod stories;
pub mod sums;
pub mod watts;
pub mod words;

use crate::cells;
use crate::limits::SECONDS;
use crate::samples::{self, Sample};
use crate::station::Station;
use crate::station_file;
use exercised::Exercised;
use printed::Printed;
use replay::Replay;

/// The clauses, each under a name of its own.
#[derive(Clone, Copy, Debug, PartialEq, Eq, PartialOrd, Ord)]
pub enum Clause {
    /// The two headings, a line for each second and each set, and nothing else.
    Shape,
    /// `on` is the replayed sets On, `sets` is how many they are.
    Mask,
    /// Load handed in, load shown, and the five parts of the load.
    Load,
    /// Solar offered, and what became of it.
    Solar,
    /// The store, its start, what was charged and what was given.
    Store,
    /// The store within its two limits.
    Limits,
    /// What must hold where load is unserved.
    Unserved,
    /// Step 6's watts of the sets on line come to the row's diesel, none above its rating.
    /// Demand 3's own words leave room here: without this clause a row could show its
    /// unserved load as diesel that no set on line gives.
    Watts,
    /// The called configuration is usable and covers, unless none does.
    Called,
    /// Run seconds, starts, stops and energy of a set's line.
    Counts,
    /// A set's fuel beside the exact sum of its curve.
    Fuel,
}

impl Clause {
    pub fn name(self) -> &'static str {
        match self {
            Clause::Shape => "shape",
            Clause::Mask => "mask",
            Clause::Load => "load",
            Clause::Solar => "solar",
            Clause::Store => "store",
            Clause::Limits => "limits",
            Clause::Unserved => "unserved",
            Clause::Watts => "watts",
            Clause::Called => "called",
            Clause::Counts => "counts",
            Clause::Fuel => "fuel",
        }
    }
}

/// The judge's answer.
#[derive(Clone, Debug, PartialEq, Eq)]
pub enum Verdict {
    /// Every clause holds; what there was for the clauses to speak of.
    Holds(Box<Exercised>),
    /// The first line at which a clause is broken, counted from 1.
    Broken { clause: Clause, line: usize },
    /// A refusal was printed: the list has no row.
    NoRows,
}

/// A station and its inputs, as the two files and the seconds asked give them.
pub struct Case {
    pub station: Station,
    pub samples: Vec<Sample>,
    pub seconds: usize,
}

impl Case {
    /// The case, or nothing where any of the three is refused.
    pub fn read(station: &[u8], samples: &[u8], seconds: &[u8]) -> Option<Case> {
        let asked = cells::digits(seconds, 9).filter(|asked| *asked <= SECONDS)?;
        Some(Case {
            station: station_file::read(station).ok()?,
            samples: samples::read(samples).ok()?,
            seconds: usize::try_from(asked).ok()?,
        })
    }

    /// What each second is handed: "A row holds until the next."
    pub fn inputs(&self) -> impl Iterator<Item = Sample> + '_ {
        let mut later = self.samples.iter().peekable();
        let mut now = Sample::default();
        (0_u64..).map(move |second| {
            while let Some(sample) = later.next_if(|sample| sample.time <= second) {
                now = *sample;
            }
            now
        })
    }
}

/// Judges what was printed for two files and the seconds asked. Rows for files that
/// are refused have no shape to keep: there is no run of theirs.
pub fn judge(station: &[u8], samples: &[u8], seconds: &[u8], printed: &[u8]) -> Verdict {
    if printed::is_refusal(printed) {
        return Verdict::NoRows;
    }
    match Case::read(station, samples, seconds) {
        Some(case) => judge_case(&case, printed),
        None => Verdict::Broken {
            clause: Clause::Shape,
            line: 1,
        },
    }
}

/// Judges the rows and lines of an accepted case.
pub fn judge_case(case: &Case, printed: &[u8]) -> Verdict {
    let sets = case.station.existing_sets().count();
    let text = match Printed::read(printed, case.seconds, sets) {
        Ok(text) => text,
        Err(line) => {
            let clause = Clause::Shape;
            return Verdict::Broken { clause, line };
        }
    };
    let mut replay = Replay::start(&case.station);
    for ((before, row), handed_in) in text.rows.iter().enumerate().zip(case.inputs()) {
        if let Err(clause) = replay.row(&handed_in, row) {
            let line = printed::row_line(before);
            return Verdict::Broken { clause, line };
        }
    }
    for (before, line) in text.sets.iter().enumerate() {
        if let Err(clause) = replay.set_line(before, line) {
            let line = printed::set_line(case.seconds, before);
            return Verdict::Broken { clause, line };
        }
    }
    Verdict::Holds(Box::new(replay.exercised))
}

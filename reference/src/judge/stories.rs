//! What the rows tell of one set, as `words` reads it. Apart from the replay: times are
//! absolute here, and a set's due spells and services follow from the masks alone.

use crate::station::Genset;

/// What a set is at, and the second that ends it.
#[derive(Clone, Copy, Debug, PartialEq, Eq)]
pub enum Phase {
    Rests,
    WarmsUntil(u64),
    Runs,
    CoolsUntil(u64),
    ServicedUntil(u64),
}

/// A set's phases row by row, and how often it was started and stopped.
#[derive(Clone, Debug, PartialEq, Eq)]
pub struct Story {
    pub phases: Vec<Phase>,
    pub starts: u64,
    pub stops: u64,
}

/// What a row asks of a set: that it is called, and that every called set is on line.
#[derive(Clone, Copy)]
pub struct Asked {
    pub called: bool,
    pub every_called_on: bool,
}

/// The story of a set by what each row asks of it.
pub fn story(genset: &Genset, runs_at_start: bool, asked: impl Iterator<Item = Asked>) -> Story {
    let mut phase = if runs_at_start {
        Phase::Runs
    } else {
        Phase::Rests
    };
    let mut ran_since_service = 0;
    let mut story = Story {
        phases: Vec::new(),
        starts: 0,
        stops: 0,
    };
    for (second, asked) in (0_u64..).zip(asked) {
        phase = phase_at(genset, phase, second, &mut ran_since_service);
        story.phases.push(phase);
        ran_since_service += u64::from(phase == Phase::Runs);
        let idle = !asked.called;
        match phase {
            Phase::Rests if asked.called => {
                phase = Phase::WarmsUntil(second + u64::from(genset.warm_up));
                story.starts += 1;
            }
            Phase::WarmsUntil(_) if idle => {
                phase = Phase::Rests;
                story.stops += 1;
            }
            Phase::Runs if idle && asked.every_called_on => {
                phase = Phase::CoolsUntil(second + u64::from(genset.cool_down));
                story.stops += 1;
            }
            _ => (),
        }
    }
    story
}

/// The phase at the beginning of a second.
fn phase_at(genset: &Genset, phase: Phase, second: u64, ran_since_service: &mut u64) -> Phase {
    let interval = u64::from(genset.service_interval);
    match phase {
        Phase::WarmsUntil(end) if end == second => Phase::Runs,
        Phase::CoolsUntil(end) if end == second => {
            if interval > 0 && *ran_since_service >= interval {
                Phase::ServicedUntil(second + u64::from(genset.service_time))
            } else {
                Phase::Rests
            }
        }
        Phase::ServicedUntil(end) if end == second => {
            *ran_since_service = 0;
            Phase::Rests
        }
        goes_on => goes_on,
    }
}

/// True in each row in which the set is due or in service, by its bits of the masks: a
/// set that leaves the mask cools from the row before on, and what it ran since its last
/// service decides whether a service follows.
pub fn laid_up(genset: &Genset, on_line: &[bool]) -> Vec<bool> {
    let interval = u64::from(genset.service_interval);
    let mut laid_up = Vec::new();
    let (mut ran, mut service_ends) = (0, None);
    for (second, on) in (0_u64..).zip(on_line) {
        let before = second
            .checked_sub(1)
            .and_then(|last| on_line.get(last as usize));
        if before == Some(&true) && !on && interval > 0 && ran >= interval {
            let cooled = second - 1 + u64::from(genset.cool_down);
            service_ends = Some(cooled + u64::from(genset.service_time));
        }
        if service_ends == Some(second) {
            ran = 0;
        }
        ran += u64::from(*on);
        // From the second on in which it has run its interval, through cooling and
        // service, to the service's end.
        laid_up.push(interval > 0 && ran >= interval);
    }
    laid_up
}

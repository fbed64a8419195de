//! The judge of demand 3 against simulators with one fault each.

mod faulty;
mod station_a;

use std::collections::BTreeMap;

use faulty::faults::Fault;
use faulty::simulate;
use reference::batch::Kind;
use reference::generator::case;
use reference::generator::encode::station_bytes;
use reference::generator::random::Random;
use reference::hex;
use reference::judge::{answers, judge, judge_case, Case, Verdict};
use station_a::{filtered, FILTERED_SAMPLES};

const RUNS: u64 = 400;

/// Files, and the case that they give.
struct Files {
    bytes: Vec<Vec<u8>>,
    case: Case,
}

fn generated() -> Vec<Files> {
    let mut random = Random::from_seed(3);
    let mut one = |before| {
        let line = case(Kind::Judged, &mut random, before);
        let bytes: Vec<Vec<u8>> = line.split(' ').filter_map(hex::read).collect();
        let case = Case::read(&bytes[0], &bytes[1], &bytes[2]).expect("a good case");
        Files { bytes, case }
    };
    (0..RUNS).map(&mut one).collect()
}

fn printed(files: &Files, fault: Fault) -> String {
    let case = &files.case;
    simulate(&case.station, &case.samples, case.seconds as i64, fault)
}

#[test]
fn without_a_fault_it_prints_the_run_and_holds() {
    for files in generated() {
        let [station, samples, seconds] = &files.bytes[..] else {
            panic!("three files");
        };
        let text = printed(&files, Fault::None);
        assert_eq!(text, station_a::printed(station, samples, seconds));
        let verdict = judge(station, samples, seconds, text.as_bytes());
        assert_eq!(answers::answer(&verdict), "holds");
    }
}

/// How many of a fault's texts differ from the right ones, and the answers to those.
fn answers_to(runs: &[Files], fault: Fault) -> (u64, BTreeMap<String, u64>) {
    let (mut differ, mut answers) = (0, BTreeMap::new());
    for files in runs {
        let text = printed(files, fault);
        if text == printed(files, Fault::None) {
            continue;
        }
        differ += 1;
        let answer = match judge_case(&files.case, text.as_bytes()) {
            Verdict::Broken { clause, .. } => clause.name(),
            Verdict::Holds(_) => "holds",
            Verdict::NoRows => "no rows",
        };
        *answers.entry(answer.to_string()).or_insert(0) += 1;
    }
    (differ, answers)
}

/// What the judge says of a fault's texts that differ from the right ones.
#[derive(Clone, Copy, PartialEq)]
enum Expected {
    /// Refuses each one.
    Each,
    /// Refuses some; in the others demand 3 holds as well.
    Some,
    /// Demand 3 has no word on it; it is demand 2 that falls.
    NoWord,
}

const EXPECTED: [(Fault, Expected); 35] = [
    (Fault::EfficiencyOnGive, Expected::Each),
    (Fault::ChargeWithoutLoss, Expected::Each),
    (Fault::ChargeFirst, Expected::Some),
    (Fault::GivesPastLeast, Expected::Each),
    (Fault::GivesOfSameRow, Expected::Each),
    (Fault::KeepsAWatt, Expected::Each),
    (Fault::SetsHeldBack, Expected::Each),
    (Fault::DieselOfNoSet, Expected::Each),
    (Fault::NoSpill, Expected::Each),
    (Fault::NoFloor, Expected::NoWord),
    (Fault::ColumnsMoved, Expected::Each),
    (Fault::ColumnsExchanged, Expected::Each),
    (Fault::RowZeroAgain, Expected::Each),
    (Fault::SharesAlone, Expected::Each),
    (Fault::FuelRoundedUp, Expected::Each),
    (Fault::FuelNotCut, Expected::Some),
    (Fault::SlopeUpsideDown, Expected::Each),
    (Fault::FuelOfFirstPiece, Expected::Some),
    (Fault::FuelForgotten, Expected::Some),
    (Fault::NoService, Expected::Each),
    (Fault::ClockNotReset, Expected::Some),
    (Fault::DueCalled, Expected::Some),
    (Fault::ServiceCalled, Expected::Some),
    (Fault::OldSetDroppedFirst, Expected::Each),
    (Fault::WarmUpShort, Expected::Each),
    (Fault::StartsInvented, Expected::Each),
    (Fault::StopsForgotten, Expected::Each),
    (Fault::NothingCalled, Expected::Some),
    (Fault::KeptWhateverComes, Expected::Some),
    (Fault::NoFilter, Expected::Some),
    (Fault::FilterTurned, Expected::Some),
    (Fault::NoReserve, Expected::Some),
    (Fault::MaintainIgnored, Expected::Some),
    (Fault::CoverageRoundedDown, Expected::Some),
    (Fault::LiveAdded, Expected::NoWord),
];

#[test]
fn a_fault_is_refused() {
    let runs = generated();
    let mut wrong = Vec::new();
    for (fault, expected) in EXPECTED {
        let (differ, answers) = answers_to(&runs, fault);
        println!("{fault:?}: {differ} of {RUNS} differ: {answers:?}");
        let held = answers.get("holds").copied().unwrap_or(0);
        let as_expected = match expected {
            Expected::Each => differ > 0 && held == 0,
            Expected::Some => held < differ,
            Expected::NoWord => held == differ,
        };
        if !as_expected {
            wrong.push(fault);
        }
    }
    assert!(wrong.is_empty(), "not as expected: {wrong:?}");
}

/// The five roundings of the filter seldom decide; here they do.
#[test]
fn a_fused_filter_is_refused() {
    let bytes = station_bytes(&filtered());
    let case = Case::read(&bytes, FILTERED_SAMPLES.as_bytes(), b"2").expect("a good case");
    let judged = |fault| {
        let text = simulate(&case.station, &case.samples, 2, fault);
        answers::answer(&judge_case(&case, text.as_bytes()))
    };
    assert_eq!(judged(Fault::None), "holds");
    assert_eq!(judged(Fault::FusedFilter), "broken,called,3");
}

//! One number changed, and what the judge says of it beside what the words say.

use super::changed_text::{Change, Changeable};
use super::printed::Printed;
use super::words::{allowed_by_words, Facts};
use super::{judge_case, Case, Verdict};
use crate::generator::random::Random;

/// `COLUMN WAY OUTCOME WHY` for so many changes of a text that holds, or nothing where
/// the text does not.
pub fn changes(case: &Case, text: &[u8], seed: u64, count: u64) -> Option<Vec<String>> {
    let sets = case.station.existing_sets().count();
    let printed = Printed::read(text, case.seconds, sets).ok()?;
    let Verdict::Holds(_) = judge_case(case, text) else {
        return None;
    };
    let changeable = Changeable::of(std::str::from_utf8(text).ok()?, case.seconds, sets);
    let facts = Facts {
        case,
        printed: &printed,
    };
    let mut random = Random::from_seed(seed);
    let mut one = || {
        let change = changeable.change(&mut random);
        outcome(&facts, &change)
    };
    Some((0..count).map(|_| one()).collect())
}

/// `refused CLAUSE` and `allowed REASON` where judge and words agree; `unexplained -`
/// where the judge alone allows, `overdone CLAUSE` where the words alone do.
fn outcome(facts: &Facts, change: &Change) -> String {
    let verdict = judge_case(facts.case, &change.text);
    let reason = allowed_by_words(facts, change);
    let (outcome, why) = match (verdict, reason) {
        (Verdict::Broken { clause, .. }, None) => ("refused", clause.name().to_string()),
        (Verdict::Broken { clause, .. }, Some(_)) => ("overdone", clause.name().to_string()),
        (_, Some(reason)) => ("allowed", reason),
        (_, None) => ("unexplained", "-".to_string()),
    };
    format!("{} {} {outcome} {why}", change.column, change.way.name())
}

//! The judge's answers as text, for a call and for batches.

use super::changes::changes;
use super::{judge, Case, Verdict};
use crate::hex;

/// `holds`, `broken,CLAUSE,LINE` or `no rows`.
pub fn answer(verdict: &Verdict) -> String {
    match verdict {
        Verdict::Holds(_) => "holds".to_string(),
        Verdict::Broken { clause, line } => format!("broken,{},{line}", clause.name()),
        Verdict::NoRows => "no rows".to_string(),
    }
}

/// Station, samples, seconds asked and printed text from the left of a line, and the
/// fields after them.
fn read_case(line: &str) -> Option<([Vec<u8>; 4], Vec<&str>)> {
    let mut fields = line.split(' ');
    let mut bytes = || hex::read(fields.next()?);
    let case = [bytes()?, bytes()?, bytes()?, bytes()?];
    Some((case, fields.collect()))
}

fn judge_line(line: &str) -> Option<Verdict> {
    let ([station, samples, seconds, printed], rest) = read_case(line)?;
    let verdict = judge(&station, &samples, &seconds, &printed);
    rest.is_empty().then_some(verdict)
}

/// `HEX HEX HEX HEX`: the judge's answer.
pub fn judged(line: &str) -> Option<String> {
    judge_line(line).map(|verdict| answer(&verdict))
}

/// `HEX HEX HEX HEX`: the judge's answer and, where the text holds, what the clauses
/// had to speak of, as `NAME=COUNT` with a space before each.
pub fn exercised(line: &str) -> Option<String> {
    let verdict = judge_line(line)?;
    let mut text = answer(&verdict);
    if let Verdict::Holds(exercised) = verdict {
        for (name, count) in exercised.named() {
            text.push_str(&format!(" {name}={count}"));
        }
    }
    Some(text)
}

/// `HEX HEX HEX HEX SEED COUNT`: so many changes of one number, each as `COLUMN WAY
/// OUTCOME WHY` and `;` between them; or the judge's answer to a text that has no rows
/// or does not hold.
pub fn changed(line: &str) -> Option<String> {
    let ([station, samples, seconds, printed], rest) = read_case(line)?;
    let [seed, count] = rest.try_into().ok()?;
    let (seed, count) = (seed.parse().ok()?, count.parse().ok()?);
    let case = Case::read(&station, &samples, &seconds);
    let outcomes = case.and_then(|case| changes(&case, &printed, seed, count));
    Some(match outcomes {
        Some(outcomes) => outcomes.join(";"),
        None => answer(&judge(&station, &samples, &seconds, &printed)),
    })
}

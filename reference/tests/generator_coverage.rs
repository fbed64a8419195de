//! The generator meets every refusal often, keeps many cases good, breaks what
//! it says it breaks, and makes runs in which much happens.

mod station_a;

use std::collections::BTreeMap;

use reference::batch::{answer_line, Kind};
use reference::generator::random::Random;
use reference::generator::{case, good_stations, record_damage, records, station_damage};
use reference::hex;
use reference::run_record::{Mode, RunRecord};
use station_a::work;

const CASES: u64 = 20_000;

/// Every case's answer.
fn answers(kind: Kind, cases: u64) -> Vec<String> {
    let mut random = Random::from_seed(20_000);
    let mut answer = |before| {
        let case = case(kind, &mut random, before);
        answer_line(kind, &case).expect("a case")
    };
    (0..cases).map(&mut answer).collect()
}

/// How often each answer begins with its refusal number; 0 is no refusal.
fn counts<'a>(answers: impl Iterator<Item = &'a str>) -> BTreeMap<u8, u64> {
    let mut counts = BTreeMap::new();
    for answer in answers {
        let mut parts = answer.split([',', ';', '\n']);
        let number = match parts.next() {
            Some("refused") => parts.next().and_then(|number| number.parse().ok()),
            _ => Some(0),
        };
        *counts
            .entry(number.expect("a refusal's number"))
            .or_insert(0) += 1;
    }
    counts
}

/// Each of these numbers at least 50 times, and 30 % good.
fn check_counts(counts: &BTreeMap<u8, u64>, numbers: &[u8], cases: u64) {
    for number in numbers {
        let count = counts.get(number).copied().unwrap_or(0);
        assert!(count >= 50, "refusal {number}: {count}");
    }
    let good = counts.get(&0).copied().unwrap_or(0);
    assert!(100 * good >= 30 * cases, "good: {good}");
}

#[test]
fn stations_meet_1_to_8_and_the_sizing_8_and_19() {
    let answers = answers(Kind::Stations, CASES);
    let checks = counts(answers.iter().filter_map(|answer| answer.split(' ').next()));
    check_counts(&checks, &[1, 2, 3, 4, 5, 6, 7, 8], CASES);
    let accepted = || {
        answers
            .iter()
            .filter_map(|answer| answer.strip_prefix("accepted "))
    };
    for column in 0..2 {
        let column = counts(accepted().filter_map(|answer| answer.split(' ').nth(column)));
        check_counts(&column, &[8, 19], column.values().sum());
    }
}

#[test]
fn stations_meet_every_place() {
    let answers = answers(Kind::Stations, CASES);
    let count = |start: String| answers.iter().filter(|one| one.starts_with(&start)).count();
    for place in 1..=4 {
        assert!(count(format!("refused,2,{place} ")) >= 50);
    }
    for number in [6, 7] {
        for place in 1..=8 {
            assert!(count(format!("refused,{number},{place} ")) >= 10);
        }
    }
    assert!(count("refused,8,1 ".to_string()) >= 50);
}

#[test]
fn samples_meet_11_to_22() {
    let answers = answers(Kind::Samples, CASES);
    let counts = counts(answers.iter().map(String::as_str));
    check_counts(
        &counts,
        &[11, 12, 13, 14, 15, 16, 17, 18, 19, 20, 21, 22],
        CASES,
    );
}

#[test]
fn sheets_meet_11_to_22() {
    let answers = answers(Kind::Sheets, CASES);
    let counts = counts(answers.iter().map(String::as_str));
    check_counts(
        &counts,
        &[11, 12, 13, 14, 15, 16, 17, 18, 19, 20, 21, 22],
        CASES,
    );
}

#[test]
fn runs_meet_18_and_23_at_place_0() {
    let answers = answers(Kind::Runs, 8_000);
    let printed = |answer: &String| {
        let bytes = hex::read(answer).expect("hex");
        String::from_utf8(bytes).expect("ASCII")
    };
    let printed: Vec<String> = answers.iter().map(printed).collect();
    for refusal in ["refused,18,0\n", "refused,23,0\n"] {
        assert!(printed.iter().filter(|text| *text == refusal).count() >= 50);
    }
    check_counts(&counts(printed.iter().map(String::as_str)), &[], 8_000);
}

#[test]
fn seconds_meet_19_20_and_23_to_26() {
    let answers = answers(Kind::Seconds, CASES);
    let counts = counts(answers.iter().map(String::as_str));
    check_counts(&counts, &[19, 20, 23, 24, 25, 26], CASES);
}

#[test]
fn broken_stations_and_records_are_broken() {
    let mut random = Random::from_seed(5);
    for _ in 0..20_000 {
        let mut station = good_stations::any(&mut random);
        assert!(station.given_by_a_file());
        let mut record = records::filled(&mut random, &station);
        assert!(record.possible(&station));
        record_damage::break_record(&mut random, &station, &mut record);
        assert!(!record.possible(&station));
        station_damage::break_record(&mut random, &mut station);
        assert!(!station.given_by_a_file());
    }
}

/// Which of the things that a run may show have happened, by name.
fn note_events(seen: &mut BTreeMap<&'static str, u64>, before: &RunRecord, after: &RunRecord) {
    let mut note = |event: &'static str, happened: bool| {
        *seen.entry(event).or_insert(0) += u64::from(happened);
    };
    for (old, new) in before.sets.iter().zip(&after.sets) {
        note("start", new.starts > old.starts);
        note("stop", new.stops > old.stops);
        note(
            "warming given up",
            matches!(old.mode, Mode::Warming(2..)) && new.mode == Mode::Off,
        );
        note("cooling", matches!(new.mode, Mode::Cooling(_)));
        note("service", matches!(new.mode, Mode::Service(_)));
        note("service done", new.service_clock < old.service_clock);
    }
    note(
        "call changed",
        before.called != 0 && after.called != before.called,
    );
    note("nothing called", after.called == 0);
    note("shed", after.totals.shed > before.totals.shed);
    note("charge", after.totals.charge > before.totals.charge);
    note("spill", after.totals.spill > before.totals.spill);
    note("give", after.totals.give > before.totals.give);
    note("unserved", after.totals.unserved > before.totals.unserved);
}

#[test]
fn much_happens_in_lively_stations() {
    let mut random = Random::from_seed(6);
    let mut seen = BTreeMap::new();
    for _ in 0..200 {
        let station = good_stations::lively(&mut random);
        let mut record = RunRecord::start(&station);
        let mut inputs = records::good_inputs(&mut random, &station);
        for _ in 0..150 {
            if random.chance(20) {
                inputs = records::good_inputs(&mut random, &station);
            }
            let before = record;
            work(&station, &mut record, inputs);
            note_events(&mut seen, &before, &record);
        }
    }
    for (event, count) in seen {
        assert!(count >= 100, "{event}: {count}");
    }
}

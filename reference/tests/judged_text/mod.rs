//! Station A's printed text, changes to it, and what the judge says.
#![allow(dead_code)]

use reference::judge::answers::answer;
use reference::judge::judge;

use crate::station_a::{file, SAMPLES};

pub const HEADING: &str =
    "t,load,shed,solar,charge,spill,give,diesel,unserved,on,sets,call,store\n";
pub const SETS: &str = "set,run,starts,stops,energy,fuel\n";

/// Document 01's five rows and two sets' lines.
pub const ROWS: [&str; 5] = [
    "0,40000,0,10000,0,0,0,30000,0,2,1,1,1000000",
    "1,75000,0,10000,0,0,5000,60000,0,2,1,2,500000",
    "2,75000,5000,10000,0,0,0,60000,0,2,1,2,500000",
    "3,30000,5000,0,20000,20000,0,25000,0,3,2,2,2300000",
    "4,30000,0,0,20000,20000,0,30000,0,1,1,1,4100000",
];
pub const LINES: [&str; 2] = ["1,2,1,0,45625,15406", "2,4,1,1,159375,45843"];

pub fn text(rows: &[&str], lines: &[&str]) -> String {
    let ended = |lines: &[&str]| lines.iter().map(|line| format!("{line}\n")).collect();
    let (rows, lines): (String, String) = (ended(rows), ended(lines));
    format!("{HEADING}{rows}{SETS}{lines}")
}

pub fn said(station: &[u8], samples: &str, seconds: &str, printed: &str) -> String {
    let verdict = judge(
        station,
        samples.as_bytes(),
        seconds.as_bytes(),
        printed.as_bytes(),
    );
    answer(&verdict)
}

/// Station A's text with other rows or lines in place of the first that is as given.
pub fn with_changes(changes: &[(&str, &str)]) -> String {
    let mut changed = text(&ROWS, &LINES);
    for (old, new) in changes {
        assert!(changed.contains(old), "{old}");
        changed = changed.replacen(old, new, 1);
    }
    changed
}

/// What is said of Station A's text with these changes.
pub fn said_of(changes: &[(&str, &str)]) -> String {
    let samples = std::str::from_utf8(SAMPLES).expect("ASCII");
    said(&file(), samples, "5", &with_changes(changes))
}

/// A sheet with one row.
pub fn sheet(load: &str, solar: &str, sheddable: &str) -> String {
    format!("t,LoadP,PvAvailP,ShedLoadP\n0,{load},{solar},{sheddable}\n")
}

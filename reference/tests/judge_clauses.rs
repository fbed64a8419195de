//! The judge of demand 3 on hand-made texts: Station A's five seconds hold, and each
//! clause of the rows' watts is broken by a text that keeps the clauses before it.

mod judged_text;
mod station_a;

use judged_text::{said, said_of, sheet, text, LINES, ROWS};
use reference::hex;
use reference::judge::answers::judged;
use station_a::{file, printed, with4, with8, BATTERY, CONTROL, SAMPLES};

#[test]
fn station_a_holds() {
    assert_eq!(said_of(&[]), "holds");
    assert_eq!(text(&ROWS, &LINES), printed(&file(), SAMPLES, b"5"));
    let samples = std::str::from_utf8(SAMPLES).expect("ASCII");
    let none = text(&[], &["1,0,0,0,0,0", "2,0,0,0,0,0"]);
    assert_eq!(said(&file(), samples, "0", &none), "holds");
}

#[test]
fn a_refusal_has_no_rows_and_refused_files_have_no_text() {
    let samples = std::str::from_utf8(SAMPLES).expect("ASCII");
    assert_eq!(said(&file(), samples, "x", "refused,18,0\n"), "no rows");
    let rows = text(&ROWS, &LINES);
    assert_eq!(said(&file(), samples, "x", &rows), "broken,shape,1");
    assert_eq!(said(&file()[..164], samples, "5", &rows), "broken,shape,1");
    let case = [&file()[..], SAMPLES, b"5", rows.as_bytes()].map(hex::write);
    assert_eq!(judged(&case.join(" ")), Some("holds".to_string()));
}

#[test]
fn shape() {
    let whole = text(&ROWS, &LINES);
    let samples = std::str::from_utf8(SAMPLES).expect("ASCII");
    let of = |seconds: &str, text: &str| said(&file(), samples, seconds, text);
    assert_eq!(of("4", &whole), "broken,shape,6");
    assert_eq!(of("6", &whole), "broken,shape,7");
    assert_eq!(of("5", &whole[..whole.len() - 1]), "broken,shape,9");
    assert_eq!(of("5", &format!("{whole}\n")), "broken,shape,10");
    assert_eq!(of("5", ""), "broken,shape,1");
    for (old, new, line) in [
        ("t,load", "t,Load", 1),
        ("set,run", "set, run", 7),
        ("0,40000,0", "0,040000,0", 2),
        ("0,40000,0", "0,+40000,0", 2),
        ("0,40000,0", "0,40000.0,0", 2),
        ("0,40000,0", "0,40000,0,0", 2),
        ("0,40000,0,", "0,40000,", 2),
        ("0,40000,0,", "0,40000,,", 2),
        ("0,40000,0,", "0,99999999999999999999,0,", 2),
        ("\n1,75000", "\n2,75000", 3),
        ("\n2,4,1,1", "\n3,4,1,1", 9),
        ("500000\n2", "500000\r\n2", 3),
    ] {
        let answer = format!("broken,shape,{line}");
        assert_eq!(said_of(&[(old, new)]), answer, "{old} {new}");
    }
}

#[test]
fn mask() {
    // The old set is dropped before the new one is On.
    let dropped = "2,75000,5000,10000,0,0,5000,0,55000,0,0,2,0";
    assert_eq!(said_of(&[(ROWS[2], dropped)]), "broken,mask,4");
    assert_eq!(
        said_of(&[("25000,0,3,2,2", "25000,0,3,1,2")]),
        "broken,mask,5"
    );
    // With the warm-up forgotten, set 1 would be On in row 2.
    assert_eq!(
        said_of(&[("60000,0,2,1,2,500000\n3", "60000,0,3,2,2,500000\n3")]),
        "broken,mask,4"
    );
}

#[test]
fn load_and_columns_moved() {
    // Each column under a blank heading moved by one: sizes from the pump load.
    let moved = "t,PvAvailP,LoadP,ShedLoadP\n0,40,10,0\n1,75,10,5\n2,75,10,5\n3,30,40,5\n";
    assert_eq!(
        said(&file(), moved, "5", &text(&ROWS, &LINES)),
        "broken,load,2"
    );
    assert_eq!(
        said_of(&[("30000,0,2,1,1", "30001,0,2,1,1")]),
        "broken,load,2"
    );
    // What is shown as load, and what makes it up, agree; what was handed in does not.
    assert_eq!(
        said_of(&[("0,40000,0,10000,0,0,0,30000", "0,40001,0,10000,0,0,0,30001")]),
        "broken,load,2"
    );
    // Two rows that are right together: the first alone is a list of seconds too.
    let carried = [
        ("0,40000,0,10000,0,0,0,30000", "0,40000,0,10000,0,0,0,29999"),
        (
            "1,75000,0,10000,0,0,5000,60000",
            "1,75000,0,10000,0,0,5000,60001",
        ),
    ];
    assert_eq!(said_of(&carried), "broken,load,2");
    // A whole row moved by one, `t` aside.
    let moved = "0,0,10000,0,0,0,30000,0,2,1,1,1000000,40000";
    assert_eq!(said_of(&[(ROWS[0], moved)]), "broken,mask,2");
}

#[test]
fn solar_left_out() {
    assert_eq!(
        said_of(&[("20000,20000,0,25000", "20000,0,0,25000")]),
        "broken,solar,5"
    );
    // Charged from solar before the load has it, without taking it from the load.
    assert_eq!(
        said_of(&[(
            "0,40000,0,10000,0,0,0,30000,0,2,1,1,1000000",
            "0,40000,0,10000,5000,0,0,30000,0,2,1,1,1450000"
        )]),
        "broken,solar,2"
    );
}

#[test]
fn store_and_its_limits() {
    // Efficiency on the discharge too: 500,000 x 100 / 90.
    assert_eq!(
        said_of(&[("5000,60000,0,2,1,2,500000", "5000,60000,0,2,1,2,444445")]),
        "broken,store,3"
    );
    // No efficiency on the charge.
    assert_eq!(said_of(&[("2300000", "2500000")]), "broken,store,5");
    let samples = std::str::from_utf8(SAMPLES).expect("ASCII");
    let rows = text(&ROWS, &LINES);
    assert_eq!(
        said(&with8(BATTERY + 16, 4_100_000), samples, "5", &rows),
        "holds"
    );
    assert_eq!(
        said(&with8(BATTERY + 16, 4_099_999), samples, "5", &rows),
        "broken,limits,6"
    );
    assert_eq!(
        said(&with8(BATTERY + 8, 500_000), samples, "5", &rows),
        "holds"
    );
    assert_eq!(
        said(&with8(BATTERY + 8, 500_001), samples, "5", &rows),
        "broken,limits,3"
    );
}

/// Station A with 200 kW on set 2 alone, 60 kW: the battery has 10 kW for a second.
fn short_of_power(rows: &[&str], energy: u64, fuel: u64) -> String {
    let set_2 = format!("2,{},0,0,{energy},{fuel}", rows.len());
    let lines = ["1,0,1,0,0,0", &set_2];
    let seconds = rows.len().to_string();
    said(
        &file(),
        &sheet("200", "0", "0"),
        &seconds,
        &text(rows, &lines),
    )
}

#[test]
fn unserved_by_the_store_a_row_earlier() {
    let first = "0,200000,0,0,0,0,10000,60000,130000,2,1,3,0";
    let second = "1,200000,0,0,0,0,0,60000,140000,2,1,3,0";
    assert_eq!(short_of_power(&[first], 60_000, 16_500), "holds");
    assert_eq!(short_of_power(&[first, second], 120_000, 33_000), "holds");
    // 5,000 W leave 500,000 in the store, which allow 5,000 W: the same row's store.
    let same_row = "0,200000,0,0,0,0,5000,60000,135000,2,1,3,500000";
    assert_eq!(
        short_of_power(&[same_row], 60_000, 16_500),
        "broken,unserved,2"
    );
    let nothing = "0,200000,0,0,0,0,0,60000,140000,2,1,3,1000000";
    assert_eq!(
        short_of_power(&[nothing], 60_000, 16_500),
        "broken,unserved,2"
    );
    let below_rating = "0,200000,0,0,0,0,10000,59999,130001,2,1,3,0";
    assert_eq!(
        short_of_power(&[below_rating], 59_999, 16_499),
        "broken,unserved,2"
    );
}

#[test]
fn unserved_while_solar_is_spilled_or_charged() {
    let judged = |row: &str| {
        let lines = ["1,0,1,0,0,0", "2,1,0,0,60000,16500"];
        said(
            &file(),
            &sheet("200", "10", "0"),
            "1",
            &text(&[row], &lines),
        )
    };
    assert_eq!(
        judged("0,200000,0,10000,0,0,10000,60000,120000,2,1,3,0"),
        "holds"
    );
    assert_eq!(
        judged("0,200000,0,0,0,10000,10000,60000,130000,2,1,3,0"),
        "broken,unserved,2"
    );
    assert_eq!(
        judged("0,200000,0,0,10000,0,10000,60000,130000,2,1,3,900000"),
        "broken,unserved,2"
    );
}

#[test]
fn watts_of_no_set() {
    // No set is on line at the start, and the battery has 10 kW.
    let dark = with4(CONTROL + 32, 0);
    let judged = |row: &str| {
        let lines = ["1,0,1,0,0,0", "2,0,0,0,0,0"];
        said(&dark, &sheet("70", "0", "0"), "1", &text(&[row], &lines))
    };
    assert_eq!(judged("0,70000,0,0,0,0,10000,0,60000,0,0,2,0"), "holds");
    assert_eq!(
        judged("0,70000,0,0,0,0,10000,60000,0,0,0,2,0"),
        "broken,watts,2"
    );
}

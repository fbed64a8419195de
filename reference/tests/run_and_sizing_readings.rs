//! Readings C1 to C5 of the run program and E1 to E4 of the sizing screen.

mod station_a;

use reference::refusal::Refusal;
use reference::sizing::{rate, share};
use station_a::{file, printed, with, SAMPLES, TABLE};

/// Station A's run with these seconds asked.
fn asked(seconds: &[u8]) -> String {
    printed(&file(), SAMPLES, seconds)
}

#[test]
fn c1_no_seconds() {
    let expected = "t,load,shed,solar,charge,spill,give,diesel,unserved,on,sets,call,store
set,run,starts,stops,energy,fuel
1,0,0,0,0,0
2,0,0,0,0,0
";
    assert_eq!(asked(b"0"), expected);
    assert_eq!(asked(b"000000000"), expected);
}

#[test]
fn c2_refusals_18_and_23_of_the_seconds() {
    let malformed: [&[u8]; 8] = [
        b"",
        b"-1",
        b"+1",
        b" 1",
        b"1 ",
        b"0000000001",
        b"x",
        b"\xff",
    ];
    for seconds in malformed {
        assert_eq!(asked(seconds), "refused,18,0\n");
    }
    assert_eq!(asked(b"316224001"), "refused,23,0\n");
    assert_eq!(asked(b"999999999"), "refused,23,0\n");
    assert_eq!(asked(b"000000005"), asked(b"5"));
}

#[test]
fn c3_samples_past_the_seconds_are_checked_and_not_used() {
    let later = [SAMPLES, b"100,1,1,1\n"].concat();
    assert_eq!(printed(&file(), &later, b"5"), asked(b"5"));
    let wrong = [SAMPLES, b"100,1,1,2\n"].concat();
    assert_eq!(printed(&file(), &wrong, b"5"), "refused,20,6\n");
}

#[test]
fn c4_c5_order_and_form_of_refusals() {
    let station = with(TABLE + 2, &[0]);
    assert_eq!(printed(&station, b"", b"x"), "refused,8,3\n");
    assert_eq!(printed(&file(), b"", b"x"), "refused,16,1\n");
}

#[test]
fn a_row_holds_until_the_next() {
    let sparse = b"t,LoadP,PvAvailP,ShedLoadP\n0,40,10,0\n3,20,0,0\n3,90,0,0\n1,90,0,0\n";
    let dense = b"t,LoadP,PvAvailP,ShedLoadP\n0,40,10,0\n1,40,10,0\n2,40,10,0\n3,20,0,0\n";
    assert_eq!(
        printed(&file(), sparse, b"20"),
        printed(&file(), dense, b"20")
    );
}

#[test]
fn e1_wrong_masks() {
    let wrong = Err(Refusal::placeless(8));
    for mask in [0, 4, 5, 256, 257, 1 << 32 | 1, 1 << 63] {
        assert_eq!(share(&file(), mask, 0, 1), wrong);
        assert_eq!(rate(&file(), mask, 0), wrong);
    }
    assert_eq!(rate(&file(), 3, 0), wrong);
    assert_eq!(share(&file(), 3, 0, 1), Ok(0));
    // 8 comes before 19.
    assert_eq!(share(&file(), 4, u64::MAX, 1), wrong);
}

#[test]
fn e2_sets_that_are_not_in_the_mask() {
    for set in [0, 2, 3, 9, 1 << 32 | 1, u64::MAX] {
        assert_eq!(share(&file(), 1, 100_000, set), Ok(0));
    }
    assert_eq!(share(&file(), 1, 100_000, 1), Ok(100_000));
}

#[test]
fn e3_power_above_the_capacity() {
    let over = Err(Refusal::placeless(19));
    assert_eq!(share(&file(), 3, 160_000, 2), Ok(60_000));
    assert_eq!(share(&file(), 3, 160_001, 2), over);
    assert_eq!(share(&file(), 3, u64::MAX, 9), over);
    assert_eq!(rate(&file(), 2, 60_000), Ok(16_500));
    assert_eq!(rate(&file(), 2, 60_001), over);
    // The station's own refusal comes first and keeps its place.
    let station = with(TABLE + 1, &[0]);
    assert_eq!(share(&station, 0, 0, 1), Err(Refusal::at(8, 2)));
    assert_eq!(rate(&station, 0, 0), Err(Refusal::at(8, 2)));
}

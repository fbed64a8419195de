//! The programs as they are called: readings C4, C6, E4 and F10.

mod station_a;

use std::ffi::OsStr;
use std::fs::File;
use std::os::unix::ffi::OsStrExt;
use std::path::PathBuf;
use std::process::{Command, Output, Stdio};

use reference::hex;
use station_a::{file, printed, SAMPLES};

/// A file of this test run with these bytes.
fn written(name: &str, bytes: &[u8]) -> PathBuf {
    let path = PathBuf::from(env!("CARGO_TARGET_TMPDIR")).join(name);
    std::fs::write(&path, bytes).expect("the test directory takes files");
    path
}

fn called(arguments: &[&OsStr]) -> Output {
    let program = env!("CARGO_BIN_EXE_reference");
    let output = Command::new(program).args(arguments).output();
    output.expect("the program starts")
}

fn stdout(output: &Output) -> String {
    String::from_utf8_lossy(&output.stdout).into_owned()
}

/// What a call prints whose standard input is a file; a pipe could fill up. Tests
/// run at the same time, each with a file of its own.
fn fed(program: &str, arguments: &[&str], input: &[u8]) -> String {
    let test = std::thread::current();
    let name = format!("input of {}", test.name().expect("a test's name"));
    let path = written(&name, input);
    let input = File::open(path).expect("the file just written");
    let mut call = Command::new(program);
    let output = call.args(arguments).stdin(Stdio::from(input)).output();
    stdout(&output.expect("the program starts"))
}

#[test]
fn run_prints_what_the_core_hands_over() {
    let station = written("run.station", &file());
    let samples = written("run.csv", SAMPLES);
    let run = |seconds: &[u8]| {
        let seconds = OsStr::from_bytes(seconds);
        called(&["run".as_ref(), station.as_ref(), samples.as_ref(), seconds])
    };
    assert_eq!(stdout(&run(b"5")), printed(&file(), SAMPLES, b"5"));
    assert_eq!(stdout(&run(b"\xff")), "refused,18,0\n");
    assert_eq!(stdout(&run(b"")), "refused,18,0\n");
}

#[test]
fn f10_a_station_is_refused_before_the_samples_are_opened() {
    let station = written("short.station", &file()[..164]);
    let output = called(&[
        "run".as_ref(),
        station.as_ref(),
        "no such file".as_ref(),
        "5".as_ref(),
    ]);
    assert_eq!(stdout(&output), "refused,1,0\n");
    assert_eq!(output.status.code(), Some(0));
}

#[test]
fn c6_wrong_calls() {
    let station = written("wrong.station", &file());
    let wrong: [&[&OsStr]; 5] = [
        &[],
        &["run".as_ref(), station.as_ref()],
        &[
            "run".as_ref(),
            station.as_ref(),
            "no such file".as_ref(),
            "5".as_ref(),
        ],
        &["check-station".as_ref(), "no such file".as_ref()],
        &["batch".as_ref(), "nothing".as_ref()],
    ];
    for arguments in wrong {
        let output = called(arguments);
        assert_eq!(output.status.code(), Some(2));
        assert!(output.stdout.is_empty());
        assert!(!output.stderr.is_empty());
    }
}

#[test]
fn e4_file_checks_and_sizing_answers() {
    let station = written("sizing.station", &file());
    let samples = written("sizing.csv", b"t,X\n");
    let answer = |command: &str, file: &PathBuf, numbers: &[&str]| {
        let mut arguments: Vec<&OsStr> = vec![command.as_ref(), file.as_ref()];
        arguments.extend(numbers.iter().map(OsStr::new));
        stdout(&called(&arguments))
    };
    assert_eq!(answer("check-station", &station, &[]), "accepted\n");
    assert_eq!(answer("check-station", &samples, &[]), "refused,1,0\n");
    assert_eq!(answer("check-samples", &samples, &[]), "refused,13,1\n");
    assert_eq!(answer("share", &station, &["3", "25000", "2"]), "9375\n");
    assert_eq!(answer("rate", &station, &["1", "15625"]), "5906\n");
    assert_eq!(answer("rate", &station, &["3", "0"]), "refused,8,0\n");
}

#[test]
fn sheets_are_answered_with_their_rows() {
    let reference = env!("CARGO_BIN_EXE_reference");
    let files: [&[u8]; 5] = [
        SAMPLES,
        b"t,ShedLoadP,LoadP,PvAvailP\n0,1.5,20,3.25\n0,0,0,0\n7,0,0.001,050000",
        b"t,LoadP,PvAvailP,ShedLoadP\n0,1,1,2\n",
        b"t,ShedLoadP,LoadP,PvAvailP\n0,1.5,20,3.25\n0,0,0,0\n7,0,0.001,050000\n8,1,0,0\n9,1,1,1",
        b"",
    ];
    let mut cases = files.map(hex::write).join("\n");
    cases.push_str("\n0\n");
    let expected =
        "accepted 4 0:40000:10000:0 1:75000:10000:5000 2:75000:10000:5000 3:30000:40000:5000
accepted 2 0:20000:3250:1500 7:1:50000000:0
refused,20,2 0
refused,20,5 2 0:20000:3250:1500 7:1:50000000:0
refused,16,1 0
malformed
";
    assert_eq!(
        fed(reference, &["batch", "sheets"], cases.as_bytes()),
        expected
    );
    // The kind `samples` has the refusal alone.
    let checked = "accepted\naccepted\nrefused,20,2\nrefused,20,5\nrefused,16,1\nmalformed\n";
    assert_eq!(
        fed(reference, &["batch", "samples"], cases.as_bytes()),
        checked
    );
}

#[test]
fn generated_cases_are_answered_line_by_line_and_alone() {
    let reference = env!("CARGO_BIN_EXE_reference");
    let generate = env!("CARGO_BIN_EXE_generate");
    for kind in ["stations", "samples", "sheets", "runs", "seconds"] {
        let cases = fed(generate, &[kind, "7", "40"], b"");
        assert_eq!(cases, fed(generate, &[kind, "7", "40"], b""));
        let answers = fed(reference, &["batch", kind], cases.as_bytes());
        assert_eq!(answers.lines().count(), 40);
        assert!(!answers.contains("malformed"));
        if kind == "seconds" {
            let first = cases.lines().next().expect("a case");
            let alone = fed(reference, &["second"], first.as_bytes());
            assert_eq!(alone.lines().next(), answers.lines().next());
        }
    }
}

#[test]
fn judge_reads_rows_from_a_file_and_from_standard_input() {
    let station = written("judge.station", &file());
    let samples = written("judge.csv", SAMPLES);
    let rows = printed(&file(), SAMPLES, b"5");
    let path = written("judge.rows", rows.as_bytes());
    let call = [
        "judge".as_ref(),
        station.as_ref(),
        samples.as_ref(),
        "5".as_ref(),
    ];
    let from_file = called(&[&call[..], &[path.as_ref()]].concat());
    assert_eq!(stdout(&from_file), "holds\n");
    assert_eq!(from_file.status.code(), Some(0));
    let texts: Vec<&str> = call
        .iter()
        .filter_map(|text: &&OsStr| text.to_str())
        .collect();
    let fed = |rows: &str| {
        let program = env!("CARGO_BIN_EXE_reference");
        fed(program, &[&texts[..], &["-"]].concat(), rows.as_bytes())
    };
    assert_eq!(fed(&rows), "holds\n");
    assert_eq!(fed(&rows.replace("45843", "45844")), "broken,fuel,9\n");
    assert_eq!(fed("refused,1,0\n"), "no rows\n");
}

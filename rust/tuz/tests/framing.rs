//! `--framing`: recordings framed by length, listed, told by exposures, and found out.

mod common;

use common::*;
use std::fs;

const FRAMED: [u8; 14] = [0, 0, 0, 4, 0x65, 0x88, 0x84, 0xA0, 0, 0, 0, 2, 0x09, 0xF0];
const LISTED: &str = "\
unit place=4 length=4 slice type=7 frame=0 qp=26
unit place=12 length=2 other type=9
";

fn by_length(command: &str, more: &[&str], input: &[u8]) -> std::process::Output {
    let words = [command, "-", "-q", "--framing", "length"];
    // those two read no slice
    let sample: &[&str] = match command {
        "kinds" | "table" => &[],
        _ => &["--sample"],
    };
    tuz(&[&words, sample, more].concat(), input)
}

/// Sets and a slice, each behind its length, with one more set, another one, before the last slice.
const SETS_FRAMED: [&[u8]; 5] = [
    &[0, 0, 0, 8, 0x67, 0x42, 0xC0, 0x0A, 0xDA, 0x0B, 0x13, 0x90],
    &[0, 0, 0, 4, 0x68, 0xCE, 0x04, 0x62],
    &[0, 0, 0, 4, 0x65, 0x88, 0x84, 0xA0],
    &[0, 0, 0, 4, 0x68, 0xCE, 0x38, 0x80],
    &[0, 0, 0, 4, 0x65, 0x88, 0x84, 0xA0],
];

/// A clip of the repository.
fn clip(name: &str) -> Vec<u8> {
    let path = format!("{}/../../{name}", env!("CARGO_MANIFEST_DIR"));
    fs::read(path).unwrap()
}

/// The words of each line but its place.
fn placeless(lines: &str) -> Vec<Vec<&str>> {
    let lines = lines.lines().map(|line| line.split(' '));
    lines
        .map(|words| words.filter(|w| !w.starts_with("place=")).collect())
        .collect()
}

#[test]
fn lines_are_the_same() {
    let done = by_length("list", &["--strict"], &FRAMED);
    assert_eq!(out(&done), format!("{LISTED}end units=2 refused=0\n"));
    assert_eq!((err(&done).as_str(), done.status.code()), ("", Some(0)));
    // a unit without a byte is one
    let done = by_length("list", &[], &[0; 4]);
    assert_eq!(
        out(&done),
        "unit place=4 length=0 refused 1 value=0\nend units=1 refused=1\n"
    );
}

/// 29 is a line of its own, before the last, and counts as refused.
#[test]
fn a_broken_length_ends_it() {
    for (more, place) in [
        (&[0, 0, 7][..], 14),
        (&[0, 0, 0, 9, 1, 2, 3], 14),
        (&[255; 4], 14),
    ] {
        let input = [&FRAMED[..], more].concat();
        let done = by_length("list", &["--strict"], &input);
        let last = format!("refused 29 value={place}\nend units=2 refused=1\n");
        assert_eq!(out(&done), format!("{LISTED}{last}"));
        assert_eq!(done.status.code(), Some(1));
        // beside rows and objects it is told on standard error
        let done = by_length("headers", &["--format", "json", "--strict"], &input);
        assert_eq!(out(&done).lines().count(), 2);
        let told =
            format!("tuz: standard input: refused 29: the length at place {place} is broken");
        assert!(err(&done).starts_with(&told), "{}", err(&done));
        assert_eq!(done.status.code(), Some(1));
        let done = by_length("exposures", &["--strict"], &input);
        assert!(err(&done).starts_with(&told), "{}", err(&done));
        assert_eq!(
            (out(&done).lines().count(), done.status.code()),
            (1, Some(1))
        );
    }
    let done = by_length("qp", &[], &[&FRAMED[..], &[1]].concat());
    assert!(
        out(&done).contains("refused 29 value=14\n") && out(&done).ends_with("total refused=1\n")
    );
}

/// What the first bytes say, with places by length: whole, without a byte, and up to a length that is broken, which is a line of its own and no unit.
#[test]
fn kinds() {
    const KINDS: &str = "\
unit place=4 length=4 type=5 nal_ref_idc=3
unit place=12 length=2 type=9 nal_ref_idc=0
";
    let done = by_length("kinds", &["--strict"], &FRAMED);
    assert_eq!(out(&done), format!("{KINDS}end units=2 refused=0\n"));
    assert_eq!((err(&done).as_str(), done.status.code()), ("", Some(0)));
    let done = by_length("kinds", &[], &[0; 4]);
    assert_eq!(
        out(&done),
        "unit place=4 length=0 refused 1 value=0\nend units=1 refused=1\n"
    );
    // the units behind a broken length are lost, and nothing else is
    let input = [&FRAMED[..], &[0, 0, 1, 0, 0x65], &FRAMED].concat();
    let done = by_length("kinds", &["--strict"], &input);
    let last = "refused 29 value=14\nend units=2 refused=1\n";
    assert_eq!(out(&done), format!("{KINDS}{last}"));
    assert_eq!((err(&done).as_str(), done.status.code()), ("", Some(1)));
    for (format, lines) in [("json", 2), ("csv", 3)] {
        let done = by_length("kinds", &["--format", format, "--strict"], &input);
        assert_eq!(
            (out(&done).lines().count(), done.status.code()),
            (lines, Some(1))
        );
        let told = "tuz: standard input: refused 29: the length at place 14 is broken";
        assert!(err(&done).starts_with(told), "{}", err(&done));
    }
    let done = tuz(&["kinds", "-", "--framing", "length"], &input);
    assert_eq!(
        err(&done),
        "standard input: 33 bytes, 27 of them in no unit; 2 units: 1 of type 5, 1 of type 9, 1 refused\n"
    );
}

/// The sets up to a length that is broken. It is told on standard error, since what is printed is a table.
#[test]
fn tables() {
    const SPS: &str = "sps:0:1:0:0:4:2:0:0:1:99 # place=4\n";
    let whole = SETS_FRAMED.concat();
    let done = by_length("table", &["--strict"], &whole);
    let all = format!(
        "{SPS}pps:0:0:0:0:0:0:0:0:4:0:0:0:0 # place=16\npps:0:0:0:0:0:0:0:0:0:0:0:0:0 # place=32\n"
    );
    assert_eq!((out(&done), done.status.code()), (all, Some(0)));
    let other = "tuz: standard input: place 32: picture parameter set 0 replaces a different one\n";
    assert_eq!(err(&done), other);
    // the second set's length is too great by far
    let mut broken = whole;
    broken[12] = 1;
    let done = by_length("table", &["--strict"], &broken);
    assert_eq!((out(&done).as_str(), done.status.code()), (SPS, Some(1)));
    let told = "tuz: standard input: refused 29: the length at place 12 is broken";
    assert!(err(&done).starts_with(told), "{}", err(&done));
    let done = tuz(&["table", "-", "--framing", "length"], &broken);
    let told = "standard input: 1 parameter sets, 0 of them as the table had them; 0 refused\n";
    assert!(err(&done).ends_with(told), "{}", err(&done));
    assert_eq!(done.status.code(), Some(0));
    let done = by_length("table", &["--strict"], &[0; 4]);
    assert_eq!(
        (out(&done), err(&done), done.status.code()),
        (String::new(), String::new(), Some(0))
    );
}

/// A file that is empty, in a container or framed otherwise is told alike by all commands.
#[test]
fn no_such_recording() {
    for command in ["list", "headers", "kinds", "qp", "exposures", "table"] {
        for (framing, input, told) in [
            ("length", &b""[..], "tuz: standard input: is empty\n"),
            ("auto", b"", "tuz: standard input: is empty\n"),
            (
                "length",
                b"\0\0\0\x20ftypisom",
                "tuz: standard input: is an MP4 file",
            ),
            (
                "start-codes",
                &FRAMED,
                "tuz: standard input: has its units behind lengths",
            ),
        ] {
            let done = tuz(&[command, "-", "--framing", framing], input);
            assert!(err(&done).starts_with(told), "{command}: {}", err(&done));
            assert_eq!((out(&done).as_str(), done.status.code()), ("", Some(2)));
        }
    }
}

/// Clips by length are told as they are with start codes of four bytes, which stand where the lengths do, by every command.
#[test]
fn clips_are_told_alike() {
    for name in [
        "demo/torn.264",
        "tests/clips/comet.264",
        "tests/clips/scalable.264",
    ] {
        let framed = tuz(
            &["convert", "-", "-o", "-", "-q", "--to", "length"],
            &clip(name),
        )
        .stdout;
        let coded = tuz(
            &["convert", "-", "-o", "-", "-q", "--to", "start-codes"],
            &framed,
        )
        .stdout;
        let alike = |words: &[&str], least: usize| {
            let told = |framing: &str, input: &[u8]| {
                tuz(&[words, &["-", "--framing", framing]].concat(), input)
            };
            let (by_code, by_length) = (told("start-codes", &coded), told("length", &framed));
            assert_eq!(out(&by_code), out(&by_length), "{name} {words:?}");
            assert_eq!(err(&by_code), err(&by_length), "{name} {words:?}");
            assert!(out(&by_code).lines().count() >= least);
            // start codes of the clip itself may have three bytes
            if words.len() == 1 {
                let (first, last) = (out(&told("start-codes", &clip(name))), out(&by_length));
                assert_eq!(placeless(&first), placeless(&last), "{name} {words:?}");
            }
        };
        for command in ["list", "headers", "kinds", "qp", "exposures"] {
            alike(&[command], 20);
            for format in ["json", "csv"] {
                alike(&[command, "--format", format], 20);
            }
        }
        alike(&["table"], 2);
    }
}

/// What it is taken for is told; a recording that begins with a length which looks like a start code is told apart by the units behind it.
#[test]
fn found_out() {
    let auto = |input: &[u8]| tuz(&["list", "-", "--sample", "-q", "--framing", "auto"], input);
    let done = auto(&FRAMED);
    assert!(out(&done).starts_with(LISTED));
    let told = "tuz: standard input: units stand behind lengths of 4 bytes (--framing length)\n";
    assert_eq!(err(&done), told);
    let done = auto(&CLIP);
    assert_eq!(out(&done), LISTING);
    let told = "tuz: standard input: units stand behind start codes (--framing start-codes)\n";
    assert_eq!(err(&done), told);
    let long = [&[0, 0, 1, 0, 0x09][..], &[0xF0; 255]].concat().repeat(5);
    assert!(out(&auto(&long)).ends_with("end units=5 refused=0\n"));
    // a container is none of both
    let movie = auto(b"\0\0\0\x20ftypisom");
    assert!(err(&movie).contains("is an MP4 file"), "{}", err(&movie));
    let done = tuz(&["list", "-"], &FRAMED);
    assert!(
        err(&done).contains("`--framing length` reads it"),
        "{}",
        err(&done)
    );
}

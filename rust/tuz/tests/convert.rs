//! `tuz convert`: there and back, refusals, files, and the limit.

mod common;

use common::*;
use std::fs::{self, File};

const FRAMED: [u8; 14] = [0, 0, 0, 4, 0x65, 0x88, 0x84, 0xA0, 0, 0, 0, 2, 0x09, 0xF0];
const CODED: [u8; 14] = [0, 0, 0, 1, 0x65, 0x88, 0x84, 0xA0, 0, 0, 0, 1, 0x09, 0xF0];

fn convert(to: &str, input: &[u8]) -> std::process::Output {
    tuz(&["convert", "-", "-o", "-", "--to", to], input)
}

#[test]
fn there_and_back() {
    let framed = convert("length", &CLIP);
    assert_eq!(framed.stdout, FRAMED);
    let told = "standard input: 13 bytes converted; standard output has 14\n";
    assert_eq!(
        (err(&framed).as_str(), framed.status.code()),
        (told, Some(0))
    );
    let coded = convert("start-codes", &FRAMED);
    assert_eq!(
        (coded.stdout, coded.status.code()),
        (CODED.to_vec(), Some(0))
    );
    // what is in no unit is left out, and a unit without a byte is one
    assert_eq!(convert("length", &[7, 0, 0, 1]).stdout, [0; 4]);
    assert_eq!(convert("start-codes", &[0; 4]).stdout, [0, 0, 0, 1]);
}

/// A refusal is told with its place, and what stood in the file stays.
#[test]
fn a_refusal_leaves_the_file() {
    let to = file("kept.264", b"kept");
    for (given, number, place) in [
        (&FRAMED[..13], 29, 8),
        (&[0, 0, 0, 2, 9, 0, 0, 0, 0, 9][..], 29, 6),
        (&[0, 0, 0, 1, 9, 0, 0, 0, 4, 9, 0, 0, 1][..], 35, 9),
        (&[0, 0, 0, 2, 9, 0][..], 35, 4),
    ] {
        let words = ["convert", "-", "-o", word(&to), "--to", "start-codes"];
        let done = tuz(&words, given);
        let told = format!("tuz: standard input: refused {number}: ");
        assert!(err(&done).starts_with(&told), "{}", err(&done));
        assert!(err(&done).contains(&format!(" at place {place} ")));
        assert_eq!(done.status.code(), Some(2));
        assert_eq!(fs::read(&to).unwrap(), b"kept");
    }
}

/// Files: the recording is never written over, and a recording of the other framing is told what it is.
#[test]
fn files() {
    let (framed, coded) = (file("framed", &FRAMED), file("coded.264", &CODED));
    let words = |from, to| ["convert", from, "-o", to, "-q", "--to", "start-codes"];
    let done = tuz(&words(word(&framed), word(&framed)), &[]);
    assert!(err(&done).contains("is the same file as the recording"));
    let to = file("to.264", b"");
    let done = tuz(&words(word(&framed), word(&to)), &[]);
    assert_eq!((err(&done).as_str(), done.status.code()), ("", Some(0)));
    assert_eq!(fs::read(&to).unwrap(), CODED);
    let done = tuz(&words(word(&coded), word(&to)), &[]);
    assert!(err(&done).contains(": refused 29: the length at place 5 is broken"));
    let lengths = convert("length", &[FRAMED, FRAMED].concat());
    assert!(err(&lengths).contains("has its units behind lengths of 4 bytes"));
    assert_eq!(lengths.status.code(), Some(2));
    let movie = convert("start-codes", b"\0\0\0\x20ftypisom");
    assert!(err(&movie).contains("is an MP4 file"));
}

/// A recording of over 256 MiB is not converted. It is a hole in a file.
#[test]
fn the_limit() {
    let long = file("long", &FRAMED);
    let opened = File::options().write(true).open(&long).unwrap();
    opened.set_len((256 << 20) + 1).unwrap();
    let words = ["convert", word(&long), "-o", "-", "--to", "start-codes"];
    let done = tuz(&words, &[]);
    let told = format!("tuz: {}: is over 268435456 bytes\n", word(&long));
    assert_eq!((err(&done), done.status.code()), (told, Some(2)));
    assert!(done.stdout.is_empty());
    fs::remove_file(long).unwrap();
}

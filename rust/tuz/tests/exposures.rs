//! `tuz exposures`: lines, objects, rows, a picture, totals and the exit status.

mod common;

use common::*;
use std::fs;

const COLUMNS: &str =
    "number,place,slices,qp_least,qp_mean,qp_greatest,frame_num,gap,refused_before";

fn demo() -> Vec<u8> {
    fs::read(concat!(env!("CARGO_MANIFEST_DIR"), "/../../demo/torn.264")).unwrap()
}

/// Of 24 pictures one is torn; all others are told, in the same words in each form.
#[test]
fn one_schema() {
    let told = |format: &str| out(&tuz(&["exposures", "-", "-q", "--format", format], &demo()));
    let (text, json, csv) = (told("text"), told("json"), told("csv"));
    let rows: Vec<&str> = csv.lines().collect();
    assert_eq!((rows[0], rows.len()), (COLUMNS, 24));
    for ((row, line), object) in rows[1..].iter().zip(text.lines()).zip(json.lines()) {
        let cells = COLUMNS.split(',').zip(row.split(','));
        let words: Vec<String> = cells.clone().map(|(n, c)| format!("{n}={c}")).collect();
        assert_eq!(line, format!("exposure {}", words.join(" ")));
        let members: Vec<String> = cells.map(|(n, c)| format!("\"{n}\":{c}")).collect();
        assert_eq!(object, format!("{{{}}}", members.join(",")));
        serde_json::from_str::<serde_json::Value>(object).unwrap();
    }
    assert_eq!((text.lines().count(), json.lines().count()), (23, 23));
}

#[test]
fn totals_and_status() {
    let done = tuz(&["exposures", "-"], &demo());
    assert!(done.status.success());
    let told = String::from_utf8_lossy(&done.stderr).into_owned();
    let totals = "standard input: 23 exposures, 0 gaps, 1 refused, 0 redundant, 0 views\n";
    assert!(told.ends_with(totals), "{told}");
    let strict = tuz(&["exposures", "-", "-q", "--strict"], &demo());
    assert_eq!(strict.status.code(), Some(1));
    // of no slice there is no exposure
    let none = tuz(
        &["exposures", "-", "-q", "--format", "csv"],
        &[0, 0, 1, 9, 0xF0],
    );
    assert_eq!(out(&none), format!("{COLUMNS}\n"));
}

/// The picture has a mark for the torn unit, and stands alone on standard output.
#[test]
fn picture() {
    let svg = out(&tuz(&["exposures", "-", "-q", "--plot", "-"], &demo()));
    assert!(svg.starts_with("<svg ") && svg.ends_with("</svg>\n"));
    for words in ["23 exposures: mean", "least to greatest", "refused 1"] {
        assert!(svg.contains(words), "{words}");
    }
    assert!(!svg.contains("gaps") && !svg.contains("exposure number"));
}

//! The forms in which units are told, refusals in words, and names that are no plain text.

mod common;

use common::*;
use std::fs;
use std::path::Path;
use std::process::Command;

/// A recording with every kind of answer.
fn mixed() -> Vec<u8> {
    let prefix: &[u8] = &[0, 0, 1, 0x6E, 0x80, 0, 7, 0xD1, 0xA0];
    [&CLIP[..], prefix, &[0, 0, 1, 0xE5], &[0, 0, 1, 0x65, 0x88]].concat()
}

/// The same with a sequence set and a picture set behind it.
fn mixed_with_sets() -> Vec<u8> {
    let sps: &[u8] = &[0, 0, 1, 0x67, 0x42, 0xC0, 0x0A, 0xDA, 0x0B, 0x13, 0x90];
    [&mixed()[..], sps, &[0, 0, 1, 0x68, 0xCE, 0x04, 0x62]].concat()
}

fn json(words: &[&str]) -> Vec<serde_json::Map<String, serde_json::Value>> {
    let done = tuz(&[words, &["--format", "json"]].concat(), &mixed_with_sets());
    let all = out(&done);
    all.lines()
        .map(|l| serde_json::from_str(l).unwrap())
        .collect()
}

/// One schema: what `list` and `qp` tell of a unit is a part of what `headers` tells, under the same names, as JSON and as CSV.
#[test]
fn one_schema() {
    let all = json(&["headers", "-", "--sample", "-q"]);
    assert_eq!(all.len(), 7);
    for (command, units) in [("list", 7), ("qp", 3)] {
        let words = [command, "-", "--sample", "-q"];
        let some = json(&words);
        assert_eq!(some.len(), units);
        for object in &some {
            let whole = all.iter().find(|o| o["place"] == object["place"]).unwrap();
            assert!(object.iter().all(|(k, v)| &whole[k] == v), "{object:?}");
        }
        let csv = [&words[..], &["--format", "csv"]].concat();
        let csv = out(&tuz(&csv, &mixed_with_sets()));
        let mut rows = csv::Reader::from_reader(csv.as_bytes());
        let columns = rows.headers().unwrap().clone();
        for (row, object) in rows.records().map(Result::unwrap).zip(&some) {
            let cells = columns
                .iter()
                .zip(&row)
                .filter(|(_, cell)| !cell.is_empty());
            let cells: Vec<_> = cells.collect();
            assert_eq!(cells.len(), object.len());
            for (name, cell) in cells {
                let told = &object[name];
                assert_eq!(told.as_str().map_or(told.to_string(), str::to_owned), cell);
            }
        }
    }
    let slice = &json(&["list", "-", "--sample", "-q"])[0];
    let text = serde_json::to_string(&slice).unwrap();
    assert_eq!(
        text,
        r#"{"answer":"slice","family":"I","frame_num":0,"length":4,"place":4,"qp":26,"slice_type":7}"#
    );
}

/// Refusals are told in words in JSON and on a terminal; text that goes elsewhere is the rules'.
#[test]
fn refusals_in_words() {
    let units = json(&["list", "-", "--sample", "-q"]);
    assert_eq!(units[4]["why"], "the bits ran out inside a field");
    assert_eq!(units[4]["bit"], 8);
    assert!(!units[3].contains_key("bit"));
    let clip = file("words.264", &mixed());
    let line = format!(
        "{} list {} --sample -q",
        env!("CARGO_BIN_EXE_tuz"),
        word(&clip)
    );
    let terminal = Command::new("script")
        .args(["-qec", &line, "/dev/null"])
        .output()
        .unwrap();
    let told = out(&terminal).replace("\r\n", "\n");
    assert!(told.contains("\nunit place=25 length=1 refused 2 value=0: the top bit of the unit's first byte is set\n"), "{told}");
    let bits = " refused 5 value=0 bit=8: the bits ran out inside a field\n";
    assert!(told.contains(bits), "{told}");
    let plain = out(&tuz(&["list", word(&clip), "--sample", "-q"], &[]));
    let cut = |line: &str| line.split(": ").next().unwrap().to_owned();
    let cut: Vec<_> = told.lines().map(cut).collect();
    assert_eq!(cut, plain.lines().collect::<Vec<_>>());
}

#[test]
fn a_refusal_is_explained() {
    let done = tuz(&["explain", "12"], &[]);
    assert!(out(&done).starts_with("refused 12: modification_of_pic_nums_idc is over 5"));
    for (number, place) in [
        ("4", "none"),
        ("5", "where the field begins"),
        ("10", "where pic_parameter_set_id begins"),
        ("13", "where list modification would begin"),
        ("14", "where the 67th code begins"),
        ("22", "where the header ends"),
        ("24", "none"),
        ("28", "where the field begins"),
    ] {
        let told = out(&tuz(&["explain", number], &[]));
        assert!(told.contains(&format!("\nbit: {place}\n")), "{told}");
    }
    assert_eq!(out(&tuz(&["explain"], &[])).lines().count(), 31);
    let done = tuz(&["explain", "30"], &[]);
    assert_eq!(
        (err(&done).as_str(), done.status.code()),
        (
            "tuz: 30 is no refusal: they are 1 to 29, 34 and 35\n",
            Some(2)
        )
    );
}

/// The picture of so many slices, of which the last is refused.
fn picture(slices: usize) -> String {
    let clip = [&CLIP.repeat(slices)[..], &[0, 0, 1, 0xE5]].concat();
    out(&tuz(&["qp", "-", "--sample", "-q", "--plot", "-"], &clip))
}

#[test]
fn a_picture_of_any_number_of_slices() {
    for slices in [0, 1, 24, 500, 5_000, 100_000] {
        let svg = picture(slices);
        assert!(
            svg.starts_with("<svg ") && svg.ends_with("</svg>\n"),
            "{slices}"
        );
        assert!(
            svg.contains("refused 1 (2: 1)") && svg.contains(">2</text>"),
            "{slices}"
        );
        assert!(
            svg.len() < 120_000 && !svg.contains("NaN") && !svg.contains("inf"),
            "{slices}"
        );
        // each of few is a point; many are thin marks
        let points = if slices <= 500 { slices } else { 0 };
        assert_eq!(svg.matches("<circle").count(), points);
    }
    // where all is refused, the axis is that of 8 bits
    let none = picture(0);
    assert!(none.contains(">0</text>") && none.contains(">50</text>"));
}

/// Names that would steer a terminal or break a picture are told with escapes.
#[test]
fn names_steer_nothing() {
    let name = "a\u{1b}[31m<b>&\"\u{202e}\n\u{7}.264";
    let clip = file(name, &CLIP);
    let told = "a\\u{1b}[31m<b>&\"\\u{202e}\\u{a}\\u{7}.264";
    let svg = clip.with_file_name("steer.svg");
    let done = tuz(&["qp", word(&clip), "--sample", "--plot", word(&svg)], &[]);
    assert!(err(&done).contains(told), "{}", err(&done));
    let svg = fs::read_to_string(svg).unwrap();
    let escaped = told
        .replace('&', "&amp;")
        .replace('<', "&lt;")
        .replace('>', "&gt;")
        .replace('"', "&quot;");
    assert!(svg.contains(&escaped), "{svg}");
    let missing = "/nowhere/\u{1b}[2J";
    let table = file("steer.table", "sps:\u{1b}[2J".as_bytes());
    for words in [
        &["list", missing][..],
        &["list", "-", missing],
        &["list", "-", "--table", missing],
        &["list", "-", "--table", word(&table)],
        &["tear", "-", "--sample", "-o", missing],
        &["qp", "-", "--sample", "--csv", missing],
        &["cases", missing],
        &[missing],
    ] {
        let done = tuz(words, &CLIP);
        assert_eq!(done.status.code(), Some(2));
        assert!(
            err(&done).contains("\\u{1b}[2J") && !err(&done).contains('\u{1b}'),
            "{}",
            err(&done)
        );
    }
    let case = tuz(&["cases", "-"], "sps:\u{1b}[2J 65\n".as_bytes());
    assert!(!err(&case).contains('\u{1b}') && Path::new(word(&clip)).exists());
    fs::remove_file(clip).unwrap();
}

/// The manual page and the completions have every command and every option, and the version tells kit and layout.
#[test]
fn the_manual_has_every_option() {
    let page = out(&tuz(&["manual"], &[])).replace("\\-", "-");
    let shell = out(&tuz(&["completions", "bash"], &[]));
    let help = out(&tuz(&["--help"], &[]));
    let commands = help.split("Commands:\n").nth(1).unwrap();
    let commands = commands.split("\n\n").next().unwrap();
    let names: Vec<_> = (commands.lines().filter_map(|l| l.split_whitespace().next()))
        .filter(|name| *name != "help")
        .collect();
    assert!(names.len() >= 8 && names.contains(&"qp"));
    for name in names {
        assert!(page.contains(&format!("\n.SS tuz {name}\n")), "{name}");
        let help = out(&tuz(&["help", name], &[]));
        let words = help.split(|c: char| !(c.is_alphanumeric() || c == '-'));
        for option in words.filter(|w| w.starts_with("--") && w.len() > 2 && *w != "--help") {
            assert!(page.contains(option) && shell.contains(option), "{option}");
        }
    }
    let version = out(&tuz(&["--version"], &[]));
    let layout = format!(", layout {})\n", tuzmarghil::LAYOUT);
    assert!(version.starts_with("tuz 0.1.0 (") && version.ends_with(&layout));
}

/// What the first bytes say, in three forms, without a table; totals and the status as elsewhere.
#[test]
fn kinds_in_three_forms() {
    let clip = [
        &mixed()[..],
        &[0, 0, 1, 0x74, 0x40, 0, 1],
        &[0, 0, 1, 0x6E, 0x80],
    ]
    .concat();
    let done = tuz(&["kinds", "-"], &clip);
    let told = "\
unit place=4 length=4 type=5 nal_ref_idc=3
unit place=11 length=2 type=9 nal_ref_idc=0
unit place=16 length=6 type=14 nal_ref_idc=3 ext=svc 800007
unit place=25 length=1 refused 2 value=0
unit place=29 length=2 type=5 nal_ref_idc=3
unit place=34 length=4 type=20 nal_ref_idc=3 ext=mvc 400001
unit place=41 length=2 refused 4 value=0
end units=7 refused=2
";
    assert_eq!(out(&done), told);
    assert_eq!(
        err(&done),
        "standard input: 43 bytes, 22 of them in no unit; 7 units: 2 of type 5, 1 of type 9, 1 of type 14, 1 of type 20, 2 refused\n"
    );
    assert_eq!(done.status.code(), Some(0));
    assert_eq!(
        tuz(&["kinds", "-", "-q", "--strict"], &clip).status.code(),
        Some(1)
    );
    assert_eq!(
        tuz(&["kinds", "-", "-q", "--strict"], &CLIP).status.code(),
        Some(0)
    );

    let lines = out(&tuz(&["kinds", "-", "-q", "--format", "json"], &clip));
    let lines: Vec<_> = lines.lines().collect();
    assert_eq!(lines.len(), 7);
    assert_eq!(
        lines[2],
        r#"{"place":16,"length":6,"answer":"head","type":14,"nal_ref_idc":3,"ext":"svc","ext_bytes":"800007"}"#
    );
    assert_eq!(
        lines[6],
        r#"{"place":41,"length":2,"answer":"refused","refusal":4,"value":0,"why":"a unit of type 14, 20 or 21 without its three extension bytes"}"#
    );
    let rows = out(&tuz(&["kinds", "-", "-q", "--format", "csv"], &clip));
    let rows: Vec<_> = rows.lines().collect();
    assert_eq!(
        [rows[0], rows[1], rows[6], rows[7]],
        [
            "place,length,answer,type,refusal,value,why,nal_ref_idc,ext,ext_bytes",
            "4,4,head,5,,,,3,,",
            "34,4,head,20,,,,3,mvc,400001",
            "41,2,refused,,4,0,\"a unit of type 14, 20 or 21 without its three extension bytes\",,,"
        ]
    );
    let nothing = tuz(&["kinds", "-", "-q", "--force"], b"hello");
    assert_eq!(out(&nothing), "end units=0 refused=0\n");
    let none = tuz(&["kinds", "-"], b"");
    assert_eq!(
        (err(&none).as_str(), none.status.code()),
        ("tuz: standard input: is empty\n", Some(2))
    );
    // it has no table
    assert_eq!(
        tuz(&["kinds", "-", "--sample"], &clip).status.code(),
        Some(2)
    );
}

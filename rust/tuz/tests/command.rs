//! The command as it is used: what it prints, on which stream, with which exit status.

mod common;

use common::*;
use std::fs::{self, File, Permissions};
use std::io::{Seek, SeekFrom, Write};
use std::os::unix::fs::{MetadataExt, PermissionsExt};
use std::os::unix::process::CommandExt;
use std::path::{Path, PathBuf};
use std::process::{Command, Stdio};

#[test]
fn the_listing_of_document_01() {
    let done = tuz(&["list", "-", "--sample"], &CLIP);
    assert_eq!(
        (out(&done).as_str(), done.status.code()),
        (LISTING, Some(0))
    );
    assert_eq!(
        err(&done),
        "standard input: 13 bytes, 7 of them in no unit; 2 units: 1 slices (1 I), 0 parameter sets, 0 prefix units, 1 others, 0 refused\n"
    );

    let (clip, table) = (file("a.264", &CLIP), file("a.table", SETS.as_bytes()));
    let (clip, table) = (clip.to_str().unwrap(), table.to_str().unwrap());
    let done = tuz(&["list", clip, "--table", table, "-q"], &[]);
    assert_eq!((out(&done).as_str(), err(&done).as_str()), (LISTING, ""));

    let done = tuz(&["list", clip, "--strict"], &[]);
    assert_eq!(done.status.code(), Some(1));
    assert!(out(&done).starts_with("unit place=4 length=4 refused 9 value=0 bit=8\n"));
}

#[test]
fn every_field_in_three_formats() {
    let line = "slice nal_ref_idc=3 nal_unit_type=5 first_mb_in_slice=0 slice_type=7 pic_parameter_set_id=0 seq_parameter_set_id=0 frame_num=0 idr_pic_id=0 no_output_of_prior_pics_flag=0 long_term_reference_flag=0 slice_qp_delta=0 bits=17\n";
    let case = format!("# a comment\n\n{SETS} 658884A0\n{SETS} -\n658884a0\n");
    let done = tuz(&["cases", "-"], case.as_bytes());
    let rest = "refused 1 value=0\nrefused 9 value=0 bit=8\n";
    assert_eq!(out(&done), format!("{line}{rest}"));

    // with the type's letter and the final QP
    let text = tuz(&["headers", "-", "--sample"], &CLIP);
    let more = line.replace("slice_type=7", "slice_type=7 family=I");
    let more = more.replace("bits=17", "bits=17 qp=26");
    let other = "unit place=11 length=2 other type=9\n";
    assert_eq!(out(&text), format!("unit place=4 length=4 {more}{other}"));

    let json = out(&tuz(
        &["headers", "-", "--sample", "--format", "json"],
        &CLIP,
    ));
    let first: serde_json::Value = serde_json::from_str(json.lines().next().unwrap()).unwrap();
    assert_eq!((&first["place"], &first["bits"]), (&4.into(), &17.into()));
    assert_eq!(first["long_term_reference_flag"], false);

    let csv = out(&tuz(
        &["headers", "-", "--sample", "--format", "csv"],
        &CLIP,
    ));
    let mut rows = csv::Reader::from_reader(csv.as_bytes());
    let at = rows.headers().unwrap().iter().position(|n| n == "bits");
    let rows: Vec<_> = rows.records().map(Result::unwrap).collect();
    assert_eq!((rows.len(), &rows[0][at.unwrap()]), (2, "17"));
}

/// A field of JSON as text has it.
fn text_of(json: &serde_json::Value) -> String {
    use serde_json::Value::*;
    let joined = |list: &[serde_json::Value], with| {
        let list: Vec<_> = list.iter().map(text_of).collect();
        list.join(with)
    };
    match json {
        Null => "-".into(),
        Bool(b) => u8::from(*b).to_string(),
        Number(n) => n.to_string(),
        String(s) => s.clone(),
        Array(list) if list.is_empty() => "-".into(),
        Array(list) if list[0].is_number() => joined(list, ":"),
        Array(list) => joined(list, ","),
        Object(weights) => match weights.get("chroma") {
            None => text_of(&weights["luma"]),
            Some(chroma) => text_of(&weights["luma"]) + "/" + &text_of(chroma),
        },
    }
}

/// The three formats of a clip with lists, weights and marking operations say the same, field by field.
#[test]
fn three_formats_say_the_same() {
    let clips = Path::new(env!("CARGO_MANIFEST_DIR")).join("../../tests/clips");
    let clip = clips.join("comet.264");
    let words = ["headers", word(&clip), "--format"];
    let of = |format| out(&tuz(&[&words[..], &[format]].concat(), &[]));
    let (text, json, csv) = (of("text"), of("json"), of("csv"));
    let mut rows = csv::Reader::from_reader(csv.as_bytes());
    let columns = rows.headers().unwrap().clone();
    let rows: Vec<_> = rows.records().map(Result::unwrap).collect();
    assert_eq!((text.lines().count(), rows.len()), (247, 247));
    assert_eq!(json.lines().count(), 247);
    let mut met = vec![];
    for ((text, json), row) in text.lines().zip(json.lines()).zip(&rows) {
        let json: serde_json::Map<_, _> = serde_json::from_str(json).unwrap();
        let fields = text.split(' ').filter_map(|word| word.split_once('='));
        let mut fields: Vec<_> = fields.collect();
        met.extend(fields.iter().map(|(name, text)| (*name, *text)));
        fields.push(("answer", text.split(' ').nth(3).unwrap()));
        assert_eq!(json.len(), fields.len());
        assert_eq!(
            row.iter().filter(|cell| !cell.is_empty()).count(),
            fields.len()
        );
        for (name, text) in fields {
            let column = columns.iter().position(|n| n == name).unwrap();
            assert_eq!(
                (text_of(&json[name]).as_str(), &row[column]),
                (text, text),
                "{name}"
            );
        }
    }
    // the clip has what makes the formats differ
    for (name, part) in [
        ("weights_l0", ":"),
        ("weights_l0", "/"),
        ("mods_l0", ","),
        ("mmco", ":"),
    ] {
        assert!(
            met.iter()
                .any(|(n, text)| *n == name && text.contains(part)),
            "{name}"
        );
    }
}

#[test]
fn words_of_a_case_are_looked_at() {
    for (case, told) in [
        (
            "foo 65",
            "line 1: foo: a word of the table begins with sps: or pps:",
        ),
        ("sps:0:1 65", "separate_colour_plane_flag is missing"),
        (
            "sps:0:1:2:0:4:2:0:0:1:99 65",
            "separate_colour_plane_flag=2 is not a flag",
        ),
        ("\n65x8", "line 2: 'x' is not a hex digit"),
    ] {
        let done = tuz(&["cases", "-"], case.as_bytes());
        assert!(err(&done).contains(told), "{}", err(&done));
        assert_eq!(done.status.code(), Some(2));
    }
}

#[test]
fn what_cannot_be_read_is_named() {
    let (folder, missing) = (env!("CARGO_TARGET_TMPDIR"), "/nowhere/clip.264");
    // a file that opens, but whose first read fails: no memory is at address 0
    let unreadable = "/proc/self/mem";
    let why = fs::read(unreadable).unwrap_err();
    let failed = format!("{unreadable}: {why}");
    let short = file("letter.txt", b"Clear sky since nine.");
    for (path, told) in [
        (missing, "/nowhere/clip.264: there is no such file"),
        (folder, "is a directory"),
        (word(&file("empty.264", &[])), "empty.264: is empty"),
        ("-", "standard input: is empty"),
        (unreadable, &failed),
        (
            word(&short),
            "letter.txt: no start code (00 00 01) in its 21 bytes, so this is no H.264 byte stream",
        ),
    ] {
        is_refused(path, told);
    }
    let forced = tuz(&["list", word(&short), "--force"], &[]);
    assert_eq!(out(&forced), "end units=0 refused=0\n");
}

/// Every command says so, with status 2, and writes nothing.
fn is_refused(path: &str, told: &str) {
    let names = ["torn", "csv", "svg"].map(|n| format!("{}/none.{n}", env!("CARGO_TARGET_TMPDIR")));
    let [torn, csv, svg] = &names;
    for words in [
        &["list", path][..],
        &["headers", path, "--format", "csv"],
        &["qp", path, "--csv", csv, "--plot", svg],
        &["tear", path, "-o", torn],
    ] {
        let done = tuz(words, &[]);
        let all = err(&done);
        let last = all.lines().last().unwrap();
        assert!(last.starts_with("tuz: ") && last.contains(told), "{all}");
        assert_eq!((done.status.code(), out(&done).as_str()), (Some(2), ""));
        assert!(names.iter().all(|n| !Path::new(n).exists()), "{words:?}");
    }
}

/// A container is told by its first bytes, whatever start codes stand in it, with the command that takes the stream out.
#[test]
fn containers_are_no_byte_streams() {
    let boxed = |name: &[u8]| [&[0, 0, 0, 32], name, &[0; 24], &CLIP.repeat(9)].concat();
    let packet = [&[0x47, 0x40, 0, 0x10][..], &CLIP, &[255; 171]].concat();
    let timed = [&[0, 0, 1, 9][..], &packet].concat();
    for (name, bytes) in [
        ("an MP4 file", boxed(b"ftypisom")),
        (
            "an MP4 file",
            [&[0, 0, 1, 0][..], b"ftyp", &[0; 248], &CLIP].concat(),
        ),
        ("a QuickTime (MOV) file", boxed(b"moov")),
        (
            "a Matroska (MKV) or WebM file",
            [&[0x1A, 0x45, 0xDF, 0xA3][..], &CLIP].concat(),
        ),
        (
            "an AVI file",
            [&b"RIFF\0\0\x01\0AVI LIST"[..], &CLIP].concat(),
        ),
        (
            "an FLV file",
            [&b"FLV\x01\x05\0\0\0\x09"[..], &CLIP].concat(),
        ),
        ("an MPEG transport stream (TS)", packet.repeat(20)),
        (
            "an MPEG transport stream (TS)",
            packet.repeat(20)[100..].to_vec(),
        ),
        ("an MPEG transport stream (TS)", timed.repeat(20)),
        (
            "an MPEG program stream",
            [&[0, 0, 1, 0xBA, 0x44][..], &CLIP].concat(),
        ),
    ] {
        let path = file("container", &bytes);
        is_refused(
            word(&path),
            &format!("container: is {name}, no H.264 byte stream; `ffmpeg -i FILE"),
        );
        let forced = tuz(&["list", word(&path), "--sample", "--force"], &[]);
        assert!(out(&forced).contains("slice type=7"));
    }
}

/// Units behind lengths: told, with a command that puts start codes in their place.
#[test]
fn lengths_are_no_start_codes() {
    let clip = [0, 0, 0, 4, 0x65, 0x88, 0x84, 0xA0, 0, 0, 0, 2, 0x09, 0xF0];
    // a length can look like a start code
    let long = [&[0, 0, 1, 0, 0x09][..], &[0xF0; 255]].concat();
    for (bytes, units) in [
        (clip.to_vec(), 2),
        ([&clip[..], &long.repeat(5)].concat(), 7),
        (long.repeat(5), 5),
    ] {
        let path = file("lengths", &bytes);
        is_refused(
            word(&path),
            "lengths: has its units behind lengths of 4 bytes",
        );
        let told = err(&tuz(&["list", word(&path)], &[]));
        let converter = told.split('`').nth(3).unwrap();
        let converter = converter
            .replace("FILE", word(&path))
            .replace("OUT.264", "-")
            .replacen("tuz", env!("CARGO_BIN_EXE_tuz"), 1);
        let converted = Command::new("sh")
            .args(["-c", &converter])
            .output()
            .unwrap();
        let listed = out(&tuz(&["list", "-", "--sample"], &converted.stdout));
        assert!(
            listed.ends_with(&format!("end units={units} refused=0\n")),
            "{listed}"
        );
    }
}

/// Where no start code comes for long, it is told, and read on.
#[test]
fn zeros_before_a_clip() {
    let mut clip = vec![0; 1_100_000];
    clip.extend(&CLIP);
    for path in [word(&file("late.264", &clip)), "-"] {
        for (command, told) in [
            ("list", "end units=2 refused=0\n"),
            ("qp", "total refused=0\n"),
        ] {
            let done = tuz(&[command, path, "--sample", "-q"], &clip);
            assert!(out(&done).ends_with(told), "{}", out(&done));
            assert!(
                err(&done).contains("in its first 1048576 bytes; reading on\n"),
                "{}",
                err(&done)
            );
            assert_eq!(
                (done.status.code(), err(&done).lines().count()),
                (Some(0), 1)
            );
        }
    }
    let letter = file("long.txt", &b"Clear sky since nine. ".repeat(100_000));
    is_refused(
        word(&letter),
        "long.txt: no start code (00 00 01) in its 2200000 bytes",
    );
}

/// Where neither the recording nor a table brings its sets, slices are refused; what is missing is said once.
#[test]
fn a_missing_set_is_said_once() {
    let clip = CLIP.repeat(3);
    let table = file(
        "another.table",
        b"sps:0:1:0:0:4:2:0:0:1:99 pps:7:0:0:0:0:0:0:0:0:0:0:0:0",
    );
    for command in ["list", "headers", "qp"] {
        for given in [&[][..], &["--table", word(&table)]] {
            let done = tuz(&[&[command, "-", "-q"], given].concat(), &clip);
            let told = "tuz: standard input: place 4: picture parameter set 0 is not in the table: it has not come so far; `--table FILE` gives sets to start with (`tuz help cases`)\n";
            assert_eq!((err(&done).as_str(), done.status.code()), (told, Some(0)));
        }
        // a slice that was read shows that the sets are the right ones
        let torn = [&clip[..], &[0, 0, 1, 0x65, 0x88, 0x90, 0x80]].concat();
        assert_eq!(err(&tuz(&[command, "-", "-q", "--sample"], &torn)), "");
    }
}

/// Units behind start codes.
fn recording(units: &[&[u8]]) -> Vec<u8> {
    units
        .iter()
        .flat_map(|u| [&[0, 0, 1], *u].concat())
        .collect()
}

/// The sets of a recording serve the slices behind them. One that is refused leaves the table as it was, one that is different takes the place of what was there, or was
/// given; both are told with their place, those that come again are not.
#[test]
fn sets_of_the_recording() {
    let sps: &[u8] = &[0x67, 0x42, 0xC0, 0x0A, 0xDA, 0x0B, 0x13, 0x90];
    let (pps, other): (&[u8], &[u8]) = (&[0x68, 0xCE, 0x04, 0x62], &[0x68, 0xCE, 0x38, 0x80]);
    let slice: &[u8] = &[0x65, 0x88, 0x84, 0xA0];
    let clip = recording(&[
        sps,
        pps,
        slice,
        sps,
        pps,
        &[0x68, 0x82, 0x10],
        slice,
        other,
        &sps[..4],
        slice,
    ]);
    let listing = "\
unit place=3 length=8 sps id=0
unit place=14 length=4 pps id=0
unit place=21 length=4 slice type=7 frame=0 qp=30
unit place=28 length=8 sps id=0
unit place=39 length=4 pps id=0
unit place=46 length=3 refused 28 value=0 bit=1
unit place=52 length=4 slice type=7 frame=0 qp=30
unit place=59 length=4 pps id=0
unit place=66 length=4 refused 5 value=0 bit=24
unit place=73 length=4 slice type=7 frame=0 qp=26
end units=10 refused=2
";
    let refused = "tuz: standard input: place 46: a picture parameter set is refused 28 at bit 1: a parameter set's field is out of its range; the table stays as it was\n";
    let replaced =
        "tuz: standard input: place 59: picture parameter set 0 replaces a different one\n";
    let cut = "tuz: standard input: place 66: a sequence parameter set is refused 5 at bit 24: the bits ran out inside a field; the table stays as it was\n";
    let told = [refused, replaced, cut].concat();
    let done = tuz(&["list", "-", "-q"], &clip);
    assert_eq!((out(&done).as_str(), err(&done)), (listing, told.clone()));
    for command in ["headers", "qp"] {
        assert_eq!(err(&tuz(&[command, "-", "-q"], &clip)), told);
    }
    let points = out(&tuz(&["qp", "-", "-q", "--format", "csv"], &clip));
    let points: Vec<_> = points.lines().map(|l| &l[l.len() - 2..]).collect();
    assert_eq!(points, ["qp", "30", ",,", "30", ",,", "26"]);

    // what is given counts as there
    let done = tuz(&["list", "-", "-q", "--sample"], &clip);
    let first = "tuz: standard input: place 14: picture parameter set 0 replaces a different one\n";
    assert_eq!(err(&done), [first, &told].concat());

    // the sets as a table file, which gives the same to a recording that lacks them
    let done = tuz(&["table", "-"], &clip);
    let table = "\
sps:0:1:0:0:4:2:0:0:1:99 # place=3
pps:0:0:0:0:0:0:0:0:4:0:0:0:0 # place=14
pps:0:0:0:0:0:0:0:0:0:0:0:0:0 # place=59
";
    let sum = "standard input: 5 parameter sets, 2 of them as the table had them; 2 refused\n";
    assert_eq!(
        (out(&done).as_str(), err(&done)),
        (table, told.clone() + sum)
    );
    assert_eq!(
        tuz(&["table", "-", "-q", "--strict"], &clip).status.code(),
        Some(1)
    );
    let first: String = table.lines().take(2).map(|l| format!("{l}\n")).collect();
    let first = file("first.table", first.as_bytes());
    let done = tuz(
        &["list", "-", "-q", "--table", word(&first)],
        &recording(&[slice]),
    );
    let line = "unit place=3 length=4 slice type=7 frame=0 qp=30\nend units=1 refused=0\n";
    assert_eq!((out(&done).as_str(), err(&done).as_str()), (line, ""));

    // of many, some are told and the rest are counted
    let many = recording(&[&[sps][..], &[pps, other].repeat(20)].concat());
    let told = err(&tuz(&["list", "-", "-q"], &many));
    assert_eq!(told.lines().count(), 11);
    assert!(told.ends_with(
        "tuz: standard input: 29 more parameter sets were refused, or replaced different ones\n"
    ));
}

/// `tuz cases` answers a set by its word, `tuz headers` by its fields.
#[test]
fn sets_by_word_and_by_field() {
    let done = tuz(&["cases", "-"], b"6742c00ada0b1390\n68ce0462\n688210\n");
    let told = "sps sps:0:1:0:0:4:2:0:0:1:99\npps pps:0:0:0:0:0:0:0:0:4:0:0:0:0\nrefused 28 value=0 bit=1\n";
    assert_eq!(out(&done), told);
    let clip = recording(&[&[0x68, 0xCE, 0x04, 0x62]]);
    let json = out(&tuz(&["headers", "-", "-q", "--format", "json"], &clip));
    let set: serde_json::Value = serde_json::from_str(&json).unwrap();
    assert_eq!(set["answer"], "pps");
    assert_eq!(set["pic_init_qp_minus26"], 4);
    assert_eq!(set["weighted_pred_flag"], false);
    assert_eq!(set.as_object().unwrap().len(), 16);
    let json = out(&tuz(&["list", "-", "-q", "--format", "json"], &clip));
    let told = r#"{"place":3,"length":4,"answer":"pps","pic_parameter_set_id":0}"#;
    assert_eq!(json.trim_end(), told);
}

/// Root may read every file, so the command runs as another user there.
#[test]
fn a_file_that_may_not_be_read_is_named() {
    let folder = std::env::temp_dir().join(format!("tuz-{}", std::process::id()));
    fs::create_dir(&folder).unwrap();
    fs::set_permissions(&folder, Permissions::from_mode(0o755)).unwrap();
    let (program, clip) = (folder.join("tuz"), folder.join("locked.264"));
    fs::copy(env!("CARGO_BIN_EXE_tuz"), &program).unwrap();
    fs::write(&clip, CLIP).unwrap();
    fs::set_permissions(&clip, Permissions::from_mode(0o0)).unwrap();
    let mut command = Command::new(&program);
    if fs::metadata(&folder).unwrap().uid() == 0 {
        command.uid(65534).gid(65534);
    }
    let done = command.arg("list").arg(&clip).output().unwrap();
    fs::remove_dir_all(&folder).unwrap();
    assert_eq!(
        (err(&done), done.status.code()),
        (format!("tuz: {}: may not be read\n", word(&clip)), Some(2))
    );
}

#[test]
fn a_table_that_cannot_be_read_is_named() {
    for (table, told) in [
        (
            "sps:0:1:0:0:4:2:0:0:1:99 pps",
            "pps: pic_parameter_set_id is missing",
        ),
        (
            "# sets\nsqs:0",
            "sqs:0: a word of the table begins with sps: or pps:",
        ),
        (
            "sps:0:1:0:0:17:2:0:0:1:99",
            "refused 24: a parameter set's id or field is out of range",
        ),
    ] {
        let path = file("wrong.table", table.as_bytes());
        let done = tuz(&["list", "-", "--table", word(&path)], &CLIP);
        let all = err(&done);
        assert!(all.contains("wrong.table: ") && all.contains(told), "{all}");
        assert_eq!((done.status.code(), out(&done).as_str()), (Some(2), ""));
    }
    let done = tuz(&["list", "-", "--table", "/nowhere/table"], &CLIP);
    assert_eq!(err(&done), "tuz: /nowhere/table: there is no such file\n");
    for (table, told) in [
        ("/dev/zero", "/dev/zero: is no table, which is a text of words such as sps:0:1:0:0:4:2:0:0:1:99, and it is over 1048576 bytes\n"),
        (word(&file("wide.table", b"\xFF\xFEs\0p\0")), "wide.table: is UTF-16 text; a table is UTF-8, or plain ASCII\n"),
    ] {
        let done = within_mib(100, &["list", "-", "--table", table], &CLIP);
        assert!(err(&done).ends_with(told), "{}", err(&done));
        assert_eq!((done.status.code(), out(&done).as_str()), (Some(2), ""));
    }
}

/// What a table likely does not mean is told, and read as it stands.
#[test]
fn a_doubtful_table_is_told() {
    let marked = format!("\u{FEFF}{SETS}");
    let twice = format!("sps:0:1:0:0:5:2:0:0:1:99 {SETS} {SETS}");
    let lost = format!("{SETS} pps:9:4:0:0:0:0:0:0:0:0:0:0:0");
    for (table, told) in [
        (marked.as_str(), &["begins with a byte order mark, which is passed over"][..]),
        (&twice, &["sps:0 stands 3 times; the last one holds", "pps:0 stands 2 times; the last one holds"]),
        (&lost, &["pps:9 names the sequence set 4, which is not in the table: unless the recording brings it, its slices are refused with 10"]),
    ] {
        let path = file("doubtful.table", table.as_bytes());
        let done = tuz(&["list", "-", "-q", "--table", word(&path)], &CLIP);
        let want: String = told.iter().map(|t| format!("tuz: {}: {t}\n", word(&path))).collect();
        assert_eq!((err(&done), out(&done).as_str()), (want, LISTING));
    }
}

#[test]
fn what_cannot_be_written_is_named() {
    for words in [
        &["qp", "-", "--plot", "/nowhere/qp.svg"][..],
        &["qp", "-", "--csv", "/nowhere/qp.csv"],
        &["tear", "-", "-o", "/nowhere/torn.264"],
    ] {
        let done = tuz(words, &CLIP);
        let told = format!("tuz: {}: ", words[3]);
        assert!(err(&done).starts_with(&told), "{}", err(&done));
        assert_eq!(done.status.code(), Some(2));
    }
    let full = File::options().write(true).open("/dev/full").unwrap();
    let clip = file("full.264", &CLIP);
    let done = Command::new(env!("CARGO_BIN_EXE_tuz"))
        .args(["list", word(&clip), "--sample"])
        .stdout(full)
        .output()
        .unwrap();
    assert_eq!(
        (err(&done).as_str(), done.status.code()),
        (
            "tuz: standard output: No space left on device (os error 28)\n",
            Some(2)
        )
    );
}

/// Refusals are told by the status with --strict alone.
#[test]
fn refusals_and_the_status() {
    let torn = [&CLIP[..], &[0, 0, 1, 0xE5]].concat();
    for command in ["list", "headers", "qp"] {
        for (clip, words, status) in [
            (&CLIP[..], &["--sample"][..], 0),
            (&CLIP, &["--sample", "--strict"], 0),
            (&torn, &["--sample"], 0),
            (&torn, &["--sample", "--strict"], 1),
            (&torn, &["--sample", "--strict", "--quiet"], 1),
            (&torn, &["--sample", "--unheard-of"], 2),
        ] {
            let done = tuz(&[&[command, "-"], words].concat(), clip);
            assert_eq!(done.status.code(), Some(status), "{command} {words:?}");
        }
    }
}

/// A hole of zeros ends a unit, however long it is, and the walk goes on behind it.
#[test]
fn a_hole_in_a_file_over_the_limit() {
    let path = file("sparse.264", &CLIP);
    let far = 300 << 20;
    let mut clip = File::options().write(true).open(&path).unwrap();
    clip.seek(SeekFrom::Start(far)).unwrap();
    clip.write_all(&CLIP).unwrap();
    drop(clip);
    let done = within_mib(100, &["list", word(&path), "--sample"], &[]);
    fs::remove_file(&path).unwrap();
    let (first, second) = (far + 4, far + 11);
    assert_eq!(
        out(&done),
        format!(
            "\
unit place=4 length=4 slice type=7 frame=0 qp=26
unit place=11 length=2 other type=9
unit place={first} length=4 slice type=7 frame=0 qp=26
unit place={second} length=2 other type=9
end units=4 refused=0
"
        )
    );
    assert_eq!(done.status.code(), Some(0));
}

/// A unit at the limit is read, and one over it is refusal 27; the walk goes on behind both.
#[test]
fn a_unit_over_the_limit() {
    let most = 268_435_456;
    for (length, told, refused, memory) in [
        // a header is read where it stands: the unit is held once
        (most - 4, "slice type=7 frame=0 qp=26", 0, 330),
        (most, "slice type=7 frame=0 qp=26", 0, 600),
        (most + 1, "refused 27 value=0", 1, 330),
    ] {
        let mut clip = vec![0xFF; 3 + length];
        clip[..7].copy_from_slice(&[0, 0, 1, 0x65, 0x88, 0x84, 0xA0]);
        clip.extend_from_slice(&CLIP[1..]);
        let done = within_mib(memory, &["list", "-", "--sample"], &clip);
        let (first, second) = (3 + length + 3, 3 + length + 10);
        assert_eq!(
            out(&done),
            format!(
                "\
unit place=3 length={length} {told}
unit place={first} length=4 slice type=7 frame=0 qp=26
unit place={second} length=2 other type=9
end units=3 refused={refused}
"
            ),
            "{}",
            err(&done)
        );
    }
}

/// Whatever is asked for, memory is bounded, and what is too much is told.
#[test]
fn too_much_is_told() {
    let clip = file("small.264", &CLIP);
    let to = PathBuf::from(env!("CARGO_TARGET_TMPDIR")).join("too much");
    let (clip, to) = (word(&clip), word(&to));
    let insert = |length| {
        vec![
            "tear", clip, "-o", to, "--how", "insert", "--length", length,
        ]
    };
    let again = [&insert("200000000")[..], &["--times", "2"]].concat();
    for (words, told) in [
        (
            insert("18446744073709551615"),
            "--length 18446744073709551615 is over 268435456 bytes",
        ),
        (
            insert("99999999999"),
            "--length 99999999999 is over 268435456 bytes",
        ),
        (
            insert("268435456"),
            "the torn clip would be over 268435456 bytes",
        ),
        (again, "the torn clip would be over 268435456 bytes"),
        (
            vec!["tear", "/dev/zero", "--force", "-o", to],
            "/dev/zero: is over 268435456 bytes",
        ),
        (
            vec!["cases", "/dev/zero"],
            "/dev/zero: line 1 is over 16777216 bytes",
        ),
    ] {
        let done = within_mib(2048, &words, &[]);
        assert_eq!(err(&done), format!("tuz: {told}\n"), "{words:?}");
        assert_eq!((done.status.code(), out(&done).as_str()), (Some(2), ""));
        assert!(!Path::new(to).exists());
    }
}

/// A recording of zeros takes no more memory than any other.
#[test]
fn zeros_take_no_memory() {
    let path = file("zeros", &[]);
    let zeros = File::options().write(true).open(&path).unwrap();
    zeros.set_len(600 << 20).unwrap();
    for command in ["list", "headers", "qp"] {
        let done = within_mib(100, &[command, word(&path)], &[]);
        let told = "no start code (00 00 01) in its 629145600 bytes";
        assert!(err(&done).contains(told), "{}", err(&done));
        assert_eq!(done.status.code(), Some(2));
    }
    fs::remove_file(&path).unwrap();
}

#[test]
fn a_closed_pipe_is_no_error() {
    for command in ["list", "headers", "qp"] {
        let mut child = Command::new(env!("CARGO_BIN_EXE_tuz"))
            .args([command, "-", "-q", "--sample"])
            .stdin(Stdio::piped())
            .stdout(Stdio::piped())
            .stderr(Stdio::piped())
            .spawn()
            .unwrap();
        drop(child.stdout.take());
        let _closed_early = child.stdin.take().unwrap().write_all(&CLIP.repeat(100_000));
        let done = child.wait_with_output().unwrap();
        assert_eq!((done.status.code(), err(&done).as_str()), (Some(0), ""));
    }
}

/// It ends the printing and not the work: files are written, and the status tells what was refused.
#[test]
fn a_closed_pipe_ends_no_work() {
    let clip = [&CLIP.repeat(20_000)[..], &[0, 0, 1, 0xE5]].concat();
    let clip = file("much.264", &clip);
    let folder = PathBuf::from(env!("CARGO_TARGET_TMPDIR"));
    let (csv, svg) = (folder.join("closed.csv"), folder.join("closed.svg"));
    let line = "\"$@\" | head -n 1; exit ${PIPESTATUS[0]}";
    let words = ["-c", line, "bash", env!("CARGO_BIN_EXE_tuz")];
    let first = ["qp", word(&clip), "--sample", "-q"];
    let files = ["--csv", word(&csv), "--plot", word(&svg)];
    for (more, status) in [(&files[..], 0), (&["--strict"], 1)] {
        let done = Command::new("bash")
            .args(words)
            .args(first)
            .args(more)
            .output()
            .unwrap();
        assert_eq!(
            (done.status.code(), err(&done).as_str()),
            (Some(status), "")
        );
        assert_eq!(out(&done).lines().count(), 1);
    }
    let rows = fs::read_to_string(csv).unwrap();
    assert_eq!(rows.lines().count(), 20_002);
    assert!(fs::read_to_string(svg).unwrap().ends_with("</svg>\n"));
}

/// The demo: one unit of the torn clip is refused, and every other is read as in the whole one.
#[test]
fn the_demo() {
    let demo = Path::new(env!("CARGO_MANIFEST_DIR")).join("../../demo");
    let (whole, torn) = (demo.join("night.264"), demo.join("torn.264"));
    let listed = |clip: &Path| out(&tuz(&["list", word(clip)], &[]));
    let (whole, torn) = (listed(&whole), listed(&torn));
    let (whole, torn): (Vec<_>, Vec<_>) = (whole.lines().collect(), torn.lines().collect());
    let other: Vec<_> = (whole.iter().zip(&torn)).filter(|(a, b)| a != b).collect();
    assert_eq!((whole.len(), torn.len(), other.len()), (28, 28, 2));
    assert!(other[0].0.contains(" slice ") && other[0].1.contains(" refused "));
    assert_eq!(
        other[1],
        (&"end units=27 refused=0", &"end units=27 refused=1")
    );
}

#[test]
fn qp_with_totals_and_plot() {
    let torn = [&CLIP[..], &[0, 0, 1, 0xE5], &[0, 0, 1, 0x65, 0x81], &CLIP].concat();
    let svg = PathBuf::from(env!("CARGO_TARGET_TMPDIR")).join("qp.svg");
    let csv = PathBuf::from(env!("CARGO_TARGET_TMPDIR")).join("qp.csv");
    let (plot, table) = (svg.to_str().unwrap(), csv.to_str().unwrap());
    let words = ["qp", "-", "--sample", "--plot", plot, "--csv", table];
    let done = tuz(&words, &torn);
    assert_eq!(
        out(&done),
        "\
unit place=4 length=4 slice type=7 family=I frame=0 qp=26
unit place=16 length=1 refused 2 value=0
unit place=20 length=2 refused 5 value=0 bit=1
unit place=26 length=4 slice type=7 family=I frame=0 qp=26
total family=I slices=2 least=26 mean=26.00 greatest=26
total family=all slices=2 least=26 mean=26.00 greatest=26
total refused=2
"
    );
    let rows = "\
place,length,answer,refusal,value,bit,why,slice_type,family,frame_num,qp
4,4,slice,,,,,7,I,0,26
16,1,refused,2,0,,the top bit of the unit's first byte is set,,,,
20,2,refused,5,0,1,the bits ran out inside a field,,,,
26,4,slice,,,,,7,I,0,26
";
    assert_eq!(fs::read_to_string(&csv).unwrap(), rows);
    let svg = fs::read_to_string(&svg).unwrap();
    assert!(svg.starts_with("<svg") && svg.contains("refused 2 (2: 1, 5: 1)"));

    // the same on standard output, which then holds nothing else
    let totals = "total family=I slices=2 least=26 mean=26.00 greatest=26\ntotal family=all slices=2 least=26 mean=26.00 greatest=26\ntotal refused=2\n";
    for words in [&["--csv", "-"][..], &["--format", "csv"]] {
        let done = tuz(&[&["qp", "-", "--sample"], words].concat(), &torn);
        assert_eq!(out(&done), rows);
        assert!(err(&done).starts_with(totals), "{}", err(&done));
    }
    let done = tuz(&["qp", "-", "--sample", "-q", "--plot", "-"], &torn);
    assert_eq!((out(&done), err(&done)), (svg, String::new()));
}

#[test]
fn a_tear_says_what_to_expect() {
    let clip = file("whole.264", &CLIP.repeat(20));
    let clip = clip.to_str().unwrap();
    let torn = PathBuf::from(env!("CARGO_TARGET_TMPDIR")).join("torn.264");
    let to = torn.to_str().unwrap();
    for how in ["cut", "overwrite", "remove", "insert"] {
        for with in ["zeros", "ones", "random", "copy"] {
            let words = [
                "--sample", "-o", to, "--how", how, "--with", with, "--length", "7",
            ];
            let seeded = ["--times", "3", "--seed", "5"];
            let words = [&["tear", clip], &words[..], &seeded].concat();
            let done = tuz(&words, &[]);
            assert_eq!(done.status.code(), Some(0), "{}", err(&done));
            let first = fs::read(&torn).unwrap();
            assert_ne!(first, CLIP.repeat(20));
            assert_eq!(out(&tuz(&words, &[])), out(&done));
            assert_eq!(fs::read(&torn).unwrap(), first);
        }
    }
    let words = [
        "tear", clip, "--sample", "-o", to, "--at", "30", "--length", "5",
    ];
    let done = tuz(&words, &[]);
    let told = "torn place=30 bytes_gone=5 bytes_new=5\nexpect first=4 as before\n";
    assert!(out(&done).starts_with(told), "{}", out(&done));
    let past = tuz(&["tear", clip, "-o", to, "--at", "999"], &[]);
    assert_eq!(past.status.code(), Some(2));
}

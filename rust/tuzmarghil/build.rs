//! Links the proved archive, and writes the records that cross the boundary from the sources that declare them.
use std::path::{Path, PathBuf};
use std::process::Command;
use std::{env, fs};

/// The crate that exports, and the files whose `#[repr(C)]` structs cross the boundary, or are made of the words that do (`Prefix` stands among them and is neither).
const EXPORTS: &str = "exports";
const RECORDS: [&str; 17] = [
    "table/src/sets.rt",
    "table/src/table.rt",
    "syntax/src/marks.rt",
    "syntax/src/record.rt",
    "weights/src/weight_words.rt",
    "unit/src/head.rt",
    "exports/src/sets.rt",
    "exports/src/heads.rt",
    "exports/src/units.rt",
    "exports/src/walks.rt",
    "exports/src/converts.rt",
    "writer/src/given.rt",
    "exports/src/writes.rt",
    "exports/src/starts.rt",
    "exposures/src/exposure.rt",
    "exposures/src/counts.rt",
    "exports/src/takes.rt",
];

/// The file that lays a header's fields down as words, the one that has the number of the boundary's layout, and the one that says how many bytes are enough for every
/// header.
const FIELDS: &str = "crates/header/src/words.rt";
const LAYOUT: &str = "crates/exports/src/layout.rt";
const ENOUGH: &str = "crates/promises/specs/Bound.antt";

fn main() {
    let here = PathBuf::from(env::var_os("CARGO_MANIFEST_DIR").unwrap());
    let out = PathBuf::from(env::var_os("OUT_DIR").unwrap());
    // the repository, or a package, which holds the same sources
    let root = [here.join("../.."), here]
        .into_iter()
        .find(|root| root.join("crates.txt").is_file())
        .expect("crates.txt and crates/ stand in the repository's root, or beside build.rs in a package");
    let text: String = RECORDS
        .iter()
        .map(|file| records(&root.join("crates").join(file)))
        .collect();
    same_flag(&root);
    let fields = fields(&root.join(FIELDS));
    let layout = layout(&root.join(LAYOUT));
    let enough = enough(&root.join(ENOUGH));
    fs::write(out.join("records.rs"), text + &fields + &layout + &enough).unwrap();

    let name = format!("lib{EXPORTS}.a");
    let archive = archive(&root, &name);
    fs::copy(&archive, out.join(&name)).unwrap_or_else(|e| panic!("{}: {e}", archive.display()));
    println!("cargo:rustc-link-search=native={}", out.display());
    println!("cargo:rustc-link-lib=static={EXPORTS}");
}

/// The archive: the one that `TUZ_ARCHIVE` names, else one that is proved and built here.
fn archive(root: &Path, name: &str) -> PathBuf {
    println!("cargo:rerun-if-env-changed=TUZ_ARCHIVE");
    let mut sources = vec![root.join("crates.txt"), root.join("bench/native-archive")];
    for entry in fs::read_dir(root.join("crates")).unwrap() {
        let crate_folder = entry.unwrap().path();
        // what rt makes lies beside them, in out/
        for part in ["src", "specs", "proofs"] {
            sources.extend(Some(crate_folder.join(part)).filter(|folder| folder.is_dir()));
        }
    }
    for path in sources {
        println!("cargo:rerun-if-changed={}", path.display());
    }
    if let Some(given) = env::var_os("TUZ_ARCHIVE").map(PathBuf::from) {
        println!("cargo:rerun-if-changed={}", given.display());
        return given;
    }
    let done = Command::new(root.join("bench/native-archive"))
        .arg(EXPORTS)
        .output()
        .expect("bench/native-archive runs");
    assert!(
        done.status.success(),
        "bench/native-archive {EXPORTS} failed. It needs the Rattle kit's `rt` on the PATH; with TUZ_ARCHIVE=FILE a lib{EXPORTS}.a that is there already is taken:\n{}{}",
        String::from_utf8_lossy(&done.stdout),
        String::from_utf8_lossy(&done.stderr)
    );
    root.join("crates").join(EXPORTS).join("out").join(name)
}

/// The one struct that C needs a name for and Rust has already: `raw` says so by a type's name, and `same_flag` that both are one.
const MARKED_FLAG: &str = "pub struct MarkedFlag {";
const MARKED: &str = "pub struct Marked<T> {";

/// The fields of a struct that a Rattle file declares.
fn declared(file: &Path, head: &str) -> String {
    let source = fs::read_to_string(file).unwrap_or_else(|e| panic!("{}: {e}", file.display()));
    let (_, behind) = source
        .split_once(head)
        .unwrap_or_else(|| panic!("{}: it has no `{head}`", file.display()));
    behind.split("\n}").next().unwrap().to_string()
}

/// What crosses is `MarkedFlag`, what Rust reads is `Marked<bool>`: field by field the same, in the same order.
fn same_flag(root: &Path) {
    let flag = declared(&root.join("crates/exports/src/units.rt"), MARKED_FLAG);
    let marked = declared(&root.join("crates/syntax/src/marks.rt"), MARKED);
    assert_eq!(
        flag,
        marked.replace(": T,", ": bool,"),
        "MarkedFlag of exports is not Marked<bool>, by which Rust reads it"
    );
}

/// The `#[repr(C)]` structs of a Rattle file, as Rust: they are Rust's own text but for `derive`, and comments become documentation.
fn records(file: &Path) -> String {
    let source = fs::read_to_string(file).unwrap_or_else(|e| panic!("{}: {e}", file.display()));
    let mut text = String::new();
    let mut comment = String::new();
    let mut inside = false;
    let mut start = 0;
    for line in source.lines() {
        let bare = line.trim_start();
        if let Some(words) = bare.strip_prefix("// ") {
            let indent = &line[..line.len() - bare.len()];
            let told = format!("{indent}/// {words}\n");
            if inside {
                text += &told;
            } else {
                comment += &told;
            }
        } else if line == "#[repr(C)]" {
            start = text.len();
            text += &std::mem::take(&mut comment);
            text += "#[derive(Clone, Copy, Debug, PartialEq, Eq)]\n#[repr(C)]\n";
            inside = true;
        } else if inside && line == MARKED_FLAG {
            text.truncate(start);
            inside = false;
        } else if inside && !line.starts_with("#[derive(") {
            text += line;
            text += "\n";
            inside = line != "}";
        } else if !inside {
            comment.clear();
        }
    }
    text
}

/// What each function that lays down a part calls its fields, and what `HeaderShort` calls them.
const NAMES: [(&str, &str, &str); 13] = [
    ("lay_frame", "f.", "frame."),
    ("lay_order", "o.", "order_count."),
    ("lay_counts", "a.", "active_counts."),
    (
        "lay_lists",
        "l.flag0.",
        "ref_pic_list_modification_flag_l0.",
    ),
    ("lay_lists", "l.count0", "modifications_l0"),
    (
        "lay_lists",
        "l.flag1.",
        "ref_pic_list_modification_flag_l1.",
    ),
    ("lay_lists", "l.count1", "modifications_l1"),
    ("lay_weights", "w.", "weights."),
    ("lay_marks", "m.flags.", ""),
    ("lay_marks", "m.count", "markings"),
    ("lay_quantiser", "q.", "quantiser."),
    ("lay_filter", "f.", "filter."),
    ("lay_lead", "", ""),
];

/// Where each field of a header stands among its words, as the proved code lays them down: from its lines come a function that lays them down in Rust and one that
/// takes them up again.
fn fields(file: &Path) -> String {
    let source = fs::read_to_string(file).unwrap_or_else(|e| panic!("{}: {e}", file.display()));
    let mut function = "";
    let (mut places, mut locals) = (Vec::new(), Vec::new());
    let (mut numbers, mut signed) = (vec![String::new(); 57], vec![String::new(); 7]);
    for line in source.lines().map(str::trim) {
        let line = line.trim_start_matches("pub(crate) ").trim_end_matches(';');
        if let Some(rest) = line.strip_prefix("fn ") {
            function = rest.split('(').next().unwrap();
            locals.clear();
        } else if let Some(rest) = line.strip_prefix("const ") {
            places.push(rest.split_once(": usize = ").unwrap());
        } else if let Some(rest) = line.strip_prefix("let ") {
            locals.push(rest.split_once(" = ").unwrap());
        } else if let Some((to, from)) = line.split_once("] = ") {
            let (array, place) = to.split_once('[').unwrap();
            let words = if array == "numbers" {
                &mut numbers
            } else {
                &mut signed
            };
            let place = called(&places, place).parse::<usize>().unwrap();
            let from = called(&locals, from);
            let (_, own, whole) = NAMES
                .into_iter()
                .find(|(name, own, _)| *name == function && from.starts_with(own))
                .unwrap_or_else(|| panic!("{}: {line} of {function}", file.display()));
            words[place] = format!("h.{whole}{}", &from[own.len()..]);
        }
    }
    assert!(
        numbers.iter().chain(&signed).all(|field| !field.is_empty()),
        "{} is laid out in another way",
        file.display()
    );

    let mut up = String::new();
    for (name, words) in [("numbers", &numbers), ("signed", &signed)] {
        for (k, field) in words.iter().enumerate() {
            up += &match field.strip_suffix(" as u32") {
                Some(flag) => format!("    {flag} = {name}[{k}] != 0;\n"),
                None => format!("    {field} = {name}[{k}];\n"),
            };
        }
    }
    let (numbers, signed) = (numbers.join(",\n        "), signed.join(",\n        "));
    format!(
        "pub(crate) fn laid(h: &HeaderShort, numbers: &mut [u32; 57], signed: &mut [i32; 7]) {{
    *numbers = [
        {numbers},
    ];
    *signed = [
        {signed},
    ];
}}

#[inline(always)]
#[allow(clippy::field_reassign_with_default)]
pub(crate) fn taken_up(numbers: &[u32; 57], signed: &[i32; 7]) -> HeaderShort {{
    let mut h = HeaderShort::default();
{up}    h
}}
"
    )
}

/// What stands for a name that was given above; else the name.
fn called<'a>(given: &[(&str, &'a str)], name: &'a str) -> &'a str {
    let found = given.iter().find(|(own, _)| *own == name);
    found.map_or(name, |(_, what)| what)
}

/// The line with the layout's number, for Rust.
fn layout(file: &Path) -> String {
    let source = fs::read_to_string(file).unwrap_or_else(|e| panic!("{}: {e}", file.display()));
    let line = source.lines().find(|line| line.starts_with("const LAYOUT"));
    let line = line.unwrap_or_else(|| panic!("{} has no LAYOUT", file.display()));
    format!("/// The number of the boundary's layout.\npub {line}\n")
}

/// How many bytes are enough for every header, by the theorem that says so.
fn enough(file: &Path) -> String {
    let source = fs::read_to_string(file).unwrap_or_else(|e| panic!("{}: {e}", file.display()));
    let bytes = source
        .lines()
        .find_map(|line| line.strip_prefix("enough = "));
    let bytes = bytes.unwrap_or_else(|| panic!("{} does not say enough", file.display()));
    format!("/// The bytes of a buffer that holds every header.\npub const HEADER_BYTES: usize = {bytes};\n")
}

//! The case file.
use crate::table::{put, table_words};
use crate::unit::unit_line;
use h264_reader::Context;
use std::io::{Read, Write};

pub fn unhex(w: &[u8]) -> Vec<u8> {
    if w == b"-" {
        return vec![];
    }
    let d = |c: u8| match c {
        b'0'..=b'9' => c - b'0',
        b'a'..=b'f' => c - b'a' + 10,
        b'A'..=b'F' => c - b'A' + 10,
        _ => {
            eprintln!("bad hex digit {c:#x}");
            std::process::exit(2)
        }
    };
    if w.len() % 2 != 0 {
        eprintln!("odd hex word");
        std::process::exit(2)
    }
    w.chunks(2).map(|p| d(p[0]) << 4 | d(p[1])).collect()
}

pub fn run(path: &str, tables: bool, trace: bool) {
    let data = if path == "-" {
        let mut v = vec![];
        std::io::stdin().read_to_end(&mut v).unwrap();
        v
    } else {
        std::fs::read(path).unwrap()
    };
    let mut out = std::io::BufWriter::with_capacity(1 << 20, std::io::stdout().lock());
    let mut ctx = Context::new();
    let mut aux = Context::new();
    let broad = crate::sets::broad();
    let mut status: Vec<Result<(), String>> = vec![];
    let mut before: Option<&[u8]> = None;
    for line in data.split(|c| *c == b'\n') {
        if line.is_empty() || line[0] == b'#' {
            continue;
        }
        let cut = line.iter().rposition(|c| *c == b' ').map_or(0, |i| i + 1);
        let (sets, unit) = line.split_at(cut);
        if before != Some(sets) {
            ctx = Context::new();
            aux = Context::new();
            status.clear();
            for w in sets.split(|c| *c == b' ').filter(|w| !w.is_empty()) {
                let hidden = w[0] == b'~';
                let w = if hidden { &w[1..] } else { w };
                status.push(put(&mut ctx, &mut aux, hidden, &unhex(w)));
            }
            before = Some(sets);
        }
        let l = if tables {
            table_words(&ctx, &status)
        } else {
            unit_line(&ctx, &broad, &unhex(unit), trace)
        };
        out.write_all(l.as_bytes()).unwrap();
        out.write_all(b"\n").unwrap();
    }
    out.flush().unwrap();
}

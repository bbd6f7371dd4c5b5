//! `tuz cases`: one answer line for each case line.

use crate::form::Text;
use crate::output::Stdout;
use crate::{answer, stop, words};
use anyhow::{ensure, Context, Result};
use std::io::{BufRead, Read};
use tuzmarghil::raw::{self, WalkOut, Words};
use tuzmarghil::{to_start_codes, write_header, Reading, Table, Unit, UnitReader};

/// The greatest length of a case: a unit of some 8 MiB, in hex.
const LINE: u64 = 16 << 20;

/// What is done with each case besides.
pub struct More {
    pub rewrite: bool,
    pub headers: bool,
}

pub fn run(cases: &mut impl BufRead, more: &More, to: &mut Stdout) -> Result<()> {
    let mut table = Table::new();
    // the words that the table was made of
    let mut made = String::new();
    let (mut line, mut unit) = (Vec::new(), Vec::new());
    let (mut said, mut reader) = (Vec::new(), UnitReader::default());
    let mut walks = [Walk::framed(), Walk::coded()];
    for number in 1u64.. {
        stop::check()?;
        line.clear();
        let mut few = cases.take(LINE + 1);
        if few.read_until(b'\n', &mut line).context("reading")? == 0 {
            break;
        }
        let place = || format!("line {number}");
        ensure!(
            line.len() as u64 <= LINE,
            "line {number} is over {LINE} bytes"
        );
        let text = std::str::from_utf8(&line)
            .context("is no text")
            .with_context(place)?;
        let case = text.trim_end_matches(['\n', '\r'].as_slice());
        if case.is_empty() || case.starts_with('#') {
            continue;
        }
        let (sets, last) = case.rsplit_once(' ').unwrap_or(("", case));
        if sets != made {
            let words = sets.split(' ').filter(|w| !w.is_empty());
            table = words::table(words).with_context(place)?;
            made.clear();
            made.push_str(sets);
        }
        words::unit(last, &mut unit).with_context(place)?;
        let reading = reader.read(&table, &unit);
        let (read, words) = reading.raw();
        said.clear();
        let mut form = Text {
            to: &mut said,
            more: false,
            why: false,
        };
        answer::write(&unit, read, words, None, &mut form);
        said.push(b'\n');
        to.write(&said)?;
        if more.rewrite && read.answer == 1 {
            rewritten(&table, &reading).with_context(place)?;
        }
        if more.headers {
            for walk in &mut walks {
                walk.compare(&table, &reading).with_context(place)?;
            }
        }
    }
    Ok(())
}

/// A walk that reads headers alone, over recordings of one unit each.
struct Walk {
    step: Step,
    framed: bool,
    words: Words,
    out: WalkOut,
}

type Step = fn(&mut raw::Table, &[u8], usize, &mut Words, &mut WalkOut);

impl Walk {
    fn framed() -> Walk {
        Walk {
            step: raw::walk_framed_headers,
            framed: true,
            words: Words::default(),
            out: WalkOut::default(),
        }
    }

    fn coded() -> Walk {
        Walk {
            step: raw::walk_headers,
            framed: false,
            ..Walk::framed()
        }
    }

    /// Walks over the unit. It must answer as reading it did, and leave the same words and the table that the answer makes.
    fn compare(&mut self, table: &Table, reading: &Reading<'_>) -> Result<()> {
        let (unit, (read, words)) = (reading.bytes(), reading.raw());
        let mut recording = (unit.len() as u32).to_be_bytes().to_vec();
        recording.extend_from_slice(unit);
        if !self.framed {
            match to_start_codes(&recording) {
                Ok(coded) => recording = coded,
                // no start code can stand before it; the next one is read with its words
                Err(_) => {
                    self.words.clone_from(words);
                    return Ok(());
                }
            }
        }
        let (mut after, mut put) = (*table.as_raw(), *table.as_raw());
        let (words_after, out) = (&mut self.words, &mut self.out);
        (self.step)(&mut after, &recording, 0, words_after, out);
        raw::put_read(&mut put, read);
        let place = (out.step, out.place, out.length, out.next);
        let whole = (1, 4, unit.len(), recording.len());
        ensure!(place == whole, "the walk comes to another unit");
        ensure!(out.read == *read, "headers alone answer otherwise");
        ensure!(self.words == *words, "headers alone leave other words");
        ensure!(after == put, "headers alone leave another table");
        Ok(())
    }
}

/// Gives the header that was read Rust's types, takes it back to words, writes those, and compares: the words, the answer, the bits, and what is left as it was.
fn rewritten(table: &Table, reading: &Reading<'_>) -> Result<()> {
    let slice = match reading.unit() {
        Ok(Unit::Slice(slice)) => slice,
        _ => return Ok(()),
    };
    let ((read, words), body) = (reading.raw(), reading.scratch());
    ensure!(
        same_header(&slice.header.to_words(table), words),
        "other words come back"
    );
    let mut buffer = [0xA5; tuzmarghil::HEADER_BYTES];
    let first = slice.nal_header;
    let bits = write_header(table, first, slice.extension, &slice.header, &mut buffer)?;
    ensure!(
        bits == read.bits,
        "{bits} bits are written, {} were read",
        read.bits
    );
    let (whole, spare) = (bits / 8, bits % 8);
    ensure!(buffer[..whole] == body[..whole], "other bits come back");
    let mut end = whole;
    if spare > 0 {
        let kept = body[whole] & !(0xFF >> spare);
        ensure!(
            buffer[whole] == kept,
            "other bits come back in the last byte"
        );
        end += 1;
    }
    let rest = buffer[end..].iter().all(|b| *b == 0xA5);
    ensure!(rest, "bytes behind the header are changed");
    Ok(())
}

/// Whether words hold the same header; a prefix unit's list may differ.
fn same_header(a: &Words, b: &Words) -> bool {
    let all = |w: &Words| (w.numbers, w.signed, w.l0, w.l1, w.marking, w.w0, w.w1);
    all(a) == all(b)
}

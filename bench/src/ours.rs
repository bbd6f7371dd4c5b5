//! The proved library, through the raw calls of rust/tuzmarghil.

use tuzmarghil::raw::{self, ExtensionGiven, ReadOut, WalkOut, Words};
use tuzmarghil::Table;

use crate::peers::Found;

const SLICE: u32 = 1;
const A_UNIT: u32 = 1;
const NO_EXTENSION: ExtensionGiven = ExtensionGiven {
    there: false,
    b1: 0,
    b2: 0,
    b3: 0,
};

fn take(found: &mut Found, read: &ReadOut, words: &Words) {
    if read.answer == SLICE {
        let h = words.header();
        found.slice(
            h.first_mb_in_slice,
            h.frame.frame_num,
            h.quantiser.slice_qp_delta,
        );
    }
}

/// A step of a walk.
pub type Step = fn(&mut raw::Table, &[u8], usize, &mut [u8], &mut Words, &mut WalkOut);

/// What a reading is lent: room for a body, and words for a header.
struct Lent {
    scratch: Vec<u8>,
    words: Words,
}

impl Lent {
    fn new(longest: usize) -> Lent {
        Lent {
            scratch: vec![0; longest],
            words: Words::default(),
        }
    }

    fn of(units: &[&[u8]]) -> Lent {
        Lent::new(units.iter().map(|u| u.len()).max().unwrap_or(0))
    }

    fn read(&mut self, table: &Table, unit: &[u8], out: &mut ReadOut) {
        let (scratch, words) = (&mut self.scratch, &mut self.words);
        raw::read_unit(table.as_raw(), unit, scratch, words, out);
    }

    /// Every unit of a recording by a walk, and by a copy of the table that it starts with. `each` sees the step, and what it left in what was lent.
    fn steps(
        &mut self,
        walk: Step,
        table: &Table,
        recording: &[u8],
        mut each: impl FnMut(&WalkOut, &Lent),
    ) {
        let (mut out, mut from) = (WalkOut::default(), 0);
        let mut table = *table.as_raw();
        loop {
            let (scratch, words) = (&mut self.scratch, &mut self.words);
            walk(&mut table, recording, from, scratch, words, &mut out);
            if out.step != A_UNIT {
                return;
            }
            each(&out, self);
            from = out.next;
        }
    }
}

/// The walk as the rules have it.
pub fn walk<'a>(
    table: &'a Table,
    recording: &'a [u8],
    longest: usize,
) -> impl FnMut() -> Found + 'a {
    walk_all(raw::walk, table, vec![recording], longest)
}

/// The walk that reads headers alone.
pub fn headers_walk<'a>(table: &'a Table, recording: &'a [u8]) -> impl FnMut() -> Found + 'a {
    let step: Step = |t, r, from, _, words, out| raw::walk_headers(t, r, from, words, out);
    walk_all(step, table, vec![recording], 0)
}

/// The same over a recording framed by length.
pub fn framed_walk<'a>(table: &'a Table, recording: &'a [u8]) -> impl FnMut() -> Found + 'a {
    let step: Step = |t, r, from, _, words, out| raw::walk_framed_headers(t, r, from, words, out);
    walk_all(step, table, vec![recording], 0)
}

/// A walk over recordings, one after the other.
pub fn walk_all<'a>(
    walk: Step,
    table: &'a Table,
    recordings: Vec<&'a [u8]>,
    longest: usize,
) -> impl FnMut() -> Found + 'a {
    let mut lent = Lent::new(longest);
    move || {
        let mut found = Found::default();
        for recording in &recordings {
            lent.steps(walk, table, recording, |step, lent| {
                found.units += 1;
                found.lengths += step.length as u64;
                take(&mut found, &step.read, &lent.words);
            });
        }
        found
    }
}

/// What `tuz kinds` does: every unit found, and its first bytes looked at.
pub fn kinds(recording: &[u8]) -> impl FnMut() -> Found + '_ {
    move || {
        let (mut found, mut from) = (Found::default(), 0);
        loop {
            let step = raw::next_unit(recording, from);
            if step.step != A_UNIT {
                return found;
            }
            let head = raw::head(&recording[step.place..][..step.length]);
            found.units += u64::from(head.number == 0);
            found.lengths += step.length as u64;
            from = step.next;
        }
    }
}

/// The sum of the lengths of the slices' bodies, each body compared with what a plain loop makes of the unit; every unit compared with where a plain search found it.
pub fn compared(table: &Table, recording: &[u8], units: &[(usize, usize)]) -> u64 {
    let longest = units.iter().map(|u| u.1).max().unwrap_or(0);
    let (mut at, mut bodies) = (0, 0);
    Lent::new(longest).steps(raw::walk, table, recording, |step, lent| {
        let (place, length) = (step.place, step.length);
        assert_eq!((place, length), units[at], "unit {at} lies elsewhere");
        at += 1;
        if step.read.answer == SLICE {
            let mut body = Vec::with_capacity(length);
            let mut zeros = 0;
            for &byte in &recording[place + 1..place + length] {
                if zeros >= 2 && byte == 3 {
                    zeros = 0;
                    continue;
                }
                zeros = if byte == 0 { zeros + 1 } else { 0 };
                body.push(byte);
            }
            assert_eq!(lent.scratch[..body.len()], body, "the body of unit {at}");
            bodies += body.len() as u64;
        }
    });
    assert_eq!(at, units.len(), "units are missing");
    bodies
}

/// Slice headers alone, from units whose ends are known.
pub fn heads<'a>(table: &'a Table, units: &'a [&'a [u8]]) -> impl FnMut() -> Found + 'a {
    let (mut lent, mut out) = (Lent::of(units), ReadOut::default());
    move || {
        let mut found = Found::default();
        for unit in units {
            lent.read(table, unit, &mut out);
            found.units += 1;
            found.lengths += unit.len() as u64;
            take(&mut found, &out, &lent.words);
        }
        found
    }
}

/// The same, with each slice taken for exposures: how many pictures were closed beside what was found.
pub fn taken<'a>(table: &'a Table, units: &'a [&'a [u8]]) -> impl FnMut() -> (Found, u64) + 'a {
    let (mut lent, mut out) = (Lent::of(units), ReadOut::default());
    move || {
        let (mut found, mut closed) = (Found::default(), 0);
        let mut taken = raw::exposures_start();
        for unit in units {
            lent.read(table, unit, &mut out);
            found.units += 1;
            found.lengths += unit.len() as u64;
            take(&mut found, &out, &lent.words);
            let place = found.lengths as usize;
            let (table, words) = (table.as_raw(), &lent.words);
            raw::take(&mut taken, table, place, unit[0], &out, words);
            closed += u64::from(taken.closed.there);
        }
        (found, closed + u64::from(raw::finish(&taken.state).there))
    }
}

/// A header that was read, to be written: its unit's first byte, the words, how many bits it had.
pub struct Header {
    first: u8,
    words: Words,
    bits: usize,
}

/// The headers of units, each held to be written back as it was read.
pub fn headers(table: &Table, units: &[&[u8]]) -> Vec<Header> {
    let (mut lent, mut out) = (Lent::of(units), ReadOut::default());
    let mut buffer = [0; 256];
    let mut headers = Vec::new();
    for unit in units {
        lent.read(table, unit, &mut out);
        assert_eq!(out.answer, SLICE, "a unit that is no good slice");
        let words = &lent.words;
        let wrote = raw::write_header(table.as_raw(), unit[0], NO_EXTENSION, words, &mut buffer);
        assert_eq!((wrote.number, wrote.bits), (0, out.bits));
        let (whole, spare) = (out.bits / 8, out.bits % 8);
        assert_eq!(buffer[..whole], lent.scratch[..whole]);
        assert!(spare == 0 || (buffer[whole] ^ lent.scratch[whole]) >> (8 - spare) == 0);
        headers.push(Header {
            first: unit[0],
            words: words.clone(),
            bits: out.bits,
        });
    }
    headers
}

/// Headers written; gives how many bits they have.
pub fn write<'a>(table: &'a Table, headers: &'a [Header]) -> impl FnMut() -> usize + 'a {
    let mut buffer = [0; 256];
    move || {
        let mut bits = 0;
        for h in headers {
            let wrote =
                raw::write_header(table.as_raw(), h.first, NO_EXTENSION, &h.words, &mut buffer);
            bits += wrote.bits;
        }
        bits
    }
}

/// How many bits headers have.
pub fn bits(headers: &[Header]) -> usize {
    headers.iter().map(|h| h.bits).sum()
}

/// A walk in which every slice's header is written again; gives the bits that were written beside what was found.
pub fn rewrite<'a>(
    table: &'a Table,
    recording: &'a [u8],
    longest: usize,
) -> impl FnMut() -> (Found, usize) + 'a {
    let (mut lent, mut buffer) = (Lent::new(longest), [0; 256]);
    move || {
        let (mut found, mut bits) = (Found::default(), 0);
        lent.steps(raw::walk, table, recording, |step, lent| {
            found.units += 1;
            found.lengths += step.length as u64;
            take(&mut found, &step.read, &lent.words);
            if step.read.answer == SLICE {
                let first = recording[step.place];
                let words = &lent.words;
                let wrote =
                    raw::write_header(table.as_raw(), first, NO_EXTENSION, words, &mut buffer);
                bits += wrote.bits;
            }
        });
        (found, bits)
    }
}

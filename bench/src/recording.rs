//! Recordings that lie in memory: made by x264 (recordings.py), or generated where that is not at hand.

use std::fs;
use std::path::Path;

use tuzmarghil::{reports, Table, LIMIT};

use crate::random::Random;

/// The rules' sample sets as units.
const SAMPLE: [u8; 18] = [
    0, 0, 1, 0x67, 0x42, 0x00, 0x3E, 0xDA, 0x01, 0x8F, 0x90, 0, 0, 1, 0x68, 0xCE, 0x38, 0x80,
];

pub struct Recording {
    pub name: &'static str,
    pub bytes: Vec<u8>,
    /// Where its units lie, found by a plain search.
    pub units: Vec<(usize, usize)>,
    /// The parameter sets that stand in it, as units after start codes and as our table.
    pub sets: Vec<u8>,
    pub table: Table,
}

/// The units of a recording by the plainest of searches, which every contender is held to.
fn split(bytes: &[u8]) -> Vec<(usize, usize)> {
    let codes: Vec<usize> = (0..bytes.len().saturating_sub(2))
        .filter(|&i| bytes[i..i + 3] == [0, 0, 1])
        .collect();
    let ends = codes.iter().skip(1).copied().chain([bytes.len()]);
    let mut units = Vec::new();
    for (code, mut end) in codes.iter().zip(ends) {
        let place = code + 3;
        while end > place && bytes[end - 1] == 0 {
            end -= 1;
        }
        units.push((place, end - place));
    }
    units
}

/// Bytes with escapes where the standard asks for them.
fn escaped(body: impl Iterator<Item = u8>) -> Vec<u8> {
    let (mut out, mut zeros) = (Vec::new(), 0);
    for byte in body {
        if zeros == 2 && byte <= 3 {
            out.push(3);
            zeros = 0;
        }
        zeros = if byte == 0 { zeros + 1 } else { 0 };
        out.push(byte);
    }
    out
}

impl Recording {
    fn new(name: &'static str, bytes: Vec<u8>) -> Recording {
        let units = split(&bytes);
        let mut sets = Vec::new();
        for &(place, length) in &units {
            let unit = &bytes[place..place + length];
            if matches!(unit[0] & 31, 7 | 8) && !sets.windows(length).any(|w| w == unit) {
                sets.extend_from_slice(&[0, 0, 1]);
                sets.extend_from_slice(unit);
            }
        }
        let mut table = Table::new();
        let read = reports(&mut table, &sets).unwrap();
        assert!(read.map(|r| r.unit).all(|unit| unit.is_ok()));
        Recording {
            name,
            bytes,
            units,
            sets,
            table,
        }
    }

    /// The recording that recordings.py left in a folder, if it did.
    pub fn load(folder: &Path, name: &'static str) -> Option<Recording> {
        let bytes = fs::read(folder.join(name).with_extension("264")).ok()?;
        Some(Recording::new(name, bytes))
    }

    /// Slices of `length` bytes, each with the rules' header and random bytes without a zero.
    pub fn generated(name: &'static str, length: usize) -> Recording {
        let (mut random, mut bytes) = (Random::new(), SAMPLE.to_vec());
        for _ in 0..(4_000_000 / length).max(8) {
            bytes.extend_from_slice(&[0, 0, 1, 0x65, 0x88, 0x84, 0xA0]);
            bytes.extend((4..length).map(|_| random.next() as u8 | 1));
        }
        Recording::new(name, bytes)
    }

    /// The sample sets with slice groups, whose change rate is 11.
    pub fn with_slice_groups() -> Table {
        let mut table = Table::sample();
        let mut picture = table.picture(0).unwrap();
        picture.slice_group_change_rate = 11;
        table.put_picture(0, picture).unwrap();
        table
    }

    /// The slices' headers with bodies of 4,096 bytes of which a quarter are zeros, escaped as they must be.
    pub fn zero_heavy(&self) -> Recording {
        let (mut random, mut bytes) = (Random::new(), self.sets.clone());
        for unit in self.slices().take(4_000) {
            // enough for the header, and no zero last, which would reach into what follows
            let mut head = unit.len().min(60);
            while unit[head - 1] == 0 {
                head -= 1;
            }
            bytes.extend_from_slice(&[0, 0, 1]);
            bytes.extend_from_slice(&unit[..head]);
            let zeros = (0..4_096).map(|_| match random.next() {
                r if r & 3 == 0 => 0,
                r => (r >> 8) as u8,
            });
            bytes.extend_from_slice(&escaped(zeros));
            bytes.push(0x80);
        }
        Recording::new("zeros", bytes)
    }

    /// A recording of about `size` bytes and the same mix: the whole over and over, or, where it is longer, units in even steps.
    pub fn sized(&self, size: usize) -> Recording {
        let (size, whole) = (size.min(LIMIT), self.bytes.len());
        let (mut bytes, mut passed) = (Vec::with_capacity(size), 0);
        // each unit with what stands before it: its start code, of three bytes or four
        let ends = self.units.iter().map(|&(place, length)| place + length);
        let begins = [0].into_iter().chain(ends.clone());
        for (begin, end) in begins.zip(ends).cycle() {
            let unit = &self.bytes[begin..end];
            if bytes.len() + unit.len() > size {
                break;
            }
            passed += unit.len();
            if size >= whole || passed / whole.div_ceil(size) > bytes.len() {
                bytes.extend_from_slice(unit);
            }
        }
        Recording {
            name: self.name,
            units: split(&bytes),
            bytes,
            sets: self.sets.clone(),
            table: self.table.clone(),
        }
    }

    /// The length of its longest unit.
    pub fn longest(&self) -> usize {
        self.units.iter().map(|unit| unit.1).max().unwrap()
    }

    /// The slices, first byte and all.
    pub fn slices(&self) -> impl Iterator<Item = &[u8]> + Clone {
        self.units
            .iter()
            .map(|&(place, length)| &self.bytes[place..place + length])
            .filter(|unit| !unit.is_empty() && matches!(unit[0] & 31, 1 | 5))
    }
}

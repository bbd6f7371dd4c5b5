//! Totals over a recording.

use crate::answer::FAMILIES;
use std::fmt::Write;
use tuzmarghil::StreamReport;

#[derive(Default)]
pub struct Totals {
    pub units: u64,
    pub slices: [u64; 5],
    pub sets: u64,
    pub prefixes: u64,
    pub others: u64,
    pub refused: u64,
    /// Those that were refused since a set is not in the table.
    pub missing: u64,
    bytes: u64,
}

impl Totals {
    pub fn take(&mut self, r: &StreamReport<'_>) {
        self.units += 1;
        self.bytes += r.length;
        let (read, words) = r.raw();
        match read.answer {
            0 => self.others += 1,
            1 => self.slices[words.header().slice_type as usize % 5] += 1,
            2 => self.prefixes += 1,
            4 | 5 => self.sets += 1,
            _ => {
                self.refused += 1;
                self.missing += u64::from(matches!(read.number, 9 | 10));
            }
        }
    }

    /// No slice was read so far, and one was refused since a set is not in the table.
    pub fn first_is_missing(&self) -> bool {
        self.missing == 1 && self.slices == [0; 5]
    }

    /// In words, over a recording of so many bytes.
    pub fn told(&self, bytes: u64) -> String {
        let (units, slices) = (self.units, self.slices.iter().sum::<u64>());
        let outside = bytes.saturating_sub(self.bytes);
        let mut told =
            format!("{bytes} bytes, {outside} of them in no unit; {units} units: {slices} slices");
        let met: Vec<_> = (0..5).filter(|i| self.slices[*i] > 0).collect();
        for (k, i) in met.iter().enumerate() {
            let before = if k == 0 { " (" } else { ", " };
            let _ = write!(told, "{before}{} {}", self.slices[*i], FAMILIES[*i]);
        }
        let close = if met.is_empty() { "" } else { ")" };
        let (sets, prefixes) = (self.sets, self.prefixes);
        let (others, refused) = (self.others, self.refused);
        told + &format!("{close}, {sets} parameter sets, {prefixes} prefix units, {others} others, {refused} refused")
    }
}

/// QP over the slices of each type.
#[derive(Default)]
pub struct Quantisers {
    families: [Spread; 5],
    refused: u64,
}

#[derive(Clone, Copy, Default)]
struct Spread {
    count: i64,
    sum: i128,
    ends: Option<(i64, i64)>,
}

impl Spread {
    fn join(&mut self, other: Spread) {
        self.count += other.count;
        self.sum += other.sum;
        self.ends = match (self.ends, other.ends) {
            (Some(a), Some(b)) => Some((a.0.min(b.0), a.1.max(b.1))),
            (a, b) => a.or(b),
        };
    }
}

impl Quantisers {
    /// A slice's type and QP, or a refused unit.
    pub fn take(&mut self, slice: Option<(u32, i64)>) {
        match slice {
            None => self.refused += 1,
            Some((family, qp)) => self.families[family as usize].join(Spread {
                count: 1,
                sum: qp.into(),
                ends: Some((qp, qp)),
            }),
        }
    }

    /// A line for each slice type that is there, and one for all.
    pub fn lines(&self) -> String {
        let mut all = Spread::default();
        self.families.iter().for_each(|s| all.join(*s));
        let named = FAMILIES.into_iter().zip(self.families);
        let mut told = String::new();
        for (name, spread) in named.chain([("all", all)]) {
            let (count, mean) = (spread.count, spread.sum as f64 / spread.count as f64);
            if let Some((least, greatest)) = spread.ends {
                let _ = writeln!(told, "total family={name} slices={count} least={least} mean={mean:.2} greatest={greatest}");
            }
        }
        let _ = writeln!(told, "total refused={}", self.refused);
        told
    }
}

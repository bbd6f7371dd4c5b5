//! `tuz tear`: damages a clip at a place, and says what reading the torn one must then give.

use crate::input::Clip;
use crate::output::{Output, Stdout};
use crate::stop;
use anyhow::{ensure, Result};
use clap::{Args, ValueEnum};
use std::fmt::Write;
use std::path::PathBuf;
use tuzmarghil::{reports, Report, Table, Unit, LIMIT};

#[derive(Args)]
pub struct Tear {
    #[command(flatten)]
    clip: Clip,
    /// Where the torn clip goes; `-` is standard output, and what is told then goes to standard error
    #[arg(short, long, value_name = "FILE")]
    out: PathBuf,
    /// What happens to it
    #[arg(long, value_enum, default_value = "overwrite")]
    how: How,
    /// Where the damage begins; without it, at random
    #[arg(long, value_name = "PLACE")]
    at: Option<usize>,
    /// How many bytes are overwritten, removed or inserted
    #[arg(long, value_name = "BYTES", default_value_t = 512)]
    length: usize,
    /// What is written in place of them, or inserted
    #[arg(long, value_enum, default_value = "random")]
    with: With,
    /// How many times, each at a place of its own
    #[arg(long, value_name = "N", default_value_t = 1)]
    times: usize,
    /// Random places and bytes: the same seed gives the same clip
    #[arg(long, default_value_t = 1)]
    seed: u64,
}

#[derive(Clone, Copy, ValueEnum)]
enum How {
    /// The clip ends at the place
    Cut,
    Overwrite,
    Remove,
    Insert,
}

#[derive(Clone, Copy, ValueEnum)]
enum With {
    Zeros,
    Ones,
    Random,
    /// Bytes from elsewhere in the clip
    Copy,
}

/// splitmix64
struct Random(u64);

impl Random {
    fn next(&mut self) -> u64 {
        self.0 = self.0.wrapping_add(0x9E37_79B9_7F4A_7C15);
        let mut z = self.0;
        z = (z ^ z >> 30).wrapping_mul(0xBF58_476D_1CE4_E5B9);
        z = (z ^ z >> 27).wrapping_mul(0x94D0_49BB_1331_11EB);
        z ^ z >> 31
    }

    fn below(&mut self, n: usize) -> usize {
        (self.next() % n.max(1) as u64) as usize
    }
}

pub fn run(tear: &Tear, to: &mut Stdout) -> Result<()> {
    let at = tear.at;
    ensure!(
        at.is_none() || tear.times == 1,
        "--at is one place: leave it out for more --times"
    );
    ensure!(
        tear.length <= LIMIT,
        "--length {} is over {LIMIT} bytes",
        tear.length
    );
    let table = tear.clip.table()?;
    let recording = tear.clip.open()?;
    let mut outputs = Output::open(&tear.clip.inputs(), &[Some(&tear.out)])?;
    let mut clip = recording.bytes()?;
    let (mut random, mut told) = (Random(tear.seed), String::new());
    for _ in 0..tear.times {
        stop::check()?;
        let at = at.unwrap_or_else(|| random.below(clip.len()));
        let length = clip.len();
        ensure!(at <= length, "--at {at} is past the clip's {length} bytes");
        let damage = Damage::of(tear, &clip, at, &mut random)?;
        let torn = damage.apply(&clip);
        damage.expect(&table, &clip, &torn, &mut told)?;
        clip = torn;
    }
    if let Some(mut out) = outputs.pop().flatten() {
        let _ = writeln!(told, "written {} length={}", out.name(), clip.len());
        out.write(&clip, to)?;
        if out.is_stdout() {
            eprint!("{told}");
        } else {
            out.finish()?;
            to.write(told.as_bytes())?;
        }
    }
    Ok(())
}

/// `gone` bytes at a place are replaced by others.
struct Damage {
    at: usize,
    gone: usize,
    new: Vec<u8>,
}

impl Damage {
    fn of(tear: &Tear, clip: &[u8], at: usize, random: &mut Random) -> Result<Damage> {
        let rest = clip.len() - at;
        let (gone, new) = match tear.how {
            How::Cut => (rest, 0),
            How::Overwrite => (tear.length.min(rest), tear.length.min(rest)),
            How::Remove => (tear.length.min(rest), 0),
            How::Insert => (0, tear.length),
        };
        ensure!(
            clip.len() - gone + new <= LIMIT,
            "the torn clip would be over {LIMIT} bytes"
        );
        let from = random.below(clip.len());
        let byte = |i: usize| match tear.with {
            With::Zeros => 0,
            With::Ones => 255,
            With::Random => random.next() as u8,
            With::Copy => clip
                .get((from + i) % clip.len().max(1))
                .copied()
                .unwrap_or(0),
        };
        Ok(Damage {
            at,
            gone,
            new: (0..new).map(byte).collect(),
        })
    }

    fn apply(&self, clip: &[u8]) -> Vec<u8> {
        [&clip[..self.at], &self.new, &clip[self.at + self.gone..]].concat()
    }

    /// Says what both clips must have in common: the units whose end mark lies before the damage, and those whose start code lies behind it, where both walks come there
    /// with equal tables. Then looks whether they do.
    fn expect(&self, table: &Table, clip: &[u8], torn: &[u8], to: &mut String) -> Result<()> {
        let (at, gone, new) = (self.at, self.gone, self.new.len());
        let (was, table_was) = walked(table, clip, at + gone)?;
        let (is, table_is) = walked(table, torn, at + new)?;
        let equal = table_was == table_is;
        let before = |r: &&Report| r.place + r.length + 3 <= at;
        let behind = |r: &&Report, end: usize| end + 3 <= r.place;
        let first = was.iter().filter(before).count();
        let last = was.iter().filter(|r| behind(r, at + gone)).count();
        writeln!(to, "torn place={at} bytes_gone={gone} bytes_new={new}")?;
        writeln!(to, "expect first={first} as before")?;
        let moved = new as i64 - gone as i64;
        if equal {
            writeln!(
                to,
                "expect last={last} as before, places moved by {moved:+}"
            )?;
        } else {
            writeln!(to, "expect nothing of last={last}: a parameter set is lost or another, places moved by {moved:+}")?;
        }
        let (lost, found) = (was.len() - first - last, is.len());
        let same_first = was.iter().filter(before).eq(is.iter().filter(before));
        let ends = |r: &&Report, s: &[u8]| (s.len() - r.place, r.length, r.unit.clone());
        let same_last = (was.iter().filter(|r| behind(r, at + gone)))
            .map(|r| ends(&r, clip))
            .eq((is.iter().filter(|r| behind(r, at + new))).map(|r| ends(&r, torn)));
        ensure!(
            same_first && (same_last || !equal) && first + last <= found,
            "the torn clip does not read as promised: this is a fault of the library"
        );
        writeln!(
            to,
            "read between={} in place of {lost}",
            found - first - last
        )?;
        Ok(())
    }
}

/// The reports of a recording, and the table with which the walk comes to the first start code from `border` on.
fn walked(table: &Table, recording: &[u8], border: usize) -> Result<(Vec<Report>, Table)> {
    let (mut at_border, mut table) = (table.clone(), table.clone());
    let (mut walk, mut found) = (reports(&mut table, recording)?, vec![]);
    while let Some(report) = walk.next() {
        let set = matches!(report.unit, Ok(Unit::Sequence(_) | Unit::Picture(_)));
        if set && report.place < border + 3 {
            at_border.clone_from(walk.table());
        }
        found.push(report);
    }
    Ok((found, at_border))
}

//! The parameter sets that a recording brings: what is told of them on standard error, and `tuz table`.

use crate::input::{Clip, Each, Framing};
use crate::output::Stdout;
use crate::Ending;
use anyhow::Result;
use std::fmt::Write;
use tuzmarghil::raw::ReadOut;
use tuzmarghil::{StreamReport, Table};

/// So many sets that are refused, or are put over different ones, are told; of the others the count is.
const TOLD: u64 = 10;

/// What a set does to the table.
pub enum Change {
    /// An id that had no set has one.
    New,
    /// An id has a different one.
    Other,
    /// The table stays as it was.
    None,
}

/// Follows the sets that are met.
pub struct Sets {
    name: String,
    /// The table before the unit that is taken.
    table: Table,
    told: u64,
}

impl Sets {
    /// Those of a recording with this name, by the table that its walk starts with.
    pub fn new(name: String, table: Table) -> Sets {
        Sets {
            name,
            table,
            told: 0,
        }
    }

    /// Takes a unit. A set that is refused, or that is put over a different one, is told: from there on slices read otherwise than by the set that was meant, or was
    /// there.
    pub fn take(&mut self, r: &StreamReport<'_>) -> Change {
        let read = r.raw().0;
        let (what, change) = match (read.answer, refused_set(r)) {
            (4, _) => ("sequence", self.put(read)),
            (5, _) => ("picture", self.put(read)),
            (_, Some(what)) => (what, Change::None),
            _ => return Change::None,
        };
        let mut told = format!("tuz: {}: place {}: ", self.name, r.place);
        let _ = match (read.answer, &change) {
            (3, _) => write!(
                told,
                "a {what} parameter set is {}; the table stays as it was",
                read.refusal()
            ),
            (_, Change::Other) => write!(
                told,
                "{what} parameter set {} replaces a different one",
                read.number
            ),
            _ => return change,
        };
        self.told += 1;
        if self.told <= TOLD {
            eprintln!("{told}");
        }
        change
    }

    /// Puts a set that was read into the table.
    fn put(&mut self, read: &ReadOut) -> Change {
        let (set, table) = (read.number, &mut self.table);
        let (was, is) = if read.answer == 4 {
            let was = table
                .sequence(set)
                .map(|s| s == read.sequence_set().sequence);
            (was, table.put_sequence(set, read.sequence_set().sequence))
        } else {
            let was = table.picture(set).map(|p| p == read.picture_set().picture);
            (was, table.put_picture(set, read.picture_set().picture))
        };
        match (was, is) {
            (None, Ok(())) => Change::New,
            (Some(false), Ok(())) => Change::Other,
            _ => Change::None,
        }
    }

    /// All units were told.
    pub fn end(&self) {
        if self.told > TOLD {
            let more = self.told - TOLD;
            eprintln!(
                "tuz: {}: {more} more parameter sets were refused, or replaced different ones",
                self.name
            );
        }
    }
}

/// Which kind of set is refused, if one is.
fn refused_set(r: &StreamReport<'_>) -> Option<&'static str> {
    let read = r.raw().0;
    match r.bytes().first().map(|b| b & 31) {
        Some(7) if read.answer == 3 && read.has_bit => Some("sequence"),
        Some(8) if read.answer == 3 && read.has_bit => Some("picture"),
        _ => None,
    }
}

/// `tuz table`: the sets of a recording, as lines of a table file; the exit status.
pub fn run(clip: &Clip, framing: Framing, ending: &Ending, out: &mut Stdout) -> Result<u8> {
    let recording = clip.open_by(framing)?;
    let mut met = Met {
        sets: Sets::new(clip.name(), Table::new()),
        strict: ending.strict,
        count: 0,
        lines: 0,
        refused: 0,
        out,
    };
    let passed = recording.units(Table::new(), ending.quiet, &mut met, Met::take)?;
    met.out.finish()?;
    met.sets.end();
    let broken = passed.tell_broken(&clip.name(), None)?;
    let Met {
        count,
        lines,
        refused,
        ..
    } = met;
    if !ending.quiet {
        let again = count - lines;
        eprintln!(
            "{}: {count} parameter sets, {again} of them as the table had them; {refused} refused",
            clip.name()
        );
    }
    Ok(u8::from(ending.strict && (refused > 0 || broken)))
}

struct Met<'a> {
    sets: Sets,
    strict: bool,
    /// How many sets were read, told and refused.
    count: u64,
    lines: u64,
    refused: u64,
    out: &'a mut Stdout,
}

impl Each for Met<'_> {
    fn out(&mut self) -> &mut Stdout {
        self.out
    }

    fn strict(&self) -> bool {
        self.strict
    }
}

impl Met<'_> {
    /// A line for a set that changes the table: its word, and its place as a comment.
    fn take(&mut self, r: &StreamReport<'_>) -> Result<()> {
        let (read, change) = (r.raw().0, self.sets.take(r));
        let word = match read.answer {
            4 => read.sequence_set().to_string(),
            5 => read.picture_set().to_string(),
            3 => {
                self.refused += u64::from(refused_set(r).is_some());
                return Ok(());
            }
            _ => return Ok(()),
        };
        self.count += 1;
        if matches!(change, Change::None) {
            return Ok(());
        }
        self.lines += 1;
        let line = format!("{word} # place={}\n", r.place);
        self.out.write(line.as_bytes())
    }
}

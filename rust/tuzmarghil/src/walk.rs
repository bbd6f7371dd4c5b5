//! The units of a recording.

use crate::headers::{Framing, Lent};
use crate::raw::{ReadOut, Words};
use crate::{Refusal, Table, Unit, LIMIT};

/// A unit of a recording.
#[derive(Clone, Debug, PartialEq, Eq)]
#[cfg_attr(feature = "serde", derive(serde::Serialize))]
#[non_exhaustive]
pub struct Report {
    /// Where the unit begins, after its start code.
    pub place: usize,
    /// How many bytes it has.
    pub length: usize,
    /// What it holds, or why it is refused.
    pub unit: Result<Unit, Refusal>,
}

/// The units of a recording that lies in memory, in order: one for each start code. A parameter set that is read goes into the table, which the slices behind it are
/// read by; one that is refused leaves it as it was. Headers are read where they stand: beside the recording nothing is held that grows, but room for the longest
/// parameter set. A recording of over [`LIMIT`] bytes is refusal 27; [`crate::Stream`] takes any.
///
/// ```
/// use tuzmarghil::{reports, Table, Unit, UnitType};
///
/// let recording = [0, 0, 0, 1, 0xE5, 0x88, 0, 0, 1, 0x09, 0xF0];
/// let mut table = Table::new();
/// let found: Vec<_> = reports(&mut table, &recording)?.collect();
/// assert_eq!((found[0].place, found[0].length), (4, 2));
/// assert_eq!(found[0].unit.as_ref().unwrap_err().number, 2);
/// assert_eq!((found[1].place, found[1].length), (9, 2));
/// assert_eq!(found[1].unit, Ok(Unit::Other(UnitType::AccessUnitDelimiter)));
/// # Ok::<(), tuzmarghil::Refusal>(())
/// ```
pub fn reports<'a>(table: &'a mut Table, recording: &'a [u8]) -> Result<Reports<'a>, Refusal> {
    if recording.len() > LIMIT {
        return Err(Refusal::new(27, 0));
    }
    Ok(Reports {
        table,
        recording,
        from: 0,
        lent: Lent::new(),
    })
}

/// The iterator of [`reports`].
pub struct Reports<'a> {
    table: &'a mut Table,
    recording: &'a [u8],
    from: usize,
    lent: Lent,
}

impl Reports<'_> {
    /// The table after the units that have been reported.
    pub fn table(&self) -> &Table {
        self.table
    }

    /// The next unit as the proved library tells it: the table in force, its place, its bytes, the answer and the words.
    pub(crate) fn step(&mut self) -> Option<(&Table, usize, &[u8], &ReadOut, &Words)> {
        let (codes, recording) = (Framing::StartCodes, self.recording);
        self.lent.step(codes, self.table, recording, self.from);
        let out = &self.lent.out;
        if out.step != 1 {
            return None;
        }
        self.from = out.next;
        let bytes = &recording[out.place..][..out.length];
        let (read, words) = self.lent.read();
        Some((self.table, out.place, bytes, read, words))
    }
}

impl Iterator for Reports<'_> {
    type Item = Report;

    fn next(&mut self) -> Option<Report> {
        self.step()?;
        let (place, length) = (self.lent.out.place, self.lent.out.length);
        let bytes = &self.recording[place..][..length];
        Some(Report {
            place,
            length,
            unit: self.lent.reading(self.table, bytes).unit(),
        })
    }
}

impl std::iter::FusedIterator for Reports<'_> {}

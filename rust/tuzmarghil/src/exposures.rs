//! Exposures: the slices of a recording grouped into pictures.

use crate::raw::{self, ReadOut, Taken, Words};
use crate::{LengthFramed, Refusal, Reports, Stream, StreamReport, Table, Units};
use std::io::{self, Read};

/// A picture as a stacker weighs it: its slices of types 1 and 5 without redundant ones, put together by the comparison of neighbouring slices in 7.4.1.2.4.
#[derive(Clone, Copy, Debug, PartialEq)]
#[cfg_attr(feature = "serde", derive(serde::Serialize))]
#[non_exhaustive]
pub struct Exposure {
    /// From 1 on.
    pub number: u64,
    /// Where its first slice's unit begins, after its start code or its length.
    pub place: u64,
    /// How many slices it has.
    pub slices: u64,
    /// The least final QP of its slices, each by its own picture set.
    pub qp_least: i64,
    /// Their mean.
    pub qp_mean: f64,
    /// The greatest.
    pub qp_greatest: i64,
    /// `frame_num`
    pub frame_num: u32,
    /// Frames are missing before it: frame_num is neither that of the picture before nor the next; never so for the first picture or an IDR picture.
    pub gap: bool,
    /// Refused units of any type behind the first slice of the exposure before, or the recording's start, and before its own first slice.
    pub refused_before: u64,
}

/// What was taken, counted.
#[derive(Clone, Copy, Debug, Default, PartialEq, Eq)]
#[non_exhaustive]
pub struct ExposureTotals {
    /// Exposures, with the last one once it is finished.
    pub exposures: u64,
    /// Those of them before which frames are missing.
    pub gaps: u64,
    /// Slices in them.
    pub slices: u64,
    /// Redundant slices, of types 1 and 5.
    pub redundant: u64,
    /// Refused units, of any type.
    pub refused: u64,
    /// Prefix units.
    pub prefixes: u64,
    /// Units of types 20 and 21.
    pub views: u64,
    /// All other units.
    pub others: u64,
}

/// Takes a recording's units one by one, and gives an exposure for each picture, once the next one begins.
///
/// ```
/// use tuzmarghil::{Stacker, Stream, Table};
///
/// let recording: &[u8] = &[0, 0, 1, 0x65, 0x88, 0x84, 0xA0, 0, 0, 1, 0xE5];
/// let mut stream = Stream::with_table(recording, Table::sample());
/// let mut stacker = Stacker::default();
/// while let Some(report) = stream.next_unit()? {
///     assert_eq!(stacker.take(&report), None);
/// }
/// let exposure = stacker.finish().unwrap();
/// assert_eq!((exposure.number, exposure.place, exposure.slices), (1, 3, 1));
/// assert_eq!((stacker.totals().exposures, stacker.totals().refused), (1, 1));
/// # Ok::<(), std::io::Error>(())
/// ```
pub struct Stacker {
    /// The state after the units that were taken, and what the last one closed.
    taken: Taken,
    exposures: u64,
    gaps: u64,
}

impl Default for Stacker {
    /// No unit was taken.
    fn default() -> Stacker {
        Stacker {
            taken: raw::exposures_start(),
            exposures: 0,
            gaps: 0,
        }
    }
}

impl Stacker {
    /// Takes a unit; the exposure that it closes.
    pub fn take(&mut self, report: &StreamReport<'_>) -> Option<Exposure> {
        let (read, words) = report.raw();
        let place = report.place as usize;
        self.take_raw(report.table(), place, report.bytes(), read, words)
    }

    fn take_raw(
        &mut self,
        table: &Table,
        place: usize,
        unit: &[u8],
        read: &ReadOut,
        words: &Words,
    ) -> Option<Exposure> {
        let first = unit.first().copied().unwrap_or(0);
        raw::take(&mut self.taken, table.as_raw(), place, first, read, words);
        self.told(self.taken.closed)
    }

    /// The last exposure: the recording has ended. What is taken from here on begins anew, and counts go on.
    pub fn finish(&mut self) -> Option<Exposure> {
        let closed = raw::finish(&self.taken.state);
        self.taken.state.numbers[0] = 0; // no picture has begun
        self.told(closed)
    }

    fn told(&mut self, closed: raw::ClosedOut) -> Option<Exposure> {
        if !closed.there {
            return None;
        }
        let e = closed.exposure;
        self.exposures += 1;
        self.gaps += u64::from(e.gap);
        Some(Exposure {
            number: self.exposures,
            place: e.place as u64,
            slices: e.slices as u64,
            qp_least: e.qp_least,
            qp_mean: e.qp_sum as f64 / e.slices as f64,
            qp_greatest: e.qp_greatest,
            frame_num: e.frame_num,
            gap: e.gap,
            refused_before: e.refused_before as u64,
        })
    }

    /// What was taken so far.
    pub fn totals(&self) -> ExposureTotals {
        let c = raw::counts(&self.taken.state);
        ExposureTotals {
            exposures: self.exposures,
            gaps: self.gaps,
            slices: c.slices as u64,
            redundant: c.redundant as u64,
            refused: c.refused as u64,
            prefixes: c.prefixes as u64,
            views: c.views as u64,
            others: c.others as u64,
        }
    }
}

/// The exposures of a recording that lies in memory, in order.
///
/// ```
/// use tuzmarghil::{exposures, reports, Table};
///
/// let recording = [0, 0, 1, 0x65, 0x88, 0x84, 0xA0, 0, 0, 1, 0xE5];
/// let mut table = Table::sample();
/// let mut found = exposures(reports(&mut table, &recording)?);
/// let first = found.next().unwrap();
/// assert_eq!((first.place, first.slices, first.qp_least, first.gap), (3, 1, 26, false));
/// assert_eq!(found.next(), None);
/// assert_eq!((found.totals().exposures, found.totals().refused), (1, 1));
/// # Ok::<(), tuzmarghil::Refusal>(())
/// ```
pub fn exposures(reports: Reports<'_>) -> Exposures<'_> {
    Exposures {
        reports,
        stacker: Stacker::default(),
    }
}

/// The iterator of [`exposures`].
pub struct Exposures<'a> {
    reports: Reports<'a>,
    stacker: Stacker,
}

impl Exposures<'_> {
    /// What was taken so far: at the end, all of it.
    pub fn totals(&self) -> ExposureTotals {
        self.stacker.totals()
    }
}

impl Iterator for Exposures<'_> {
    type Item = Exposure;

    fn next(&mut self) -> Option<Exposure> {
        while let Some((table, place, unit, read, words)) = self.reports.step() {
            let closed = self.stacker.take_raw(table, place, unit, read, words);
            if closed.is_some() {
                return closed;
            }
        }
        self.stacker.finish()
    }
}

impl std::iter::FusedIterator for Exposures<'_> {}

/// The iterator of [`Units::exposures`], and of those of either framing.
pub struct StreamExposures<R> {
    units: Units<R>,
    stacker: Stacker,
}

impl<R: Read> StreamExposures<R> {
    /// What was taken so far: at the end, all of it.
    pub fn totals(&self) -> ExposureTotals {
        self.stacker.totals()
    }

    /// Refusal 29 where a broken length has ended the recording ([`LengthFramed::broken`]). It is no unit, and not in the totals.
    pub fn broken(&self) -> Option<Refusal> {
        self.units.broken()
    }
}

impl<R: Read> Units<R> {
    /// The exposures of the recording from here on, in order. An error of the source loses nothing.
    pub fn exposures(self) -> StreamExposures<R> {
        StreamExposures {
            units: self,
            stacker: Stacker::default(),
        }
    }
}

impl<R: Read> Stream<R> {
    /// The exposures of the recording from here on, in order. An error of the source loses nothing.
    ///
    /// ```
    /// use tuzmarghil::{Stream, Table};
    ///
    /// let recording: &[u8] = &[0, 0, 1, 0x65, 0x88, 0x84, 0xA0];
    /// let mut found = Stream::with_table(recording, Table::sample()).exposures();
    /// assert_eq!(found.next().unwrap()?.place, 3);
    /// assert!(found.next().is_none());
    /// # Ok::<(), std::io::Error>(())
    /// ```
    pub fn exposures(self) -> StreamExposures<R> {
        Units::StartCodes(self).exposures()
    }
}

impl<R: Read> LengthFramed<R> {
    /// The exposures of the recording from here on, in order, up to a broken length, if there is one. An error of the source loses nothing.
    ///
    /// ```
    /// use tuzmarghil::{LengthFramed, Table};
    ///
    /// let recording: &[u8] = &[0, 0, 0, 4, 0x65, 0x88, 0x84, 0xA0, 0, 0, 0, 9, 0x65];
    /// let mut found = LengthFramed::with_table(recording, Table::sample()).exposures();
    /// assert_eq!(found.next().unwrap()?.place, 4);
    /// assert!(found.next().is_none());
    /// assert_eq!(found.broken().unwrap().value, 8);
    /// # Ok::<(), std::io::Error>(())
    /// ```
    pub fn exposures(self) -> StreamExposures<R> {
        Units::Length(self).exposures()
    }
}

impl<R: Read> Iterator for StreamExposures<R> {
    type Item = io::Result<Exposure>;

    fn next(&mut self) -> Option<io::Result<Exposure>> {
        loop {
            match self.units.next_unit() {
                Err(e) => return Some(Err(e)),
                Ok(None) => return self.stacker.finish().map(Ok),
                Ok(Some(report)) => {
                    if let Some(closed) = self.stacker.take(&report) {
                        return Some(Ok(closed));
                    }
                }
            }
        }
    }
}

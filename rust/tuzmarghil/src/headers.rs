//! A step of a walk that reads headers alone, with what it is lent.

use crate::raw::{self, ReadOut, WalkOut, Words};
use crate::{Reading, Refusal, Table};

/// How units stand in a recording.
#[derive(Clone, Copy, Debug, PartialEq, Eq)]
pub(crate) enum Framing {
    /// Behind start codes.
    StartCodes,
    /// Behind lengths of 4 bytes.
    Length,
}

/// What a walk is lent, and what its last step gave.
pub(crate) struct Lent {
    /// For the body of a unit that is read by itself; a walk asks for none.
    scratch: Vec<u8>,
    words: Box<Words>,
    pub(crate) out: WalkOut,
}

impl Lent {
    pub(crate) fn new() -> Lent {
        Lent {
            scratch: Vec::new(),
            words: Box::default(),
            out: WalkOut::default(),
        }
    }

    /// One step from a place on.
    pub(crate) fn step(
        &mut self,
        framing: Framing,
        table: &mut Table,
        recording: &[u8],
        from: usize,
    ) {
        let walk = match framing {
            Framing::StartCodes => raw::walk_headers,
            Framing::Length => raw::walk_framed_headers,
        };
        let (words, out) = (&mut self.words, &mut self.out);
        walk(table.as_raw_mut(), recording, from, words, out);
    }

    /// A unit by itself, its set put into the table: for one that is too long for a walk.
    pub(crate) fn unit(&mut self, table: &mut Table, unit: &[u8]) {
        if self.scratch.len() < unit.len() {
            self.scratch.resize(unit.len(), 0);
        }
        let (scratch, words, read) = (&mut self.scratch, &mut self.words, &mut self.out.read);
        raw::read_unit(table.as_raw(), unit, scratch, words, read);
        raw::put_read(table.as_raw_mut(), read);
    }

    /// What is told of a unit over the limit, which is not read.
    pub(crate) fn too_long(&mut self) {
        self.out.read = ReadOut::refused(Refusal::new(27, 0));
        *self.words = Words::default();
    }

    pub(crate) fn read(&self) -> (&ReadOut, &Words) {
        (&self.out.read, &self.words)
    }

    /// What the last step read.
    pub(crate) fn reading<'a>(&'a self, table: &'a Table, bytes: &'a [u8]) -> Reading<'a> {
        Reading::new(table, bytes, &self.out.read, &self.words, &[])
    }
}

/// What the bytes at hand come to.
pub(crate) enum Found {
    /// A unit that lies in the buffer.
    Unit { from: usize, to: usize },
    /// A unit over the limit.
    TooLong { place: u64, length: u64 },
}

/// What a stream of units tells, over its `find`, `read_more`, `table`, `lent` and `piece`.
macro_rules! telling {
    ($stream:ident, $next:expr) => {
        impl<R: Read> $stream<R> {
            /// The table after the units that have been reported.
            pub fn table(&self) -> &Table {
                &self.table
            }

            #[doc = $next]
            pub fn next_unit(&mut self) -> io::Result<Option<crate::StreamReport<'_>>> {
                loop {
                    if let Some(found) = self.find(true) {
                        return Ok(Some(self.report(found)));
                    }
                    if !self.read_more()? {
                        return Ok(None);
                    }
                }
            }

            /// The next unit with its head alone: bodies are not read, so a parameter set does not go into the table.
            pub fn next_head(&mut self) -> io::Result<Option<crate::StreamHead<'_>>> {
                loop {
                    if let Some(found) = self.find(false) {
                        return Ok(Some(self.head(found)));
                    }
                    if !self.read_more()? {
                        return Ok(None);
                    }
                }
            }

            /// The next unit that has come whole; nothing where [`Self::read_more`] must be asked first.
            pub fn next_unit_at_hand(&mut self) -> Option<crate::StreamReport<'_>> {
                let found = self.find(true)?;
                Some(self.report(found))
            }

            /// The same, with the unit's head alone.
            pub fn next_head_at_hand(&mut self) -> Option<crate::StreamHead<'_>> {
                let found = self.find(false)?;
                Some(self.head(found))
            }

            fn head(&self, found: Found) -> crate::StreamHead<'_> {
                match found {
                    Found::Unit { from, to } => {
                        let (place, bytes) =
                            (self.piece.base + from as u64, &self.piece.bytes()[from..to]);
                        crate::StreamHead::new(place, bytes.len() as u64, Some(bytes))
                    }
                    Found::TooLong { place, length } => crate::StreamHead::new(place, length, None),
                }
            }

            fn report(&mut self, found: Found) -> crate::StreamReport<'_> {
                let (place, length, bytes) = match found {
                    Found::Unit { from, to } => {
                        let place = self.piece.base + from as u64;
                        (place, (to - from) as u64, &self.piece.bytes()[from..to])
                    }
                    Found::TooLong { place, length } => {
                        self.lent.too_long();
                        (place, length, &[][..])
                    }
                };
                let reading = self.lent.reading(&self.table, bytes);
                crate::StreamReport::new(place, length, reading)
            }
        }
    };
}

pub(crate) use telling;

//! Recordings of either framing.

use crate::{LengthFramed, Refusal, Stream, StreamHead, StreamReport, Table};
use std::io::{self, Read};

/// The units of a recording, for who learns only when it is opened what stands before each of them.
///
/// ```
/// use tuzmarghil::{LengthFramed, Stream, Units};
///
/// let coded: &[u8] = &[0, 0, 1, 0x09, 0xF0];
/// let framed: &[u8] = &[0, 0, 0, 2, 0x09, 0xF0, 0, 0, 7];
/// for (mut units, place, broken) in [
///     (Units::StartCodes(Stream::new(coded)), 3, None),
///     (Units::Length(LengthFramed::new(framed)), 4, Some(6)),
/// ] {
///     assert_eq!(units.next_unit()?.unwrap().place, place);
///     assert!(units.next_unit()?.is_none());
///     assert_eq!(units.broken().map(|refusal| refusal.value), broken);
/// }
/// # Ok::<(), std::io::Error>(())
/// ```
pub enum Units<R> {
    /// Behind start codes.
    StartCodes(Stream<R>),
    /// Behind lengths of 4 bytes.
    Length(LengthFramed<R>),
}

/// The same of both.
macro_rules! either {
    ($units:expr, $stream:ident => $asked:expr) => {
        match $units {
            Units::StartCodes($stream) => $asked,
            Units::Length($stream) => $asked,
        }
    };
}

impl<R: Read> Units<R> {
    /// The table after the units that have been reported.
    pub fn table(&self) -> &Table {
        either!(self, stream => stream.table())
    }

    /// How far the recording is read; at its end, its length.
    pub fn position(&self) -> u64 {
        either!(self, stream => stream.position())
    }

    /// Refusal 29 where a broken length has ended the recording ([`LengthFramed::broken`]); start codes are never broken.
    pub fn broken(&self) -> Option<Refusal> {
        match self {
            Units::StartCodes(_) => None,
            Units::Length(stream) => stream.broken(),
        }
    }

    /// The next unit; nothing at the end, or where a length is broken.
    pub fn next_unit(&mut self) -> io::Result<Option<StreamReport<'_>>> {
        either!(self, stream => stream.next_unit())
    }

    /// The next unit with its head alone ([`Stream::next_head`]).
    pub fn next_head(&mut self) -> io::Result<Option<StreamHead<'_>>> {
        either!(self, stream => stream.next_head())
    }

    /// The next unit that has come whole; nothing where [`Units::read_more`] must be asked first.
    pub fn next_unit_at_hand(&mut self) -> Option<StreamReport<'_>> {
        either!(self, stream => stream.next_unit_at_hand())
    }

    /// The same, with the unit's head alone.
    pub fn next_head_at_hand(&mut self) -> Option<StreamHead<'_>> {
        either!(self, stream => stream.next_head_at_hand())
    }

    /// Reads from the source once; false where all has been read before.
    pub fn read_more(&mut self) -> io::Result<bool> {
        either!(self, stream => stream.read_more())
    }
}

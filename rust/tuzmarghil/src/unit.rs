//! Whole units.

use crate::raw::{self, ReadOut, Words};
use crate::{NalHeader, NalHeaderExtension, PicParameterSet, PrefixNalUnit, Refusal};
use crate::{SeqParameterSet, SliceHeader, Table, UnitType};

/// What a unit's first bytes say, without its body: its type, its nal_ref_idc and its extension.
#[derive(Clone, Copy, PartialEq, Eq)]
pub struct UnitHead(pub(crate) raw::UnitHead);

impl UnitHead {
    /// `nal_unit_type`
    pub fn nal_unit_type(self) -> UnitType {
        UnitType::for_id(self.0.nal_unit_type).expect("a head has a type")
    }

    /// `nal_ref_idc`
    pub fn nal_ref_idc(self) -> u8 {
        self.0.nal_ref_idc
    }

    /// The extension of types 14, 20 and 21.
    pub fn extension(self) -> Option<NalHeaderExtension> {
        let first = NalHeader::from_byte(self.0.nal_unit_type);
        let bytes = [self.0.b1, self.0.b2, self.0.b3];
        first
            .has_extension()
            .then(|| NalHeaderExtension::from_bytes(bytes))
    }
}

impl std::fmt::Debug for UnitHead {
    fn fmt(&self, f: &mut std::fmt::Formatter<'_>) -> std::fmt::Result {
        f.debug_struct("UnitHead")
            .field("nal_unit_type", &self.nal_unit_type())
            .field("nal_ref_idc", &self.nal_ref_idc())
            .field("extension", &self.extension())
            .finish()
    }
}

/// What a unit holds.
#[derive(Clone, Debug, PartialEq, Eq)]
#[cfg_attr(feature = "serde", derive(serde::Serialize))]
#[non_exhaustive]
pub enum Unit {
    /// A slice: types 1, 5, 20 and 21.
    Slice(Box<Slice>),
    /// A prefix unit: type 14.
    Prefix(PrefixNalUnit),
    /// A sequence parameter set: type 7.
    Sequence(SeqParameterSet),
    /// A picture parameter set: type 8.
    Picture(PicParameterSet),
    /// A unit of another type, which is not read.
    Other(UnitType),
}

impl Unit {
    /// What a unit's first bytes say, or refusal 27, 1, 2 or 4. No table is needed, and the body is not looked at.
    ///
    /// ```
    /// use tuzmarghil::{Table, Unit, UnitType};
    ///
    /// let (unit, table, mut scratch) = ([0x65, 0x88, 0x84, 0xA0], Table::sample(), Vec::new());
    /// let head = Unit::head(&unit)?;
    /// assert_eq!(head.nal_unit_type(), UnitType::SliceLayerWithoutPartitioningIdr);
    /// assert_eq!((head.nal_ref_idc(), head.extension()), (3, None));
    ///
    /// // the body, for whoever has the head; another unit's is refused
    /// assert!(matches!(Unit::body(&table, head, &unit, &mut scratch)?, Unit::Slice(_)));
    /// let other = Unit::head(&[0x25])?;
    /// assert_eq!(Unit::body(&table, other, &unit, &mut scratch).unwrap_err().number, 34);
    /// # Ok::<(), tuzmarghil::Refusal>(())
    /// ```
    pub fn head(unit: &[u8]) -> Result<UnitHead, Refusal> {
        raw::head(unit).told().map(UnitHead)
    }

    /// Reads the body of a unit whose head is known. The two in turn answer as [`read_unit`]; a head that is not the unit's own is refusal 34.
    pub fn body(
        table: &Table,
        head: UnitHead,
        unit: &[u8],
        scratch: &mut Vec<u8>,
    ) -> Result<Unit, Refusal> {
        if scratch.len() < unit.len() {
            scratch.resize(unit.len(), 0);
        }
        let (mut words, mut out) = (Words::default(), ReadOut::default());
        raw::body(table.as_raw(), head.0, unit, scratch, &mut words, &mut out);
        Reading::new(table, unit, &out, &words, scratch).unit()
    }
}

/// A slice's headers.
#[derive(Clone, Debug, PartialEq, Eq)]
#[cfg_attr(feature = "serde", derive(serde::Serialize))]
#[non_exhaustive]
pub struct Slice {
    /// The unit's first byte.
    pub nal_header: NalHeader,
    /// The extension of types 20 and 21.
    pub extension: Option<NalHeaderExtension>,
    /// The slice header.
    pub header: SliceHeader,
    /// The slice header's length in bits, in the unescaped body.
    pub bits: usize,
    /// The final QP (SliceQPY), by the table that the slice was read by: 26 + `pic_init_qp_minus26` + `slice_qp_delta`.
    ///
    /// ```
    /// use tuzmarghil::{read_unit, Table, Unit};
    ///
    /// if let Unit::Slice(slice) = read_unit(&Table::sample(), &[0x65, 0x88, 0x84, 0xA0], &mut Vec::new())? {
    ///     assert_eq!((slice.qp, slice.qs), (26, None));
    /// }
    /// # Ok::<(), tuzmarghil::Refusal>(())
    /// ```
    pub qp: i64,
    /// The final QS (QSY), of slices of types SP and SI.
    pub qs: Option<i64>,
}

/// Reads a unit, from its first byte on and escaped as it stands in the recording, by the sets of a table: its head ([`Unit::head`]), then its body ([`Unit::body`]).
/// A parameter set is read, and the table stays as it is: the walk ([`crate::reports`], [`crate::Stream`]) is what puts it there.
///
/// `scratch` takes the unescaped body; it grows to the unit's length and can be used again.
///
/// ```
/// use tuzmarghil::{read_unit, Table, Unit, UnitType};
///
/// let mut scratch = Vec::new();
/// let unit = read_unit(&Table::new(), &[0x09, 0xF0], &mut scratch)?;
/// assert_eq!(unit, Unit::Other(UnitType::AccessUnitDelimiter));
///
/// // a slice whose picture set is not in the table
/// let refusal = read_unit(&Table::new(), &[0x65, 0x88, 0x84, 0xA0], &mut scratch).unwrap_err();
/// assert_eq!(refusal.to_string(), "refused 9 at bit 8: picture parameter set 0 is not in the table");
/// # Ok::<(), tuzmarghil::Refusal>(())
/// ```
pub fn read_unit(table: &Table, unit: &[u8], scratch: &mut Vec<u8>) -> Result<Unit, Refusal> {
    if scratch.len() < unit.len() {
        scratch.resize(unit.len(), 0);
    }
    Unit::body(table, Unit::head(unit)?, unit, scratch)
}

/// Reads units one after the other into memory that it keeps.
///
/// ```
/// use tuzmarghil::{Table, Unit, UnitReader, UnitType};
///
/// let (mut reader, table) = (UnitReader::default(), Table::new());
/// let unit = reader.read(&table, &[0x09, 0xF0]).unit()?;
/// assert_eq!(unit, Unit::Other(UnitType::AccessUnitDelimiter));
/// # Ok::<(), tuzmarghil::Refusal>(())
/// ```
#[derive(Default)]
pub struct UnitReader {
    scratch: Vec<u8>,
    words: Box<Words>,
    out: ReadOut,
}

impl UnitReader {
    /// Reads a unit, as [`read_unit`] does.
    pub fn read<'a>(&'a mut self, table: &'a Table, unit: &'a [u8]) -> Reading<'a> {
        if self.scratch.len() < unit.len() {
            self.scratch.resize(unit.len(), 0);
        }
        let (scratch, words, out) = (&mut self.scratch, &mut self.words, &mut self.out);
        raw::read_unit(table.as_raw(), unit, scratch, words, out);
        Reading::new(table, unit, out, words, scratch)
    }

    /// Reads the body of a unit whose head is known, as [`Unit::body`] does.
    pub fn body<'a>(&'a mut self, table: &'a Table, head: UnitHead, unit: &'a [u8]) -> Reading<'a> {
        if self.scratch.len() < unit.len() {
            self.scratch.resize(unit.len(), 0);
        }
        let (scratch, words, out) = (&mut self.scratch, &mut self.words, &mut self.out);
        raw::body(table.as_raw(), head.0, unit, scratch, words, out);
        Reading::new(table, unit, out, words, scratch)
    }
}

/// What reading a unit gave. Its parts belong together, so nobody else makes one.
#[derive(Clone, Copy)]
pub struct Reading<'a> {
    table: &'a Table,
    bytes: &'a [u8],
    read: &'a ReadOut,
    words: &'a Words,
    scratch: &'a [u8],
}

impl<'a> Reading<'a> {
    pub(crate) fn new(
        table: &'a Table,
        bytes: &'a [u8],
        read: &'a ReadOut,
        words: &'a Words,
        scratch: &'a [u8],
    ) -> Reading<'a> {
        Reading {
            table,
            bytes,
            read,
            words,
            scratch,
        }
    }

    /// The unit's bytes; none where it is over [`crate::LIMIT`].
    pub fn bytes(&self) -> &'a [u8] {
        self.bytes
    }

    /// What the unit holds, or why it is refused.
    pub fn unit(&self) -> Result<Unit, Refusal> {
        let (unit, out, words) = (self.bytes, self.read, self.words);
        let first = unit.first().copied().unwrap_or(0);
        match out.answer {
            0 => Ok(Unit::Other(
                UnitType::for_id(out.number as u8).expect("a unit has a type"),
            )),
            1 => {
                let header = SliceHeader::from_raw(&words.header(), words);
                let (table, id) = (self.table.as_raw(), header.pic_parameter_set_id);
                Ok(Unit::Slice(Box::new(Slice {
                    nal_header: NalHeader::from_byte(first),
                    extension: NalHeaderExtension::of_unit(unit),
                    bits: out.bits,
                    qp: raw::final_qp(table, id, header.slice_qp_delta),
                    qs: header.slice_qs_delta.map(|d| raw::final_qs(table, id, d)),
                    header,
                })))
            }
            2 => Ok(Unit::Prefix(PrefixNalUnit::from_raw(
                unit,
                &out.prefix,
                words,
            ))),
            4 => Ok(Unit::Sequence(out.sequence_set())),
            5 => Ok(Unit::Picture(out.picture_set())),
            _ => Err(out.refusal()),
        }
    }

    /// The table: of a slice, the one that it was read by; of a set that a walk met, with that set in it.
    pub fn table(&self) -> &'a Table {
        self.table
    }

    /// The answer as the proved library gives it, and the words that go with it.
    #[doc(hidden)]
    pub fn raw(&self) -> (&'a ReadOut, &'a Words) {
        (self.read, self.words)
    }

    /// The unescaped body, at the front of what was lent for it.
    #[doc(hidden)]
    pub fn scratch(&self) -> &'a [u8] {
        self.scratch
    }
}

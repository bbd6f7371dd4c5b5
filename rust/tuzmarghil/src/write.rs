//! Writing slice headers.

use crate::raw::{self, ExtensionGiven};
use crate::{NalHeader, NalHeaderExtension, Refusal, SliceHeader, Table};

/// Writes a slice header into the front of a buffer, for a unit with this first byte and extension (types 20 and 21 have one), and says how many bits it has.
///
/// Whole bytes are filled, spare low bits with zeros; bytes after them are left as they were, and so is all of it by a refusal. [`HEADER_BYTES`](crate::HEADER_BYTES)
/// are enough for every header, [`SliceHeader::bound`] bits for this one. What is written is the unescaped body's beginning.
///
/// ```
/// use tuzmarghil::{read_unit, write_header, Table, Unit};
///
/// let table = Table::sample();
/// let mut slice = match read_unit(&table, &[0x65, 0x88, 0x84, 0xA0], &mut Vec::new())? {
///     Unit::Slice(slice) => slice,
///     other => panic!("{other:?}"),
/// };
///
/// let mut out = [0xFF; 4];
/// assert_eq!(write_header(&table, slice.nal_header, None, &slice.header, &mut out)?, 17);
/// assert_eq!(out, [0x88, 0x84, 0x80, 0xFF]);
///
/// slice.header.slice_qp_delta = 40;
/// let refusal = write_header(&table, slice.nal_header, None, &slice.header, &mut out).unwrap_err();
/// assert_eq!(refusal.number, 25);
/// # Ok::<(), tuzmarghil::Refusal>(())
/// ```
pub fn write_header(
    table: &Table,
    first: NalHeader,
    extension: Option<NalHeaderExtension>,
    header: &SliceHeader,
    out: &mut [u8],
) -> Result<usize, Refusal> {
    let [b1, b2, b3] = extension.map_or([0; 3], NalHeaderExtension::to_bytes);
    let given = ExtensionGiven {
        there: extension.is_some(),
        b1,
        b2,
        b3,
    };
    let words = header.to_words(table);
    let answer = raw::write_header(table.as_raw(), first.into(), given, &words, out);
    match answer.number {
        0 => Ok(answer.bits),
        number => Err(Refusal::new(number, answer.value)),
    }
}

impl SliceHeader {
    /// How many bits it has at most when it is written, by the lengths of its lists and its active counts. A buffer with room for them is never too short; for a
    /// header that cannot be written it may be more than [`HEADER_BYTES`](crate::HEADER_BYTES) hold.
    ///
    /// ```
    /// use tuzmarghil::{read_unit, Table, Unit};
    ///
    /// let table = Table::sample();
    /// let slice = match read_unit(&table, &[0x65, 0x88, 0x84, 0xA0], &mut Vec::new())? {
    ///     Unit::Slice(slice) => slice,
    ///     other => panic!("{other:?}"),
    /// };
    /// assert_eq!(slice.bits, 17);
    /// assert_eq!(slice.header.bound(&table), 659 + 380 * 2); // no entries in lists, a reference of each by the picture set
    /// # Ok::<(), tuzmarghil::Refusal>(())
    /// ```
    pub fn bound(&self, table: &Table) -> usize {
        raw::header_bound(table.as_raw(), &self.to_words(table))
    }
}

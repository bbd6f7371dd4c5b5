//! From lengths to start codes and back.

use crate::{raw, Refusal, LIMIT};

/// A recording framed by length, with start codes: each unit behind `00 00 00 01`, where it stood, since its length had four bytes too.
///
/// Refused are a recording of over [`LIMIT`] bytes (27), a broken length (29, with its place), and then a unit that start codes cannot carry (35, with its place): one that
/// holds `00 00 00` or `00 00 01`, or ends with a zero byte.
///
/// ```
/// use tuzmarghil::{to_lengths, to_start_codes};
///
/// let framed = [0, 0, 0, 4, 0x65, 0x88, 0x84, 0xA0, 0, 0, 0, 2, 0x09, 0xF0];
/// let coded = to_start_codes(&framed)?;
/// assert_eq!(coded, [0, 0, 0, 1, 0x65, 0x88, 0x84, 0xA0, 0, 0, 0, 1, 0x09, 0xF0]);
/// assert_eq!(to_lengths(&coded)?, framed);
/// let refused = to_start_codes(&framed[..13]).unwrap_err();
/// assert_eq!((refused.number, refused.value), (29, 8));
/// # Ok::<(), tuzmarghil::Refusal>(())
/// ```
pub fn to_start_codes(recording: &[u8]) -> Result<Vec<u8>, Refusal> {
    let mut out = vec![0; recording.len().min(LIMIT)];
    let length = to_start_codes_into(recording, &mut out)?;
    out.truncate(length);
    Ok(out)
}

/// A recording with start codes, framed by length: each unit behind its length, four bytes, the first the highest.
///
/// Refused is a recording of over [`LIMIT`] bytes, and one whose result would be (27 both).
///
/// ```
/// use tuzmarghil::to_lengths;
///
/// // what is in no unit is left out
/// let coded = [7, 0, 0, 1, 0x09, 0xF0, 0, 0, 0, 0, 0, 1];
/// assert_eq!(to_lengths(&coded)?, [0, 0, 0, 2, 0x09, 0xF0, 0, 0, 0, 0]);
/// # Ok::<(), tuzmarghil::Refusal>(())
/// ```
pub fn to_lengths(recording: &[u8]) -> Result<Vec<u8>, Refusal> {
    // a start code has three bytes at least, and a length has four
    let room = recording.len().min(LIMIT) / 3 * 4 + 2;
    let mut out = vec![0; room.min(LIMIT)];
    let length = to_lengths_into(recording, &mut out)?;
    out.truncate(length);
    Ok(out)
}

/// The same as [`to_start_codes`], to the front of a buffer; gives the result's length. Output that is too short is refusal 26, with the bytes needed. A refusal leaves
/// the buffer as it was.
pub fn to_start_codes_into(recording: &[u8], out: &mut [u8]) -> Result<usize, Refusal> {
    raw::to_start_codes(recording, out).told()
}

/// The same as [`to_lengths`], to the front of a buffer; gives the result's length. Output that is too short is refusal 26, with the bytes needed. A refusal leaves the
/// buffer as it was.
pub fn to_lengths_into(recording: &[u8], out: &mut [u8]) -> Result<usize, Refusal> {
    raw::to_lengths(recording, out).told()
}

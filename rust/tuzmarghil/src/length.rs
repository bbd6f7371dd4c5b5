//! Recordings framed by length, of any length, in bounded memory.
//!
//! A step of the proved walk looks at nothing before the place that it is asked from, and at nothing behind the unit that it finds. So it is asked of the bytes that are at
//! hand: where they are too few for the length that stands there, it answers 29, and more are read, until the source has ended.

use crate::headers::{telling, Found, Framing, Lent};
use crate::piece::{Piece, PIECE};
use crate::raw;
use crate::{Refusal, Table, LIMIT};
use std::io::{self, Read};

/// The bytes of a length.
const LENGTH: usize = 4;
const BROKEN_LENGTH: u32 = 29;

/// A recording without start codes, each unit behind its length, four bytes, the first the highest; read piece by piece, as [`crate::Stream`] reads one with start codes,
/// with the same reports.
///
/// ```
/// use tuzmarghil::{LengthFramed, Unit, UnitType};
///
/// let recording: &[u8] = &[0, 0, 0, 2, 0xE5, 0x88, 0, 0, 0, 2, 0x09, 0xF0, 0, 0, 7];
/// let mut found = vec![];
/// let mut framed = LengthFramed::new(recording);
/// while let Some(report) = framed.next_unit()? {
///     found.push((report.place, report.length, report.unit()));
/// }
/// assert_eq!(found[0].2.as_ref().unwrap_err().number, 2);
/// assert_eq!(found[1], (10, 2, Ok(Unit::Other(UnitType::AccessUnitDelimiter))));
/// // three bytes are left where a length begins: the units end there
/// let broken = framed.broken().unwrap();
/// assert_eq!((broken.number, broken.value), (29, 12));
/// # Ok::<(), std::io::Error>(())
/// ```
///
/// Damage of a length moves all units behind it: those before it are read as they were, and nothing is said of the others. What is held is a piece of the recording, as by
/// [`crate::Stream`].
pub struct LengthFramed<R> {
    piece: Piece<R>,
    table: Table,
    /// The limit of a unit: `LIMIT`, but for tests.
    limit: usize,
    /// The piece is walked up to here.
    at: usize,
    /// A unit over the limit: the place of its length, the unit's bytes, and how many of them are still to come.
    long: Option<(u64, u64, u64)>,
    /// The place of the broken length that ends the recording.
    broken: Option<u64>,
    lent: Lent,
}

impl<R: Read> LengthFramed<R> {
    /// The recording that `source` gives, with an empty table.
    pub fn new(source: R) -> LengthFramed<R> {
        LengthFramed::with_table(source, Table::new())
    }

    /// The same, with sets to start with.
    pub fn with_table(source: R, table: Table) -> LengthFramed<R> {
        LengthFramed::with(source, table, PIECE, LIMIT)
    }

    fn with(source: R, table: Table, piece: usize, limit: usize) -> LengthFramed<R> {
        LengthFramed {
            piece: Piece::new(source, piece, limit + LENGTH),
            table,
            limit,
            at: 0,
            long: None,
            broken: None,
            lent: Lent::new(),
        }
    }

    /// How far the recording is read; at its end, its length.
    pub fn position(&self) -> u64 {
        self.piece.base + self.at as u64
    }

    /// Refusal 29 with the place of a broken length, once the units before it have been told: fewer bytes are left than it says, or than it has. It ends the recording.
    pub fn broken(&self) -> Option<Refusal> {
        let refusal = |place| Refusal::new(BROKEN_LENGTH, place as i64);
        self.broken.map(refusal)
    }

    /// Reads from the source once; false where all has been read before.
    pub fn read_more(&mut self) -> io::Result<bool> {
        self.piece.discard(self.at);
        self.at = 0;
        self.piece.read_more()
    }

    /// The next unit, and whether it is to be read.
    fn find(&mut self, read: bool) -> Option<Found> {
        if self.broken.is_some() {
            return None;
        }
        if let Some((place, length, left)) = self.long {
            return self.pass_over(place, length, left);
        }
        let (at, rest) = (self.at, &self.piece.bytes()[self.at..]);
        let length = rest.get(..LENGTH).map(length_of);
        if let Some(length) = length.filter(|n| *n > self.limit) {
            let place = self.position();
            self.at += LENGTH;
            return self.pass_over(place, length as u64, length as u64);
        }
        let window = &rest[..rest.len().min(LIMIT)];
        let step = raw::next_framed(window, 0);
        let (from, to) = match (step.step, length) {
            (1, _) => (at + step.place, at + step.next),
            // with its length it is over the limit of a walk
            (_, Some(length)) if LENGTH + length <= rest.len() => {
                (at + LENGTH, at + LENGTH + length)
            }
            _ if self.piece.ended && !rest.is_empty() => return self.end_broken(self.position()),
            _ => return None,
        };
        if read && step.step == 1 {
            let framed = Framing::Length;
            self.lent.step(framed, &mut self.table, window, 0);
        } else if read {
            self.lent
                .unit(&mut self.table, &self.piece.bytes()[from..to]);
        }
        self.at = to;
        Some(Found::Unit { from, to })
    }

    /// Bytes of a unit over the limit, of which `left` are still to come.
    fn pass_over(&mut self, place: u64, length: u64, left: u64) -> Option<Found> {
        let here = left.min((self.piece.filled - self.at) as u64);
        self.at += here as usize;
        let left = left - here;
        self.long = Some((place, length, left));
        if left > 0 {
            return match self.piece.ended {
                true => self.end_broken(place),
                false => None,
            };
        }
        self.long = None;
        let place = place + LENGTH as u64;
        Some(Found::TooLong { place, length })
    }

    /// The recording ends at a broken length.
    fn end_broken(&mut self, place: u64) -> Option<Found> {
        self.broken = Some(place);
        self.at = self.piece.filled;
        None
    }
}

telling!(
    LengthFramed,
    "The next unit; nothing at the end, or where a length is broken ([`LengthFramed::broken`])."
);

/// What the four bytes of a length say.
fn length_of(four: &[u8]) -> usize {
    four.iter().fold(0, |n, byte| n << 8 | usize::from(*byte))
}

#[cfg(test)]
mod tests {
    use super::*;
    use crate::stream::tests::{drops, random};
    use crate::{reports, to_start_codes, Unit};

    /// Units by definition: place, length; and the place of the broken length that ends them.
    fn units(s: &[u8]) -> (Vec<(u64, u64)>, Option<u64>) {
        let (mut found, mut at) = (vec![], 0);
        while at < s.len() {
            let length = s.get(at..at + LENGTH).map(length_of);
            match length.filter(|n| at + LENGTH + n <= s.len()) {
                None => return (found, Some(at as u64)),
                Some(n) => {
                    found.push(((at + LENGTH) as u64, n as u64));
                    at += LENGTH + n;
                }
            }
        }
        (found, None)
    }

    /// Recordings of few units, some with a byte changed.
    fn framed(random: &mut impl FnMut(usize) -> usize) -> Vec<u8> {
        let mut s = vec![];
        for _ in 0..random(6) {
            let length = random(30);
            s.extend((length as u32).to_be_bytes());
            s.extend((0..length).map(|_| [0, 1, 3, 0x65, 0x6E, 0xE5][random(6)]));
        }
        if !s.is_empty() && random(2) == 0 {
            let at = random(s.len());
            s[at] = [0, 1, 7, 255][random(4)];
        }
        s.truncate(s.len() - random(3).min(s.len()));
        s
    }

    /// Whatever the pieces, the limit, and errors between them that may be tried again; with units read, or their heads alone.
    #[test]
    fn pieces_lose_nothing() {
        let mut random = random(88172645463325252);
        let (mut over, mut ends) = (0, 0);
        for round in 0..60_000 {
            let s = framed(&mut random);
            let limit = 1 + random(40);
            let source = drops(&s, 1 + random(9), [0, 0, 2, 3, 7][random(5)]);
            let mut stream = LengthFramed::with(source, Table::new(), 1 + random(12), limit);
            let mut found = vec![];
            loop {
                let (place, length, bytes, refused) = if random(2) == 0 {
                    match stream.next_unit() {
                        Ok(None) => break,
                        Ok(Some(r)) => (r.place, r.length, r.bytes(), r.unit().err()),
                        Err(_) => continue,
                    }
                } else {
                    match stream.next_head() {
                        Ok(None) => break,
                        Ok(Some(r)) => (r.place, r.length, r.bytes(), r.head().err()),
                        Err(_) => continue,
                    }
                };
                let long = length > limit as u64;
                over += usize::from(long);
                assert_eq!(long, refused.map_or(false, |r| r.number == 27), "{s:?}");
                let from = place as usize;
                assert!(long || bytes == &s[from..from + length as usize], "{s:?}");
                found.push((place, length));
            }
            let broken = stream.broken().map(|r| (r.number, r.value));
            let (want, end) = units(&s);
            assert_eq!(found, want, "round {round}: {s:?} limit {limit}");
            assert_eq!(broken, end.map(|place| (29, place as i64)), "{s:?}");
            assert_eq!(stream.position(), s.len() as u64);
            assert!(matches!(stream.next_unit(), Ok(None) | Err(_)));
            ends += usize::from(end.is_some());
        }
        assert!(over > 1000 && ends > 1000, "{over} {ends}");
    }

    /// Reading on without asking for what is at hand loses nothing: a piece that is full waits.
    #[test]
    fn a_full_piece_waits() {
        let s = [0, 0, 0, 2, 9, 0xF0].repeat(50);
        let mut stream = LengthFramed::with(&s[..], Table::new(), 4, 20);
        for found in 0..50 {
            for _ in 0..9 {
                assert!(stream.read_more().unwrap() || found > 40);
            }
            let unit = stream.next_head().unwrap().unwrap();
            assert_eq!(unit.place, 6 * found + 4);
        }
        assert!(stream.next_head().unwrap().is_none());
        assert_eq!((stream.broken(), stream.piece.held()), (None, 24));
    }

    /// Exposures are those of the recording with start codes, whatever the pieces and the errors between them, and up to a broken length.
    #[test]
    fn exposures_are_those_of_start_codes() {
        let mut random = random(362436069362436069);
        let (mut all, mut slices, mut ends) = (0, 0, 0);
        for _ in 0..2_000 {
            let mut s = vec![];
            for _ in 0..random(12) {
                // IDR slices of two idr_pic_id and two QPs, and one that is cut
                let (id, qp) = ([0x84, 0x82][random(2)], [0xA0, 0x50][random(2)]);
                let unit = &[0x65, 0x88, id, qp, 0x80][..[5, 5, 1][random(3)]];
                s.extend((unit.len() as u32).to_be_bytes());
                s.extend(unit);
            }
            let coded = to_start_codes(&s).unwrap();
            let broken = (random(2) == 0).then_some(s.len() as i64);
            s.extend(broken.map_or(&[][..], |_| &[0, 0, 9]));
            let mut table = Table::sample();
            let mut whole = crate::exposures(reports(&mut table, &coded).unwrap());
            let source = drops(&s, 1 + random(9), [0, 2, 3][random(3)]);
            let piece = 1 + random(12);
            let mut framed = LengthFramed::with(source, Table::sample(), piece, LIMIT).exposures();
            let found: Vec<_> = framed.by_ref().filter_map(Result::ok).collect();
            assert_eq!(found, whole.by_ref().collect::<Vec<_>>(), "{s:?}");
            assert_eq!(framed.totals(), whole.totals(), "{s:?}");
            assert_eq!(framed.broken().map(|r| r.value), broken, "{s:?}");
            all += found.len() as u64;
            slices += framed.totals().slices;
            ends += usize::from(broken.is_some());
        }
        assert!(all > 1000 && slices > all + 1000, "{all} {slices}");
        assert!(ends > 100, "{ends}");
    }

    /// The reports are those of the recording with start codes, places aside, whatever the pieces: sets and slices in turn, some of them damaged.
    #[test]
    fn reports_are_those_of_start_codes() {
        let sps: &[u8] = &[0x67, 0x42, 0xC0, 0x0A, 0xDA, 0x0B, 0x13, 0x90];
        let (four, none): (&[u8], &[u8]) = (&[0x68, 0xCE, 0x04, 0x62], &[0x68, 0xCE, 0x38, 0x80]);
        let all = [sps, four, none, &[0x65, 0x88, 0x84, 0xA0], &[0x09, 0xF0]];
        let mut random = random(192876254517829);
        let mut qps = [0; 2];
        for _ in 0..5_000 {
            let mut s = vec![];
            for _ in 0..random(20) {
                let unit = all[random(5)];
                let unit = &unit[..unit.len() - random(3) * usize::from(random(4) == 0)];
                s.extend((unit.len() as u32).to_be_bytes());
                s.extend(unit);
            }
            let mut table = Table::new();
            let coded = to_start_codes(&s).unwrap();
            let whole: Vec<_> = reports(&mut table, &coded).unwrap().collect();
            let source = drops(&s, 1 + random(9), 0);
            let mut stream = LengthFramed::with(source, Table::new(), 1 + random(12), LIMIT);
            let mut found = vec![];
            while let Some(r) = stream.next_unit().unwrap() {
                if let Ok(Unit::Slice(slice)) = r.unit() {
                    qps[usize::from(slice.qp == 30)] += 1;
                }
                found.push((r.place as usize, r.unit()));
            }
            // a start code of four bytes stands where the length stood
            let whole: Vec<_> = whole.into_iter().map(|r| (r.place, r.unit)).collect();
            assert_eq!(found, whole, "{s:?}");
            assert_eq!((stream.table(), stream.broken()), (&table, None));
        }
        assert!(qps[0] > 100 && qps[1] > 100, "{qps:?}");
    }
}

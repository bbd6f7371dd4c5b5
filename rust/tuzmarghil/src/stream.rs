//! Recordings of any length, in bounded memory.
//!
//! The proved walk takes recordings of at most [`LIMIT`] bytes. A longer one, or one that is still arriving, is cut into windows: a window ends right before the
//! last mark (`00 00 00` or `00 00 01`) that has come. Nothing is lost by that. A start code never begins before a mark and reaches into it; and where the cut takes
//! away a unit's end mark, what is left of it are zero bytes, which the walk drops at a recording's end.

use crate::headers::{telling, Found, Framing, Lent};
use crate::piece::{Piece, PIECE};
use crate::raw::{self, HeadOut, ReadOut, Words};
use crate::{Reading, Refusal, Table, Unit, UnitHead, LIMIT};
use std::io::{self, Read};

/// A unit of a stream.
pub struct StreamReport<'a> {
    /// Where the unit begins, after its start code or its length.
    pub place: u64,
    /// How many bytes it has.
    pub length: u64,
    reading: Reading<'a>,
}

impl<'a> StreamReport<'a> {
    pub(crate) fn new(place: u64, length: u64, reading: Reading<'a>) -> StreamReport<'a> {
        StreamReport {
            place,
            length,
            reading,
        }
    }

    /// The unit's bytes; none where it is over [`LIMIT`].
    pub fn bytes(&self) -> &'a [u8] {
        self.reading.bytes()
    }

    /// What it holds, or why it is refused.
    pub fn unit(&self) -> Result<Unit, Refusal> {
        self.reading.unit()
    }

    /// The table in force: of a slice, the one that it was read by; of a set, with that set in it.
    pub fn table(&self) -> &'a Table {
        self.reading.table()
    }

    #[doc(hidden)]
    pub fn raw(&self) -> (&'a ReadOut, &'a Words) {
        self.reading.raw()
    }
}

/// A unit of a stream, with its head alone.
pub struct StreamHead<'a> {
    /// Where the unit begins, after its start code or its length.
    pub place: u64,
    /// How many bytes it has.
    pub length: u64,
    bytes: &'a [u8],
    head: HeadOut,
}

impl<'a> StreamHead<'a> {
    /// Of a unit that lies at hand, or, without bytes, of one over the limit.
    pub(crate) fn new(place: u64, length: u64, bytes: Option<&'a [u8]>) -> StreamHead<'a> {
        let too_long = HeadOut {
            number: 27,
            ..HeadOut::default()
        };
        StreamHead {
            place,
            length,
            bytes: bytes.unwrap_or(&[]),
            head: bytes.map_or(too_long, raw::head),
        }
    }

    /// The unit's bytes; none where it is over [`LIMIT`].
    pub fn bytes(&self) -> &'a [u8] {
        self.bytes
    }

    /// What its first bytes say, or why they are refused.
    pub fn head(&self) -> Result<UnitHead, Refusal> {
        self.head.told().map(UnitHead)
    }

    #[doc(hidden)]
    pub fn raw(&self) -> HeadOut {
        self.head
    }
}

/// A recording that is read piece by piece, and the table that goes with it: a parameter set that is read goes into it, and the slices behind it are read by that; one
/// that is refused leaves it as it was.
///
/// ```
/// use tuzmarghil::{Stream, Unit, UnitType};
///
/// let recording: &[u8] = &[0, 0, 0, 1, 0xE5, 0x88, 0, 0, 1, 0x09, 0xF0];
/// let mut found = vec![];
/// let mut stream = Stream::new(recording);
/// while let Some(report) = stream.next_unit()? {
///     found.push((report.place, report.length, report.unit()));
/// }
/// assert_eq!((found[0].0, found[0].1), (4, 2));
/// assert_eq!(found[0].2.as_ref().unwrap_err().number, 2);
/// assert_eq!(found[1], (9, 2, Ok(Unit::Other(UnitType::AccessUnitDelimiter))));
/// # Ok::<(), std::io::Error>(())
/// ```
///
/// What is held is a piece of the recording: 8 MiB, or, where a unit is longer, as much as it has, since [`StreamReport::bytes`] gives all of it. Headers are read where they
/// stand, so nothing is held twice but for a parameter set, and a unit that has all of [`LIMIT`] bytes but three or fewer.
///
/// An error of the source loses nothing: where it may be tried again, the next call goes on where this one stood.
pub struct Stream<R> {
    piece: Piece<R>,
    table: Table,
    /// The limit of a unit and a window: `LIMIT`, but for tests.
    limit: usize,
    /// The window is the piece up to here, walked up to `at`.
    window: usize,
    at: usize,
    /// No mark begins before here, but at the piece's front.
    searched: usize,
    /// A unit over the limit whose end has not come.
    long: Option<Long>,
    lent: Lent,
}

/// A unit over the limit: its place, and its end as far as it is seen, past its last byte that is not zero.
#[derive(Clone, Copy)]
struct Long {
    place: u64,
    end: u64,
}

impl<R: Read> Stream<R> {
    /// The recording that `source` gives, with an empty table.
    pub fn new(source: R) -> Stream<R> {
        Stream::with_table(source, Table::new())
    }

    /// The same, with sets to start with.
    ///
    /// ```
    /// use tuzmarghil::{Stream, Table, Unit};
    ///
    /// let recording: &[u8] = &[0, 0, 1, 0x65, 0x88, 0x84, 0xA0];
    /// let mut stream = Stream::with_table(recording, Table::sample());
    /// let report = stream.next_unit()?.unwrap();
    /// assert!(matches!(report.unit(), Ok(Unit::Slice(slice)) if slice.qp == 26));
    /// # Ok::<(), std::io::Error>(())
    /// ```
    pub fn with_table(source: R, table: Table) -> Stream<R> {
        Stream::with(source, table, PIECE, LIMIT)
    }

    fn with(source: R, table: Table, piece: usize, limit: usize) -> Stream<R> {
        Stream {
            piece: Piece::new(source, piece, limit + 6),
            table,
            limit,
            window: 0,
            at: 0,
            searched: 1,
            long: None,
            lent: Lent::new(),
        }
    }

    /// How far the recording is read; at its end, its length.
    pub fn position(&self) -> u64 {
        self.piece.base + self.at as u64
    }

    /// Reads from the source once; false where all has been read before.
    pub fn read_more(&mut self) -> io::Result<bool> {
        self.piece.read_more()
    }

    /// The next unit, and whether it is to be read.
    fn find(&mut self, read: bool) -> Option<Found> {
        loop {
            if self.at < self.window {
                if let Some((from, length, next)) = self.step(read) {
                    self.at = next;
                    let to = from + length;
                    return Some(Found::Unit { from, to });
                }
                self.at = self.window;
            }
            self.discard(self.window);
            if self.long.is_some() {
                return self.long_end();
            }
            if self.cut() {
                continue;
            }
            if self.piece.bytes().starts_with(&[0, 0, 1]) {
                return self.wide_unit(read);
            }
            // these bytes are in no unit, but that a start code may begin in the last two
            let whole = self.whole();
            let all = self.piece.ended && whole == self.piece.filled;
            self.discard(whole - if all { 0 } else { whole.min(2) });
            if whole < self.limit + 3 {
                return None;
            }
        }
    }

    /// A step of the walk in the window: a unit's place and length, and the place to go on from.
    fn step(&mut self, read: bool) -> Option<(usize, usize, usize)> {
        let window = &self.piece.bytes()[..self.window];
        if !read {
            let out = raw::next_unit(window, self.at);
            return (out.step == 1).then_some((out.place, out.length, out.next));
        }
        let (codes, table) = (Framing::StartCodes, &mut self.table);
        self.lent.step(codes, table, window, self.at);
        let out = &self.lent.out;
        (out.step == 1).then_some((out.place, out.length, out.next))
    }

    /// Drops the piece's first bytes; the window is then empty.
    fn discard(&mut self, n: usize) {
        if n > 0 {
            self.piece.discard(n);
            self.searched = 1;
        }
        (self.window, self.at) = (0, 0);
    }

    /// Sets the window: all that is left, or up to the last mark that is not at the front. False where neither is within the limit.
    fn cut(&mut self) -> bool {
        if self.piece.ended && self.piece.filled <= self.limit {
            self.window = self.piece.filled;
        } else {
            let whole = self.whole();
            match last_mark(&self.piece.bytes()[..whole], self.searched) {
                Some(last) => self.window = last,
                None => self.searched = self.searched.max(whole.saturating_sub(2)),
            }
        }
        self.window > 0
    }

    /// How many bytes are at hand, as far as a window can end in them.
    fn whole(&self) -> usize {
        self.piece.filled.min(self.limit + 3)
    }

    /// The unit at the front, where no window ends behind it: with its start code it is over the limit, or its end has not come.
    fn wide_unit(&mut self, read: bool) -> Option<Found> {
        let from = self.searched.max(3);
        let end = mark(&self.piece.bytes()[from..]).map(|end| end + from);
        if end.is_none() && !self.piece.ended {
            if self.piece.filled < self.limit + 6 {
                return None;
            }
            let (place, end) = (self.piece.base + 3, self.last_byte());
            self.long = Some(Long { place, end });
            self.discard(self.piece.filled - 2);
            return None;
        }
        let to = end.unwrap_or_else(|| (self.last_byte() - self.piece.base) as usize);
        let done = end.unwrap_or(self.piece.filled);
        (self.window, self.at) = (done, done);
        if to > 3 + self.limit {
            let (place, length) = (self.piece.base + 3, to as u64 - 3);
            return Some(Found::TooLong { place, length });
        }
        if read {
            self.lent.unit(&mut self.table, &self.piece.bytes()[3..to]);
        }
        Some(Found::Unit { from: 3, to })
    }

    /// The unit over the limit whose bytes are being passed over, where its end has come.
    fn long_end(&mut self) -> Option<Found> {
        let long = self.long?;
        let seen = long.end.max(self.last_byte());
        let (end, done) = match mark(self.piece.bytes()) {
            Some(found) => (self.piece.base + found as u64, found),
            None if self.piece.ended => (seen, self.piece.filled),
            None => {
                self.long = Some(Long { end: seen, ..long });
                self.discard(self.piece.filled.saturating_sub(2));
                return None;
            }
        };
        self.long = None;
        (self.window, self.at) = (done, done);
        let (place, length) = (long.place, end - long.place);
        Some(Found::TooLong { place, length })
    }

    /// The place after the piece's last byte that is not zero; 0 where there is none.
    fn last_byte(&self) -> u64 {
        let last = self.piece.bytes().iter().rposition(|b| *b != 0);
        last.map_or(0, |i| self.piece.base + i as u64 + 1)
    }
}

telling!(
    Stream,
    "The next unit; nothing at the end. A unit is there as soon as its end mark has come."
);

/// The first place of a mark: two zeros and a byte up to 1.
fn mark(s: &[u8]) -> Option<usize> {
    let mut i = 0;
    while i + 2 < s.len() {
        match &s[i..i + 3] {
            [0, 0, 0 | 1] => return Some(i),
            // a byte over 1 is in no mark
            [.., 2..=255] => i += 3,
            _ => i += 1,
        }
    }
    None
}

/// The last one, from `from` on.
fn last_mark(s: &[u8], from: usize) -> Option<usize> {
    let mut end = s.len();
    while end >= from + 3 {
        match &s[end - 3..end] {
            [0, 0, 0 | 1] => return Some(end - 3),
            [2..=255, ..] => end -= 3,
            _ => end -= 1,
        }
    }
    None
}

#[cfg(test)]
pub(crate) mod tests {
    use super::*;

    /// Units by definition, over the whole recording: place, length.
    fn units(s: &[u8]) -> Vec<(u64, u64)> {
        let mut found = vec![];
        for i in 0..s.len().saturating_sub(2) {
            if s[i..i + 3] == [0, 0, 1] {
                let rest = &s[i + 3..];
                let length = match rest.windows(3).position(|w| w[..2] == [0, 0] && w[2] < 2) {
                    Some(end) => end,
                    None => rest.iter().rposition(|b| *b != 0).map_or(0, |i| i + 1),
                };
                found.push((i as u64 + 3, length as u64));
            }
        }
        found
    }

    pub(crate) fn random(seed: u64) -> impl FnMut(usize) -> usize {
        let mut x = seed;
        move |n: usize| {
            x ^= x << 13;
            x ^= x >> 7;
            x ^= x << 17;
            (x >> 11) as usize % n
        }
    }

    /// A source that gives few bytes at a time, and fails before every so many reads.
    pub(crate) struct Drops<'a> {
        bytes: &'a [u8],
        most: usize,
        fails: usize,
        reads: usize,
    }

    impl Read for Drops<'_> {
        fn read(&mut self, to: &mut [u8]) -> io::Result<usize> {
            self.reads += 1;
            if self.fails > 0 && self.reads % self.fails == 0 {
                return Err(io::ErrorKind::WouldBlock.into());
            }
            let n = self.most.min(to.len()).min(self.bytes.len());
            to[..n].copy_from_slice(&self.bytes[..n]);
            self.bytes = &self.bytes[n..];
            Ok(n)
        }
    }

    pub(crate) fn drops(bytes: &[u8], most: usize, fails: usize) -> Drops<'_> {
        Drops {
            bytes,
            most,
            fails,
            reads: 0,
        }
    }

    /// A unit over the limit is read by no proved code: what the one before it left is gone all the same.
    #[test]
    fn too_long_leaves_nothing() {
        let mut s = vec![0, 0, 1, 0x6E, 0x80, 0, 7, 0xD1, 0xA0]; // a prefix unit with one base marking
        s.extend([0, 0, 1].iter().chain(&[0x65; 30]));
        let mut stream = Stream::with(&s[..], Table::new(), 12, 20);
        let prefix = stream.next_unit().unwrap().unwrap();
        let (read, words) = prefix.raw();
        let told = (read.answer, read.prefix.base_markings);
        assert_eq!((told, words.base[0]), ((2, 1), 1));
        let long = stream.next_unit().unwrap().unwrap();
        assert_eq!((long.length, long.bytes()), (30, &[][..]));
        assert_eq!(long.unit().unwrap_err().number, 27);
        let (read, words) = long.raw();
        assert_eq!(read.prefix, ReadOut::default().prefix);
        assert_eq!(*words, Words::default());
    }

    /// Whatever the pieces, the limit, and errors between them that may be tried again.
    #[test]
    fn windows_lose_nothing() {
        let mut random = random(88172645463325252);
        for round in 0..60_000 {
            let length = random(60);
            let s: Vec<u8> = (0..length)
                .map(|_| [0, 0, 0, 1, 3, 0x65][random(6)])
                .collect();
            let limit = 1 + random(20);
            let source = drops(&s, 1 + random(9), [0, 0, 2, 3, 7][random(5)]);
            let mut stream = Stream::with(source, Table::new(), 1 + random(12), limit);
            let mut found = vec![];
            loop {
                let r = match stream.next_unit() {
                    Ok(None) => break,
                    Ok(Some(r)) => r,
                    Err(e) => {
                        assert_eq!(e.kind(), io::ErrorKind::WouldBlock);
                        continue;
                    }
                };
                let over = r.length > limit as u64;
                let read = r.raw().0;
                assert_eq!(over, read.answer == 3 && read.number == 27, "{s:?} {limit}");
                let from = r.place as usize;
                let bytes = &s[from..from + r.length as usize];
                assert!(over || r.bytes() == bytes, "{s:?}");
                found.push((r.place, r.length));
            }
            assert_eq!(found, units(&s), "round {round}: {s:?} limit {limit}");
            assert_eq!(stream.position(), s.len() as u64);
        }
    }

    /// Sets and slices in turn, some of them damaged: the table goes from window to window, so pieces and limits change no report, QP included.
    #[test]
    fn windows_carry_the_table() {
        let sps: &[u8] = &[0x67, 0x42, 0xC0, 0x0A, 0xDA, 0x0B, 0x13, 0x90];
        let (four, none): (&[u8], &[u8]) = (&[0x68, 0xCE, 0x04, 0x62], &[0x68, 0xCE, 0x38, 0x80]);
        let units = [sps, four, none, &[0x65, 0x88, 0x84, 0xA0], &[0x09, 0xF0]];
        let mut random = random(192876254517829);
        let mut qps = [0; 2];
        for _ in 0..5_000 {
            let mut s = vec![];
            for _ in 0..random(20) {
                s.extend([0, 0, 1]);
                let unit = units[random(5)];
                s.extend(&unit[..unit.len() - random(3) * usize::from(random(4) == 0)]);
            }
            let mut table = Table::new();
            let whole: Vec<_> = crate::reports(&mut table, &s).unwrap().collect();
            // the longest unit has 8 bytes: with this limit it is wide
            let (piece, limit) = (1 + random(12), 8 + random(40));
            let mut stream = Stream::with(drops(&s, 1 + random(9), 0), Table::new(), piece, limit);
            let mut found = vec![];
            while let Some(r) = stream.next_unit().unwrap() {
                if let Ok(Unit::Slice(slice)) = r.unit() {
                    qps[usize::from(slice.qp == 30)] += 1;
                }
                found.push((r.place as usize, r.unit()));
            }
            let whole: Vec<_> = whole.into_iter().map(|r| (r.place, r.unit)).collect();
            assert_eq!(found, whole, "{s:?}");
            assert_eq!(*stream.table(), table);
        }
        assert!(qps[0] > 100 && qps[1] > 100, "{qps:?}");
    }

    /// A unit is there as soon as its end mark has come, whatever its length.
    #[test]
    fn no_unit_waits() {
        let mut random = random(362436069362436069);
        for _ in 0..5_000 {
            let s: Vec<u8> = (0..random(60))
                .map(|_| [0, 0, 0, 1, 3, 0x65][random(6)])
                .collect();
            let (piece, limit) = (1 + random(12), 1 + random(20));
            let mut stream = Stream::with(drops(&s, 1, 0), Table::new(), piece, limit);
            while let Some(r) = stream.next_unit().unwrap() {
                let needed = (r.place + r.length + 3).min(s.len() as u64);
                let given = stream.piece.base + stream.piece.filled as u64;
                // the byte behind a start code shows whether it was one
                assert!(given <= needed, "{s:?}");
            }
        }
    }

    /// Heads alone, or units in turn with heads: the same units, and what reading the others gives does not change.
    #[test]
    fn heads_are_of_the_same_units() {
        let mut random = random(521288629521288629);
        for _ in 0..5_000 {
            let s: Vec<u8> = (0..random(60))
                .map(|_| [0, 0, 0, 1, 3, 0x65, 0x6E, 0xE5][random(8)])
                .collect();
            let (piece, limit) = (1 + random(12), 1 + random(20));
            let open = || Stream::with(&s[..], Table::new(), piece, limit);
            let (mut units, mut heads, mut both) = (open(), open(), open());
            while let Some(r) = units.next_unit().unwrap() {
                let head = heads.next_head().unwrap().unwrap();
                assert_eq!((head.place, head.length), (r.place, r.length), "{s:?}");
                assert_eq!(head.bytes(), r.bytes());
                let refused = r
                    .unit()
                    .err()
                    .filter(|r| matches!(r.number, 1 | 2 | 4 | 27));
                assert_eq!(head.head().err(), refused, "{s:?}");
                if random(2) == 0 {
                    let r = both.next_head().unwrap().unwrap();
                    assert_eq!((r.place, r.head()), (head.place, head.head()));
                } else {
                    let again = both.next_unit().unwrap().unwrap();
                    assert_eq!((again.place, again.unit()), (r.place, r.unit()), "{s:?}");
                }
            }
            assert!(heads.next_head().unwrap().is_none());
            assert!(both.next_head().unwrap().is_none());
            assert_eq!(heads.position(), units.position());
        }
    }

    /// What is in no unit takes no memory.
    #[test]
    fn zeros_take_no_memory() {
        let zeros = io::repeat(0).take(100_000);
        let unit: &[u8] = &[0, 0, 1, 0x65];
        let source = zeros.chain(unit).chain(io::repeat(0).take(100_000));
        let mut stream = Stream::with(source.chain(unit), Table::new(), 64, 50_000);
        for place in [100_003, 200_007] {
            let r = stream.next_unit().unwrap().unwrap();
            assert_eq!((r.place, r.length), (place, 1));
        }
        assert!(stream.next_unit().unwrap().is_none());
        assert_eq!((stream.piece.held(), stream.position()), (64, 200_008));
    }
}

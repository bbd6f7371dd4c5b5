//! The bytes of a recording that are at hand, and their place in it.

use std::io::{self, Read};

/// How much is read at a time; more is held where a unit is longer.
pub(crate) const PIECE: usize = 8 << 20;

/// A piece of the recording that a source gives. It goes forward: bytes are dropped at its front, and read at its end.
pub(crate) struct Piece<R> {
    source: R,
    /// The source has given all.
    pub(crate) ended: bool,
    buffer: Vec<u8>,
    /// How many bytes of the buffer hold the recording, and the place of the first.
    pub(crate) filled: usize,
    pub(crate) base: u64,
    /// The buffer's greatest length.
    most: usize,
}

impl<R: Read> Piece<R> {
    /// Of `length` bytes at first, and never over `most`.
    pub(crate) fn new(source: R, length: usize, most: usize) -> Piece<R> {
        Piece {
            source,
            ended: false,
            buffer: vec![0; length.min(most)],
            filled: 0,
            base: 0,
            most,
        }
    }

    pub(crate) fn bytes(&self) -> &[u8] {
        &self.buffer[..self.filled]
    }

    /// How much memory it takes.
    #[cfg(test)]
    pub(crate) fn held(&self) -> usize {
        self.buffer.len()
    }

    /// Drops its first bytes.
    pub(crate) fn discard(&mut self, n: usize) {
        if n > 0 {
            self.buffer.copy_within(n..self.filled, 0);
            self.base += n as u64;
            self.filled -= n;
        }
    }

    /// Reads from the source once; false where all has been read before.
    pub(crate) fn read_more(&mut self) -> io::Result<bool> {
        if self.ended {
            return Ok(false);
        }
        if self.filled == self.buffer.len() {
            let more = (self.buffer.len() * 2).min(self.most);
            // no longer than that: a unit can have as many bytes as nearly all of what we promise to need
            self.buffer.reserve_exact(more - self.filled);
            self.buffer.resize(more, 0);
        }
        let room = &mut self.buffer[self.filled..];
        if room.is_empty() {
            // what is at hand was not asked for
            return Ok(true);
        }
        loop {
            match self.source.read(room) {
                Ok(0) => self.ended = true,
                Ok(n) => self.filled += n,
                Err(e) if e.kind() == io::ErrorKind::Interrupted => continue,
                Err(e) => return Err(e),
            }
            return Ok(true);
        }
    }
}

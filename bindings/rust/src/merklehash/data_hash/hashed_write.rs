//! A writer that hashes what is written.

use super::DataHash;
use crate::own::Hasher;
use std::io::{self, ErrorKind, Write};

/// A writer that passes bytes on to an inner writer, and hashes the bytes that the inner writer takes.
///
/// This type is only tested, not proved. It is generic over the inner writer, which can't be passed to the library. The
/// hasher is the library's.
///
/// ```
/// use std::io::Write;
/// use yurewha::merklehash::{compute_data_hash, HashedWrite};
///
/// let mut writer = HashedWrite::new(Vec::new());
/// writer.write_all(b"some ")?;
/// writer.write_all(b"data")?;
/// assert_eq!(writer.hash(), compute_data_hash(b"some data"));
/// assert_eq!(writer.into_inner(), b"some data");
/// # Ok::<(), std::io::Error>(())
/// ```
#[derive(Debug)]
pub struct HashedWrite<W: Write> {
    hasher: Hasher,
    writer: W,
}

impl<W: Write> HashedWrite<W> {
    /// Hashes what is written to `writer` from now on.
    pub fn new(writer: W) -> Self {
        HashedWrite {
            hasher: Hasher::new_data(),
            writer,
        }
    }

    /// Returns the hash of the bytes that were taken so far. It is that of
    /// [`compute_data_hash`](super::compute_data_hash).
    pub fn hash(&self) -> DataHash {
        self.hasher.finalize()
    }

    /// Returns the inner writer. It isn't flushed.
    pub fn into_inner(self) -> W {
        self.writer
    }
}

impl<W: Write> Write for HashedWrite<W> {
    /// Calls the inner writer once, and returns its result. After `Ok(k)` the first `k` bytes are hashed. After an
    /// error none are. If more than `u64::MAX` bytes would be hashed, the inner writer isn't called and the error is
    /// [`InvalidInput`](ErrorKind::InvalidInput).
    fn write(&mut self, slice: &[u8]) -> io::Result<usize> {
        if !self.hasher.has_room(slice.len()) {
            return Err(ErrorKind::InvalidInput.into());
        }
        let taken = self.writer.write(slice)?;
        self.hasher.write_all(&slice[..taken.min(slice.len())])?;
        Ok(taken)
    }

    fn flush(&mut self) -> io::Result<()> {
        self.writer.flush()
    }
}

#[cfg(test)]
mod tests {
    use super::*;

    #[test]
    fn what_can_not_be_hashed_is_not_written() {
        let mut writer = HashedWrite {
            hasher: Hasher::with_room(5),
            writer: Vec::new(),
        };
        assert_eq!(writer.write(b"abcdef").unwrap_err().kind(), ErrorKind::InvalidInput);
        assert_eq!(writer.writer, b"");
        assert_eq!(writer.write(b"abcde").unwrap(), 5);
        assert_eq!(writer.write(b"f").unwrap_err().kind(), ErrorKind::InvalidInput);
        assert_eq!(writer.into_inner(), b"abcde");
    }
}

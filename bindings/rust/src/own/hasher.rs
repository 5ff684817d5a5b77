//! Keyed BLAKE3 of a message in pieces.

use crate::error::Result;
use crate::ffi;
use crate::merklehash::data_hash::DataHash;
use crate::status::{answer, given, plain};
use std::io::{self, ErrorKind, Read, Write};
use std::{fmt, ptr};

#[cfg(feature = "digest")]
mod digest;

/// A hasher that takes a message in pieces. It is also a [`Write`]. It allocates nothing. A clone copies its state of
/// about two kilobytes. It has no form in serde: the state reveals the key, and no call can check a state that is read.
///
/// ```
/// use yurewha::merklehash::compute_data_hash;
/// use yurewha::own::Hasher;
///
/// let mut hasher = Hasher::new_data();
/// hasher.update(b"some ");
/// let mut other = hasher.clone();
/// assert_eq!(hasher.update(b"data").finalize(), compute_data_hash(b"some data"));
/// assert_eq!(other.update(b"more").finalize(), compute_data_hash(b"some more"));
/// ```
#[derive(Clone)]
pub struct Hasher {
    state: ffi::yurewha_hasher,
    key: Key,
}

// The key with which a hasher begins.
#[derive(Clone, Copy)]
enum Key {
    Data,
    InternalNode,
    Own([u8; 32]),
}

// How many bytes `update_reader` reads at once.
const PIECE: usize = 16 * 1024;

impl Hasher {
    /// Returns a hasher of the empty message. It computes the same hash as
    /// [`compute_data_hash`](crate::merklehash::compute_data_hash).
    ///
    /// ```
    /// use yurewha::merklehash::compute_data_hash;
    /// use yurewha::own::Hasher;
    ///
    /// assert_eq!(Hasher::new_data().finalize(), compute_data_hash(b""));
    /// ```
    #[must_use]
    pub fn new_data() -> Self {
        Self::begun(Key::Data)
    }

    /// Returns a hasher of the empty message. It computes the same hash as
    /// [`compute_internal_node_hash`](crate::merklehash::compute_internal_node_hash).
    ///
    /// ```
    /// use yurewha::merklehash::compute_internal_node_hash;
    /// use yurewha::own::Hasher;
    ///
    /// assert_eq!(Hasher::new_internal_node().finalize(), compute_internal_node_hash(b""));
    /// ```
    #[must_use]
    pub fn new_internal_node() -> Self {
        Self::begun(Key::InternalNode)
    }

    /// Returns a hasher of the empty message under a key.
    ///
    /// ```
    /// use yurewha::merklehash::DataHash;
    /// use yurewha::own::Hasher;
    ///
    /// let (hash, key) = (DataHash::random_from_seed(1), DataHash::random_from_seed(2));
    /// let mut hasher = Hasher::new_keyed(&key.into());
    /// assert_eq!(hasher.update(hash.as_bytes()).finalize(), hash.hmac(key));
    /// ```
    #[must_use]
    pub fn new_keyed(key: &[u8; 32]) -> Self {
        Self::begun(Key::Own(*key))
    }

    fn begun(key: Key) -> Self {
        let mut state = ffi::yurewha_hasher::ROOM;
        // SAFETY: a hasher to write to, and 32 bytes, as the header's struct has them.
        unsafe {
            match &key {
                Key::Data => ffi::yurewha_hasher_begin_data(&mut state),
                Key::InternalNode => ffi::yurewha_hasher_begin_internal(&mut state),
                Key::Own(key) => ffi::yurewha_hasher_begin_keyed(&mut state, ptr::from_ref(key).cast()),
            }
        }
        Hasher { state, key }
    }

    /// Goes back to the empty message. The key stays the same.
    ///
    /// ```
    /// use yurewha::merklehash::compute_data_hash;
    /// use yurewha::own::Hasher;
    ///
    /// let mut hasher = Hasher::new_data();
    /// hasher.update(b"another message");
    /// assert_eq!(hasher.reset().update(b"some data").finalize(), compute_data_hash(b"some data"));
    /// ```
    pub fn reset(&mut self) -> &mut Self {
        *self = Self::begun(self.key);
        self
    }

    /// Returns the length of the message in bytes.
    ///
    /// ```
    /// use yurewha::own::Hasher;
    ///
    /// assert_eq!(Hasher::new_data().update(b"some ").count(), 5);
    /// ```
    #[must_use]
    pub fn count(&self) -> u64 {
        // SAFETY: a hasher that was begun.
        unsafe { ffi::yurewha_hasher_count(&self.state) }
    }

    /// Returns whether the message would have at most `u64::MAX` bytes after a piece of this length.
    ///
    /// ```
    /// use yurewha::own::Hasher;
    ///
    /// assert!(Hasher::new_data().has_room(1 << 20));
    /// ```
    #[must_use]
    pub fn has_room(&self, length: usize) -> bool {
        u64::try_from(length).is_ok_and(|length| self.count().checked_add(length).is_some())
    }

    /// Appends a piece to the message.
    ///
    /// ```
    /// use yurewha::merklehash::compute_data_hash;
    /// use yurewha::own::Hasher;
    ///
    /// let hash = Hasher::new_data().update(b"some ").update(b"data").finalize();
    /// assert_eq!(hash, compute_data_hash(b"some data"));
    /// ```
    ///
    /// # Panics
    ///
    /// If the message would have more than `u64::MAX` bytes; see [`try_update`](Self::try_update).
    #[track_caller]
    pub fn update(&mut self, piece: &[u8]) -> &mut Self {
        plain("Hasher::update", self.try_update(piece))
    }

    /// Does the same as [`update`](Self::update), but returns an error where that panics.
    ///
    /// ```
    /// use yurewha::merklehash::compute_data_hash;
    /// use yurewha::own::Hasher;
    ///
    /// let mut hasher = Hasher::new_data();
    /// assert_eq!(hasher.try_update(b"some data")?.finalize(), compute_data_hash(b"some data"));
    /// # Ok::<(), yurewha::error::CoreError>(())
    /// ```
    ///
    /// # Errors
    ///
    /// [`SizeOverflow`](crate::error::CoreError::SizeOverflow) if the message would have more than `u64::MAX` bytes. It is
    /// unchanged then.
    pub fn try_update(&mut self, piece: &[u8]) -> Result<&mut Self> {
        // SAFETY: a hasher that was begun, and bytes of their length.
        answer(|(): &mut ()| unsafe { ffi::yurewha_hasher_update(&mut self.state, piece.as_ptr(), piece.len()) })?;
        Ok(self)
    }

    /// Appends everything from a reader. An interrupted read is repeated.
    ///
    /// ```
    /// use yurewha::merklehash::compute_data_hash;
    /// use yurewha::own::Hasher;
    ///
    /// let mut hasher = Hasher::new_data();
    /// assert_eq!(hasher.update_reader(&b"some data"[..])?.finalize(), compute_data_hash(b"some data"));
    /// # Ok::<(), std::io::Error>(())
    /// ```
    ///
    /// # Errors
    ///
    /// The error of the reader, or [`InvalidInput`](ErrorKind::InvalidInput) if the message would have more than
    /// `u64::MAX` bytes. The message keeps what was read before the error.
    pub fn update_reader(&mut self, mut reader: impl Read) -> io::Result<&mut Self> {
        let mut piece = [0; PIECE];
        loop {
            match reader.read(&mut piece) {
                Ok(0) => return Ok(self),
                Ok(length) => self.write_all(&piece[..length])?,
                Err(error) if error.kind() == ErrorKind::Interrupted => {}
                Err(error) => return Err(error),
            }
        }
    }

    /// Returns the keyed hash of the message. The hasher can take more pieces.
    ///
    /// ```
    /// use yurewha::own::Hasher;
    ///
    /// let mut hasher = Hasher::new_data();
    /// let empty = hasher.finalize();
    /// assert_ne!(hasher.update(b"some data").finalize(), empty);
    /// ```
    #[must_use]
    pub fn finalize(&self) -> DataHash {
        // SAFETY: a hasher that was begun, and a hash to write to.
        given(|hash: &mut DataHash| unsafe { ffi::yurewha_hasher_finalize(&self.state, hash.out()) })
    }
}

/// A hasher of the empty message, as [`new_data`](Hasher::new_data) returns it.
impl Default for Hasher {
    fn default() -> Self {
        Self::new_data()
    }
}

impl Write for Hasher {
    /// Appends the whole piece. Fails with [`InvalidInput`](ErrorKind::InvalidInput) if the message would have more
    /// than `u64::MAX` bytes.
    fn write(&mut self, piece: &[u8]) -> io::Result<usize> {
        self.try_update(piece).map_err(|_| ErrorKind::InvalidInput)?;
        Ok(piece.len())
    }

    fn flush(&mut self) -> io::Result<()> {
        Ok(())
    }
}

/// Shows only the length. The rest would reveal the key.
impl fmt::Debug for Hasher {
    fn fmt(&self, f: &mut fmt::Formatter<'_>) -> fmt::Result {
        f.debug_struct("Hasher")
            .field("count", &self.count())
            .finish_non_exhaustive()
    }
}

#[cfg(test)]
impl Hasher {
    // A hasher whose message may have so many more bytes.
    pub(crate) fn with_room(length: u64) -> Self {
        let mut hasher = Hasher::new_data();
        // The word of the state that is the length of the message.
        let of_message = hasher.clone().update(&[0; 12345]).state.state;
        let count = of_message.iter().position(|&word| word == 12345).unwrap();
        hasher.state.state[count] = u64::MAX - length;
        hasher
    }
}

#[cfg(test)]
mod tests {
    use super::*;
    use crate::error::CoreError;
    use std::panic::{catch_unwind, AssertUnwindSafe};

    #[test]
    fn a_message_past_the_greatest_length_is_refused_and_left_as_it_was() {
        let mut hasher = Hasher::with_room(5);
        assert!(hasher.has_room(5) && !hasher.has_room(6));
        assert_eq!(hasher.try_update(&[0; 6]).err(), Some(CoreError::SizeOverflow));
        assert_eq!(hasher.write(&[0; 6]).unwrap_err().kind(), ErrorKind::InvalidInput);
        let error = hasher.update_reader(&[0; 6][..]).unwrap_err();
        assert_eq!(error.kind(), ErrorKind::InvalidInput);
        let panic = catch_unwind(AssertUnwindSafe(|| _ = hasher.update(&[0; 6]))).unwrap_err();
        assert_eq!(panic.downcast_ref::<String>().unwrap(), "Hasher::update: size overflow");
        assert_eq!(hasher.count(), u64::MAX - 5);
    }
}

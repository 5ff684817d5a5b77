//! The hash of a file in pieces.

use crate::error::{CoreError, Result};
use crate::ffi;
use crate::handle::Owned;
use crate::merklehash::MerkleHash;
use crate::status::{answer, done, plain, told};
use std::fmt;
use std::io::{self, ErrorKind, Write};

/// Hashes a file that comes in pieces. It cuts the bytes into chunks as [`Chunker`](super::Chunker) does, hashes these, and keeps
/// none of the bytes: if its chunks differ, and pieces have up to 1 MiB, it takes less than 1 MB. It is also a
/// [`Write`].
///
/// ```
/// use std::io::{self, Write};
/// use yurewha::merklehash::{compute_data_hash, file_hash};
/// use yurewha::own::FileHasher;
///
/// let mut hasher = FileHasher::new();
/// hasher.update(b"a short ")?;
/// io::copy(&mut &b"file"[..], &mut hasher)?;
/// // It is one chunk.
/// assert_eq!(hasher.file_hash()?, file_hash(&[(compute_data_hash(b"a short file"), 12)]));
/// # Ok::<(), Box<dyn std::error::Error>>(())
/// ```
///
/// [`hash_file`](super::hash_file) and [`hash_reader`](super::hash_reader) also read the file, on several threads.
pub struct FileHasher(Owned<ffi::yurewha_file_hasher>);

impl FileHasher {
    /// Returns a hasher of the empty file.
    ///
    /// ```
    /// use yurewha::merklehash::MerkleHash;
    /// use yurewha::own::FileHasher;
    ///
    /// assert_eq!(FileHasher::new().file_hash(), Ok(MerkleHash::default()));
    /// ```
    ///
    /// # Panics
    ///
    /// If an allocation fails; see [`try_new`](Self::try_new).
    #[must_use]
    #[track_caller]
    pub fn new() -> Self {
        plain("FileHasher::new", Self::try_new())
    }

    /// Does the same as [`new`](Self::new), but returns an error if an allocation fails.
    ///
    /// ```
    /// use yurewha::own::FileHasher;
    ///
    /// assert_eq!(FileHasher::try_new()?.size(), 0);
    /// # Ok::<(), yurewha::error::CoreError>(())
    /// ```
    ///
    /// # Errors
    ///
    /// [`OutOfMemory`](CoreError::OutOfMemory) if an allocation fails
    pub fn try_new() -> Result<Self> {
        // SAFETY: an empty handle to write to.
        answer(|made: &mut Owned<_>| unsafe { ffi::yurewha_file_hasher_new(made.get_mut()) }).map(FileHasher)
    }

    /// Appends a piece to the file.
    ///
    /// ```
    /// use yurewha::own::FileHasher;
    ///
    /// let whole = FileHasher::new().update(b"a short file")?.file_hash()?;
    /// assert_eq!(FileHasher::new().update(b"a short ")?.update(b"file")?.file_hash()?, whole);
    /// # Ok::<(), yurewha::error::CoreError>(())
    /// ```
    ///
    /// # Errors
    ///
    /// - [`SizeOverflow`](CoreError::SizeOverflow) if the file would have more than `u64::MAX` bytes
    /// - otherwise [`OutOfMemory`](CoreError::OutOfMemory) if an allocation fails
    ///
    /// Nothing of the piece is taken then.
    pub fn update(&mut self, piece: &[u8]) -> Result<&mut Self> {
        let (bytes, length) = (piece.as_ptr(), piece.len());
        // SAFETY: a handle, and bytes of their length.
        done(unsafe { ffi::yurewha_file_hasher_update(self.0.get_mut(), bytes, length) })?;
        Ok(self)
    }

    /// Returns how many bytes the file has so far.
    ///
    /// ```
    /// use yurewha::own::FileHasher;
    ///
    /// assert_eq!(FileHasher::new().update(b"a short ")?.size(), 8);
    /// # Ok::<(), yurewha::error::CoreError>(())
    /// ```
    #[must_use]
    pub fn size(&self) -> u64 {
        // SAFETY: a handle, and a number to write to.
        told(|size| unsafe { ffi::yurewha_file_hasher_size(&mut *self.0.lock(), size) })
    }

    /// Returns the root of the chunks of the file so far, as [`xorb_hash`](crate::merklehash::xorb_hash) does. More pieces can follow.
    ///
    /// ```
    /// use yurewha::merklehash::compute_data_hash;
    /// use yurewha::own::FileHasher;
    ///
    /// assert_eq!(FileHasher::new().update(b"a short file")?.root()?, compute_data_hash(b"a short file"));
    /// # Ok::<(), yurewha::error::CoreError>(())
    /// ```
    ///
    /// # Errors
    ///
    /// [`OutOfMemory`](CoreError::OutOfMemory) if an allocation fails
    pub fn root(&self) -> Result<MerkleHash> {
        // SAFETY: a handle, and a hash to write to.
        answer(|hash: &mut MerkleHash| unsafe { ffi::yurewha_file_hasher_root(&mut *self.0.lock(), hash.out()) })
    }

    /// Returns the file hash of the file so far: the hash by which Xet names a file of these bytes. More pieces can follow.
    ///
    /// ```
    /// use yurewha::own::FileHasher;
    ///
    /// let mut hasher = FileHasher::new();
    /// let before = hasher.update(b"a short ")?.file_hash()?;
    /// assert_ne!(hasher.update(b"file")?.file_hash()?, before);
    /// # Ok::<(), yurewha::error::CoreError>(())
    /// ```
    ///
    /// # Errors
    ///
    /// [`OutOfMemory`](CoreError::OutOfMemory) if an allocation fails
    pub fn file_hash(&self) -> Result<MerkleHash> {
        // SAFETY: a handle, and a hash to write to.
        answer(|hash: &mut MerkleHash| unsafe { ffi::yurewha_file_hasher_finish(&mut *self.0.lock(), hash.out()) })
    }

    /// Returns the file hash under a salt of the file so far. More pieces can follow.
    ///
    /// ```
    /// use yurewha::own::FileHasher;
    ///
    /// let mut hasher = FileHasher::new();
    /// hasher.update(b"a short file")?;
    /// assert_eq!(hasher.file_hash_with_salt(&[0; 32]), hasher.file_hash());
    /// assert_ne!(hasher.file_hash_with_salt(&[7; 32]), hasher.file_hash());
    /// # Ok::<(), yurewha::error::CoreError>(())
    /// ```
    ///
    /// # Errors
    ///
    /// [`OutOfMemory`](CoreError::OutOfMemory) if an allocation fails
    pub fn file_hash_with_salt(&self, salt: &[u8; 32]) -> Result<MerkleHash> {
        // SAFETY: a handle, 32 bytes, as the header's struct has them, and a hash to write to.
        answer(|hash: &mut MerkleHash| unsafe {
            ffi::yurewha_file_hasher_finish_with_salt(&mut *self.0.lock(), salt.as_ptr().cast(), hash.out())
        })
    }
}

impl Default for FileHasher {
    /// A hasher of the empty file.
    #[track_caller]
    fn default() -> Self {
        Self::new()
    }
}

impl Write for FileHasher {
    /// Appends the whole piece. Where [`update`](FileHasher::update) is refused, this fails with
    /// [`OutOfMemory`](ErrorKind::OutOfMemory), or with [`InvalidInput`](ErrorKind::InvalidInput) if the file would be too long.
    fn write(&mut self, piece: &[u8]) -> io::Result<usize> {
        self.update(piece).map_err(kind_of)?;
        Ok(piece.len())
    }

    fn flush(&mut self) -> io::Result<()> {
        Ok(())
    }
}

// The kind of a refusal for a writer.
fn kind_of(error: CoreError) -> ErrorKind {
    match error {
        CoreError::OutOfMemory => ErrorKind::OutOfMemory,
        _ => ErrorKind::InvalidInput,
    }
}

/// Shows the number of bytes.
impl fmt::Debug for FileHasher {
    fn fmt(&self, f: &mut fmt::Formatter<'_>) -> fmt::Result {
        f.debug_struct("FileHasher")
            .field("size", &self.size())
            .finish_non_exhaustive()
    }
}

#[cfg(test)]
mod tests {
    use super::*;

    // No test can write so much.
    #[test]
    fn a_file_that_is_too_long_is_no_lack_of_memory() {
        assert_eq!(kind_of(CoreError::SizeOverflow), ErrorKind::InvalidInput);
        assert_eq!(kind_of(CoreError::OutOfMemory), ErrorKind::OutOfMemory);
    }
}

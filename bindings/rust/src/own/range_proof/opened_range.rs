//! A range of a file's chunks that a range proof shows.

use super::RangeProof;
use crate::error::{CoreError, Result};
use crate::ffi;
use crate::handle::Shared;
use crate::merklehash::MerkleHash;
use crate::status::{plain, told, told_if_shown, told_if_there};
use std::fmt;
use std::ops::Range;

/// A range of a file's chunks, and where in the file it is, as a range proof shows it. It checks the chunks' data as they
/// arrive, in any order.
///
/// If [`check`](Self::check) or [`read`](Self::read) accepts data, each file with the hash that the proof was opened with
/// has this data at this place, and is as long as [`file_size`](Self::file_size) says. Otherwise two messages with one
/// BLAKE3 hash were found. The library is proved to have this property; a file is here a list of chunks.
///
/// **Until data was accepted**, the places and the file's size are the proof's own word. They tell a reader where to cut,
/// and no more.
///
/// ```
/// use yurewha::merklehash::compute_data_hash;
/// use yurewha::own::HashTree;
///
/// let chunks = [&b"a chunk"[..], b"another", b"and a third"].map(|data| (compute_data_hash(data), data.len() as u64));
/// let tree = HashTree::from_chunks(&chunks)?;
/// let range = tree.proof(1..3)?.open(&tree.file_hash())?;
/// // Chunk by chunk, in any order; the chunks of the range count from 0.
/// assert_eq!(range.check(1, b"and a third"), Some(14));
/// assert_eq!(range.check(0, b"another"), Some(7));
/// assert_eq!(range.check(0, b"a chunk"), None);
/// // Or all at once.
/// assert_eq!(range.read(12..17, b"anotherand a third"), Some(&b"erand"[..]));
/// # Ok::<(), Box<dyn std::error::Error>>(())
/// ```
///
/// An opened range never changes, so threads that share it check data at once, and none waits for another.
pub struct OpenedRange {
    handle: Shared<ffi::yurewha_opened_range>,
    proof: RangeProof,
    shown: Shown,
}

// What a proof was opened with.
#[derive(Clone, Copy)]
pub(super) enum Shown {
    FileHash(MerkleHash, [u8; 32]),
    Root(MerkleHash),
}

impl OpenedRange {
    // The range of a handle that another call has filled.
    pub(super) fn new(handle: Shared<ffi::yurewha_opened_range>, proof: RangeProof, shown: Shown) -> Self {
        OpenedRange { handle, proof, shown }
    }

    /// Returns the proof that was opened.
    ///
    /// ```
    /// use yurewha::merklehash::MerkleHash;
    /// use yurewha::own::RangeProof;
    ///
    /// let chunk = (MerkleHash::marker(), 7);
    /// let range = RangeProof::from_chunks(&[chunk], 0..1)?.open_root(&chunk.0)?;
    /// assert_eq!(range.proof().chunks(), [chunk]);
    /// # Ok::<(), Box<dyn std::error::Error>>(())
    /// ```
    #[must_use]
    pub fn proof(&self) -> &RangeProof {
        &self.proof
    }

    /// Returns the size of the file in bytes. Until data was accepted, it is the proof's own word.
    ///
    /// ```
    /// use yurewha::merklehash::{xorb_hash, MerkleHash};
    /// use yurewha::own::RangeProof;
    ///
    /// let chunks = [1, 2, 3].map(|seed| (MerkleHash::random_from_seed(seed), 100));
    /// assert_eq!(RangeProof::from_chunks(&chunks, 1..2)?.open_root(&xorb_hash(&chunks))?.file_size(), 300);
    /// # Ok::<(), Box<dyn std::error::Error>>(())
    /// ```
    #[must_use]
    pub fn file_size(&self) -> u64 {
        // SAFETY: a handle, and a number to write to.
        told(|size| unsafe { ffi::yurewha_opened_range_file_size(&mut self.handle.copy(), size) })
    }

    /// Returns the number of chunks of the range. There is at least one.
    ///
    /// ```
    /// use yurewha::merklehash::{xorb_hash, MerkleHash};
    /// use yurewha::own::RangeProof;
    ///
    /// let chunks = [1, 2, 3].map(|seed| (MerkleHash::random_from_seed(seed), 100));
    /// assert_eq!(RangeProof::from_chunks(&chunks, 1..3)?.open_root(&xorb_hash(&chunks))?.num_chunks(), 2);
    /// # Ok::<(), Box<dyn std::error::Error>>(())
    /// ```
    #[must_use]
    pub fn num_chunks(&self) -> usize {
        // SAFETY: a handle, and a number to write to.
        told(|count| unsafe { ffi::yurewha_opened_range_num_chunks(&mut self.handle.copy(), count) })
    }

    /// Returns where in the file a chunk of the range begins, in bytes, or `None` if there is no such chunk. The chunks of
    /// the range count from 0. Until data was accepted, the place is the proof's own word.
    ///
    /// ```
    /// use yurewha::merklehash::{xorb_hash, MerkleHash};
    /// use yurewha::own::RangeProof;
    ///
    /// let chunks = [1, 2, 3].map(|seed| (MerkleHash::random_from_seed(seed), 100));
    /// let range = RangeProof::from_chunks(&chunks, 1..3)?.open_root(&xorb_hash(&chunks))?;
    /// assert_eq!([0, 1, 2].map(|chunk| range.begins(chunk)), [Some(100), Some(200), None]);
    /// # Ok::<(), Box<dyn std::error::Error>>(())
    /// ```
    #[must_use]
    pub fn begins(&self, chunk: usize) -> Option<u64> {
        Some(self.bytes_of(chunk)?.start)
    }

    /// Returns where in the file a chunk of the range ends, in bytes, as [`begins`](Self::begins) returns where it begins.
    ///
    /// ```
    /// use yurewha::merklehash::{xorb_hash, MerkleHash};
    /// use yurewha::own::RangeProof;
    ///
    /// let chunks = [1, 2, 3].map(|seed| (MerkleHash::random_from_seed(seed), 100));
    /// let range = RangeProof::from_chunks(&chunks, 1..3)?.open_root(&xorb_hash(&chunks))?;
    /// assert_eq!([0, 1, 2].map(|chunk| range.ends(chunk)), [Some(200), Some(300), None]);
    /// # Ok::<(), Box<dyn std::error::Error>>(())
    /// ```
    #[must_use]
    pub fn ends(&self, chunk: usize) -> Option<u64> {
        Some(self.bytes_of(chunk)?.end)
    }

    // Where in the file a chunk of the range is.
    fn bytes_of(&self, chunk: usize) -> Option<Range<u64>> {
        // SAFETY: a handle, and two numbers to write to.
        told_if_there(|Range { start, end }| unsafe {
            ffi::yurewha_opened_range_bytes_of(&mut self.handle.copy(), chunk, start, end)
        })
    }

    /// Checks the data of a chunk of the range. Returns where in the file it begins, in bytes, if the data's hash and
    /// length are those of the chunk's node. Returns `None` if not, or if there is no such chunk. The chunks of the range
    /// count from 0. Allocates nothing.
    ///
    /// ```
    /// use yurewha::merklehash::compute_data_hash;
    /// use yurewha::own::RangeProof;
    ///
    /// let chunk = (compute_data_hash(b"a chunk"), 7);
    /// let range = RangeProof::from_chunks(&[chunk], 0..1)?.open_root(&chunk.0)?;
    /// assert_eq!(range.check(0, b"a chunk"), Some(0));
    /// assert_eq!([range.check(0, b"a chuck"), range.check(1, b"a chunk")], [None, None]);
    /// # Ok::<(), Box<dyn std::error::Error>>(())
    /// ```
    #[must_use]
    pub fn check(&self, chunk: usize, data: &[u8]) -> Option<u64> {
        // SAFETY: a handle, data of its length, and a number to write to.
        told_if_shown(|place| unsafe {
            ffi::yurewha_opened_range_check(&mut self.handle.copy(), chunk, data.as_ptr(), data.len(), place)
        })
    }

    /// Checks the data of all chunks of the range, and returns these bytes of the file from it. `data` is the data of the
    /// chunks, one after another, and nothing else. Returns `None` unless each chunk checks and the range holds the bytes,
    /// so a server that answers with another part of the file is refused. Allocates nothing.
    ///
    /// ```
    /// use yurewha::merklehash::compute_data_hash;
    /// use yurewha::own::HashTree;
    ///
    /// let chunks = [&b"a chunk"[..], b"another"].map(|data| (compute_data_hash(data), data.len() as u64));
    /// let tree = HashTree::from_chunks(&chunks)?;
    /// let range = tree.proof(1..2)?.open(&tree.file_hash())?;
    /// assert_eq!(range.read(8..10, b"another"), Some(&b"no"[..]));
    /// assert_eq!(range.read(0..2, b"another"), None); // these bytes aren't in the range
    /// assert_eq!(range.read(8..10, b"another one"), None); // data is left over
    /// # Ok::<(), Box<dyn std::error::Error>>(())
    /// ```
    #[must_use]
    pub fn read<'d>(&self, bytes: Range<u64>, data: &'d [u8]) -> Option<&'d [u8]> {
        // SAFETY: a handle, data of its length, and a number to write to.
        let start: usize = told_if_shown(|start| unsafe {
            ffi::yurewha_opened_range_read(
                &mut self.handle.copy(),
                bytes.start,
                bytes.end,
                data.as_ptr(),
                data.len(),
                start,
            )
        })?;
        let length = usize::try_from(bytes.end - bytes.start).ok()?;
        data.get(start..)?.get(..length)
    }
}

impl OpenedRange {
    /// Does the same as [`clone`](Clone::clone), but returns an error if an allocation fails.
    ///
    /// ```
    /// use yurewha::merklehash::compute_data_hash;
    /// use yurewha::own::RangeProof;
    ///
    /// let chunk = (compute_data_hash(b"a chunk"), 7);
    /// let range = RangeProof::from_chunks(&[chunk], 0..1)?.open_root(&chunk.0)?;
    /// assert_eq!(range.try_clone()?.check(0, b"a chunk"), Some(0));
    /// # Ok::<(), Box<dyn std::error::Error>>(())
    /// ```
    ///
    /// # Errors
    ///
    /// [`OutOfMemory`](CoreError::OutOfMemory) if an allocation fails
    pub fn try_clone(&self) -> Result<Self> {
        let proof = self.proof.try_clone()?;
        let opened = match &self.shown {
            Shown::FileHash(hash, salt) => proof.open_with_salt(hash, salt),
            Shown::Root(root) => proof.open_root(root),
        };
        // The proof shows the hash, since it was opened before.
        opened.map_err(|_| CoreError::OutOfMemory)
    }
}

/// Opens the proof again. Threads need no clone, and owners can share an `Arc` of the range.
///
/// # Panics
///
/// If an allocation fails; see [`try_clone`](OpenedRange::try_clone).
impl Clone for OpenedRange {
    #[track_caller]
    fn clone(&self) -> Self {
        plain("OpenedRange::clone", self.try_clone())
    }
}

/// Shows the chunks' places and the file's size.
impl fmt::Debug for OpenedRange {
    fn fmt(&self, f: &mut fmt::Formatter<'_>) -> fmt::Result {
        f.debug_struct("OpenedRange")
            .field("num_chunks", &self.num_chunks())
            .field("begins", &self.begins(0))
            .field("file_size", &self.file_size())
            .finish_non_exhaustive()
    }
}

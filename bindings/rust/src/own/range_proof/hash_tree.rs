//! The hash tree over a list of chunks, which makes range proofs.

use super::{RangeProof, Rooms, MOST_BESIDE};
use crate::error::Result;
use crate::ffi;
use crate::handle::Shared;
use crate::lent_chunks::lend;
use crate::merklehash::MerkleHash;
use crate::own::Node;
use crate::status::{answer, plain, told, told_if_there};
use std::ops::Range;
use std::{fmt, ptr};

mod difference;

pub use difference::Difference;

/// All levels of nodes over a list of chunks, kept so that a proof takes time with the number of levels and of its own
/// nodes, and not with the number of chunks.
///
/// ```
/// use yurewha::merklehash::{file_hash, MerkleHash};
/// use yurewha::own::HashTree;
///
/// let chunks: Vec<_> = (0..1000).map(|seed| (MerkleHash::random_from_seed(seed), 100)).collect();
/// let tree = HashTree::from_chunks(&chunks)?;
/// assert_eq!((tree.file_hash(), tree.total_size()), (file_hash(&chunks), 100_000));
/// // The chunks that hold these bytes, and where they begin and end.
/// let range = tree.chunks_at(250..410).unwrap();
/// assert_eq!((range.clone(), tree.bytes_of(range.clone())), (2..5, Some(200..500)));
/// let opened = tree.proof(range)?.open(&tree.file_hash())?;
/// assert_eq!((opened.begins(0), opened.ends(2), opened.file_size()), (Some(200), Some(500), 100_000));
/// # Ok::<(), Box<dyn std::error::Error>>(())
/// ```
///
/// A tree never changes, so threads that share it read it at once, and none waits for another.
pub struct HashTree(Shared<ffi::yurewha_hash_tree>);

impl HashTree {
    /// Makes the tree over some chunks.
    ///
    /// ```
    /// use yurewha::error::CoreError;
    /// use yurewha::merklehash::MerkleHash;
    /// use yurewha::own::HashTree;
    ///
    /// let chunk = (MerkleHash::default(), u64::MAX);
    /// assert_eq!(HashTree::from_chunks(&[chunk; 2]).unwrap_err(), CoreError::SizeOverflow);
    /// ```
    ///
    /// # Errors
    ///
    /// - [`SizeOverflow`](crate::error::CoreError::SizeOverflow) if the sizes add up to more than `u64::MAX`
    /// - [`OutOfMemory`](crate::error::CoreError::OutOfMemory) if an allocation fails
    pub fn from_chunks(chunks: &[Node]) -> Result<Self> {
        let chunks = lend(chunks)?;
        // SAFETY: chunks of their number, and an empty handle to write to.
        answer(|tree: &mut Shared<_>| unsafe {
            ffi::yurewha_hash_tree_from_chunks(chunks.as_ptr(), chunks.len(), tree.get_mut())
        })
        .map(HashTree)
    }

    /// Returns the root of the chunks. With no chunks it is the default hash.
    ///
    /// ```
    /// use yurewha::merklehash::{xorb_hash, MerkleHash};
    /// use yurewha::own::HashTree;
    ///
    /// let chunks = [1, 2, 3].map(|seed| (MerkleHash::random_from_seed(seed), 100));
    /// assert_eq!(HashTree::from_chunks(&chunks)?.root(), xorb_hash(&chunks));
    /// # Ok::<(), yurewha::error::CoreError>(())
    /// ```
    #[must_use]
    pub fn root(&self) -> MerkleHash {
        // SAFETY: a handle, and a hash to write to.
        told(|root: &mut MerkleHash| unsafe { ffi::yurewha_hash_tree_root(&mut self.0.copy(), root.out()) })
    }

    /// Returns the file hash of the chunks. With no chunks it is the default hash.
    ///
    /// ```
    /// use yurewha::merklehash::{file_hash, MerkleHash};
    /// use yurewha::own::HashTree;
    ///
    /// let chunks = [1, 2, 3].map(|seed| (MerkleHash::random_from_seed(seed), 100));
    /// assert_eq!(HashTree::from_chunks(&chunks)?.file_hash(), file_hash(&chunks));
    /// # Ok::<(), yurewha::error::CoreError>(())
    /// ```
    #[must_use]
    pub fn file_hash(&self) -> MerkleHash {
        self.file_hash_with_salt(&[0; 32])
    }

    /// Returns the file hash of the chunks under a salt. With no chunks it is the default hash, whatever the salt.
    ///
    /// ```
    /// use yurewha::merklehash::{file_hash_with_salt, MerkleHash};
    /// use yurewha::own::HashTree;
    ///
    /// let chunks = [1, 2, 3].map(|seed| (MerkleHash::random_from_seed(seed), 100));
    /// let tree = HashTree::from_chunks(&chunks)?;
    /// assert_eq!(tree.file_hash_with_salt(&[7; 32]), file_hash_with_salt(&chunks, &[7; 32]));
    /// # Ok::<(), yurewha::error::CoreError>(())
    /// ```
    #[must_use]
    pub fn file_hash_with_salt(&self, salt: &[u8; 32]) -> MerkleHash {
        let salt = ptr::from_ref(salt).cast();
        // SAFETY: a handle, 32 bytes, as the header's struct has them, and a hash to write to.
        told(|hash: &mut MerkleHash| unsafe { ffi::yurewha_hash_tree_file_hash(&mut self.0.copy(), salt, hash.out()) })
    }

    /// Returns the number of chunks.
    ///
    /// ```
    /// use yurewha::own::HashTree;
    ///
    /// assert_eq!(HashTree::from_chunks(&[])?.num_chunks(), 0);
    /// # Ok::<(), yurewha::error::CoreError>(())
    /// ```
    #[must_use]
    pub fn num_chunks(&self) -> usize {
        // SAFETY: a handle, and a number to write to.
        told(|count| unsafe { ffi::yurewha_hash_tree_num_chunks(&mut self.0.copy(), count) })
    }

    /// Returns the sum of the chunks' sizes: the size of the file in bytes.
    ///
    /// ```
    /// use yurewha::merklehash::MerkleHash;
    /// use yurewha::own::HashTree;
    ///
    /// assert_eq!(HashTree::from_chunks(&[(MerkleHash::marker(), 100); 3])?.total_size(), 300);
    /// # Ok::<(), yurewha::error::CoreError>(())
    /// ```
    #[must_use]
    pub fn total_size(&self) -> u64 {
        // SAFETY: a handle, and a number to write to.
        told(|size| unsafe { ffi::yurewha_hash_tree_total_size(&mut self.0.copy(), size) })
    }

    /// Returns the least range of chunks that holds these bytes of the file, or those of them that are in the file. Returns
    /// `None` if none of them is. Bytes and chunks count from 0.
    ///
    /// ```
    /// use yurewha::merklehash::MerkleHash;
    /// use yurewha::own::HashTree;
    ///
    /// let tree = HashTree::from_chunks(&[(MerkleHash::marker(), 100); 3])?;
    /// assert_eq!(tree.chunks_at(99..101), Some(0..2));
    /// assert_eq!(tree.chunks_at(200..u64::MAX), Some(2..3));
    /// assert_eq!([tree.chunks_at(300..400), tree.chunks_at(7..7)], [None, None]);
    /// # Ok::<(), yurewha::error::CoreError>(())
    /// ```
    #[must_use]
    pub fn chunks_at(&self, bytes: Range<u64>) -> Option<Range<usize>> {
        // SAFETY: a handle, and two numbers to write to.
        told_if_there(|Range { start, end }| unsafe {
            ffi::yurewha_hash_tree_chunks_at(&mut self.0.copy(), bytes.start, bytes.end, start, end)
        })
    }

    /// Returns where in the file some adjacent chunks begin and end, in bytes. Returns `None` unless the range has a chunk,
    /// and only chunks of the list.
    ///
    /// ```
    /// use yurewha::merklehash::MerkleHash;
    /// use yurewha::own::HashTree;
    ///
    /// let tree = HashTree::from_chunks(&[(MerkleHash::marker(), 100); 3])?;
    /// assert_eq!(tree.bytes_of(1..3), Some(100..300));
    /// assert_eq!([tree.bytes_of(1..4), tree.bytes_of(1..1)], [None, None]);
    /// # Ok::<(), yurewha::error::CoreError>(())
    /// ```
    #[must_use]
    pub fn bytes_of(&self, chunks: Range<usize>) -> Option<Range<u64>> {
        // SAFETY: a handle, and two numbers to write to.
        told_if_there(|Range { start, end }| unsafe {
            ffi::yurewha_hash_tree_bytes_of(&mut self.0.copy(), chunks.start, chunks.end, start, end)
        })
    }

    /// Returns the proof of some adjacent chunks, by their numbers, which count from 0. It opens under the file hash of
    /// all chunks, whatever the salt, and under their root.
    ///
    /// ```
    /// use yurewha::error::CoreError;
    /// use yurewha::merklehash::MerkleHash;
    /// use yurewha::own::{HashTree, RangeProof};
    ///
    /// let chunks = [1, 2, 3].map(|seed| (MerkleHash::random_from_seed(seed), 100));
    /// let tree = HashTree::from_chunks(&chunks)?;
    /// assert_eq!(tree.proof(1..3), RangeProof::from_chunks(&chunks, 1..3));
    /// assert_eq!(tree.proof(1..1), Err(CoreError::InvalidArguments));
    /// # Ok::<(), CoreError>(())
    /// ```
    ///
    /// # Errors
    ///
    /// - [`InvalidArguments`](crate::error::CoreError::InvalidArguments) unless the range has a chunk, and only chunks of
    ///   the list
    /// - [`OutOfMemory`](crate::error::CoreError::OutOfMemory) if an allocation fails
    pub fn proof(&self, chunks: Range<usize>) -> Result<RangeProof> {
        let Range { start, end } = chunks;
        let mut rooms = Rooms::of(chunks.len().min(self.num_chunks()) + MOST_BESIDE)?;
        let (levels, level_room) = (rooms.levels.as_mut_ptr(), rooms.levels.len());
        let (nodes, node_room) = (rooms.nodes.as_mut_ptr(), rooms.nodes.len());
        // SAFETY: a handle, two rooms with their lengths, and two numbers to write to.
        let counts = answer(|(level_count, node_count)| unsafe {
            ffi::yurewha_hash_tree_proof(
                &mut self.0.copy(),
                start,
                end,
                levels,
                level_room,
                nodes,
                node_room,
                level_count,
                node_count,
            )
        })?;
        rooms.proof(counts)
    }
}

impl HashTree {
    /// Does the same as [`clone`](Clone::clone), but returns an error if an allocation fails.
    ///
    /// ```
    /// use yurewha::merklehash::MerkleHash;
    /// use yurewha::own::HashTree;
    ///
    /// let tree = HashTree::from_chunks(&[(MerkleHash::marker(), 100); 3])?;
    /// assert_eq!(tree.try_clone()?, tree);
    /// # Ok::<(), yurewha::error::CoreError>(())
    /// ```
    ///
    /// # Errors
    ///
    /// [`OutOfMemory`](crate::error::CoreError::OutOfMemory) if an allocation fails
    pub fn try_clone(&self) -> Result<Self> {
        match self.num_chunks() {
            0 => Self::from_chunks(&[]),
            count => Self::from_chunks(self.proof(0..count)?.chunks()),
        }
    }
}

/// Makes the tree anew from its chunks, which takes as long as [`from_chunks`](HashTree::from_chunks). Threads need no
/// clone, and owners can share an `Arc` of the tree.
///
/// # Panics
///
/// If an allocation fails; see [`try_clone`](HashTree::try_clone).
impl Clone for HashTree {
    #[track_caller]
    fn clone(&self) -> Self {
        plain("HashTree::clone", self.try_clone())
    }
}

/// Trees are equal if they are over the same chunks. They are compared by their roots and by the number and the size of
/// their chunks. So trees over other chunks are taken for equal only if two messages with one BLAKE3 hash were found.
impl PartialEq for HashTree {
    fn eq(&self, other: &Self) -> bool {
        let told = |it: &Self| (it.num_chunks(), it.total_size(), it.root());
        told(self) == told(other)
    }
}

impl Eq for HashTree {}

/// Shows the number of chunks and their size.
impl fmt::Debug for HashTree {
    fn fmt(&self, f: &mut fmt::Formatter<'_>) -> fmt::Result {
        f.debug_struct("HashTree")
            .field("num_chunks", &self.num_chunks())
            .field("total_size", &self.total_size())
            .finish_non_exhaustive()
    }
}

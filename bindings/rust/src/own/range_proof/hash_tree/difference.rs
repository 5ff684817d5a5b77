//! Where two files differ.

use super::HashTree;
use crate::ffi;
use crate::status::told;

/// Where two files differ, as [`HashTree::diff`] returns it. All chunks before and after are the same in both.
///
/// This file has its chunks from `first` up to, but not including, `end` where the other one has its chunks from `first`
/// up to, but not including, `other_end`. Some of these may be the same, too. Chunks and bytes count from 0.
#[derive(Debug, Clone, Copy, PartialEq, Eq, Hash)]
pub struct Difference {
    /// How many chunks are the same before it, which is the number of its first chunk in both files.
    pub first: usize,
    /// One more than the number of its last chunk in this file. It is `first` if this file has none.
    pub end: usize,
    /// One more than the number of its last chunk in the other file. It is `first` if the other file has none.
    pub other_end: usize,
    /// Where it begins in both files, in bytes.
    pub start: u64,
    /// Where it ends in this file, in bytes.
    pub stop: u64,
    /// Where it ends in the other file, in bytes.
    pub other_stop: u64,
}

impl HashTree {
    /// Returns where this file and another one differ, or `None` if they have the same chunks. The chunks before are as
    /// many as the two have in common at the front, and those after as many of the rest as they have in common at the end.
    ///
    /// So whoever has the other file needs only the bytes of this one from `start` up to `stop`. The time is proportional
    /// to the number of chunks that are the same.
    ///
    /// ```
    /// use yurewha::merklehash::MerkleHash;
    /// use yurewha::own::HashTree;
    ///
    /// let [a, b, c, d] = [1, 2, 3, 4].map(|seed| (MerkleHash::random_from_seed(seed), 100));
    /// let old = HashTree::from_chunks(&[a, b, c])?;
    /// let new = HashTree::from_chunks(&[a, d, d, c])?;
    /// let it = new.diff(&old).unwrap();
    /// assert_eq!((it.first..it.end, it.first..it.other_end), (1..3, 1..2));
    /// assert_eq!((it.start..it.stop, it.start..it.other_stop), (100..300, 100..200));
    /// assert_eq!(new.diff(&new), None);
    /// # Ok::<(), yurewha::error::CoreError>(())
    /// ```
    #[must_use]
    pub fn diff(&self, other: &Self) -> Option<Difference> {
        let (count, other_count) = (self.num_chunks(), other.num_chunks());
        let first = self.common_prefix(other);
        let after = self.common_suffix(other, count.min(other_count) - first);
        let (end, other_end) = (count - after, other_count - after);
        ((end, other_end) != (first, first)).then(|| Difference {
            first,
            end,
            other_end,
            start: self.begin_of(first),
            stop: self.begin_of(end),
            other_stop: other.begin_of(other_end),
        })
    }

    // How many chunks both have in common at the front.
    fn common_prefix(&self, other: &Self) -> usize {
        // SAFETY: two handles, which may be of one tree, and a number to write to.
        told(|count| unsafe { ffi::yurewha_hash_tree_common_prefix(&mut self.0.copy(), &mut other.0.copy(), count) })
    }

    // How many chunks both have in common at the end, but at most this many.
    fn common_suffix(&self, other: &Self, most: usize) -> usize {
        // SAFETY: two handles, which may be of one tree, and a number to write to.
        told(|count| unsafe {
            ffi::yurewha_hash_tree_common_suffix(&mut self.0.copy(), &mut other.0.copy(), most, count)
        })
    }

    // Where a chunk begins, or the size of the file if there are no more chunks.
    fn begin_of(&self, chunk: usize) -> u64 {
        self.bytes_of(0..chunk).map_or(0, |before| before.end)
    }
}

//! Subtrees: what is kept of a range of chunks, to merge it with its neighbours without the chunks.

use super::MerkleHash;
use crate::error::{CoreError, Result};
use crate::ffi;
use crate::handle::Owned;
use crate::in_form::InForm;
use crate::lent_chunks::{lend, node_of, room, zeros};
use crate::status::{answer, plain, told, told_if_there};
use std::hash::{Hash, Hasher};
use std::sync::MutexGuard;
use std::{fmt, mem, ptr};

#[cfg(feature = "serde")]
mod forms;
mod stable_points;

pub use stable_points::{find_stable_end, find_stable_start};

/// The canonical subtree of a range of chunks: what is kept to merge the range with its neighbours.
///
/// A subtree is marked at its start if no chunk comes before the range, and at its end if no chunk comes after it.
/// Adjacent ranges can be merged in any order. The result is the subtree that [`from_chunks`](Self::from_chunks)
/// returns for all chunks. If both ends are marked, [`final_hash`](Self::final_hash) is their root.
///
/// ```
/// use yurewha::merklehash::{xorb_hash, MerkleHash, MerkleHashSubtree};
///
/// let chunks: Vec<_> = (0..100).map(|seed| (MerkleHash::random_from_seed(seed), 100)).collect();
/// let ranges: Vec<_> = chunks.chunks(30).map(|range| MerkleHashSubtree::from_chunks(false, range, false)).collect();
/// let begin = MerkleHashSubtree::from_chunks(true, &[], false);
/// let end = MerkleHashSubtree::from_chunks(false, &[], true);
/// // The last two ranges come first.
/// let late = MerkleHashSubtree::merge(&ranges[2..])?;
/// let whole = MerkleHashSubtree::merge(&[begin, ranges[0].clone(), ranges[1].clone(), late, end])?;
/// assert_eq!(whole.final_hash(), Some(xorb_hash(&chunks)));
/// # Ok::<(), yurewha::error::CoreError>(())
/// ```
///
/// With serde a subtree is a struct of `nodes`, `levels`, `at_start` and `at_end`. In every format, a value that breaks
/// a rule of [`from_json`](Self::from_json) is an error with the rule in its text.
///
/// Threads may share a subtree. Threads that read it at once take turns, call by call.
pub struct MerkleHashSubtree(Owned<ffi::yurewha_subtree>);

impl MerkleHashSubtree {
    // The subtree that a call writes to an empty handle.
    fn made(make: impl FnOnce(*mut ffi::yurewha_subtree) -> ffi::yurewha_status) -> Result<Self> {
        answer(|made: &mut Owned<_>| make(made.get_mut())).map(Self)
    }

    // The subtree of a handle that another call has filled.
    pub(crate) fn of(handle: Owned<ffi::yurewha_subtree>) -> Self {
        MerkleHashSubtree(handle)
    }

    /// The handle, for one call.
    pub(crate) fn lock(&self) -> MutexGuard<'_, ffi::yurewha_subtree> {
        self.0.lock()
    }

    /// Returns the canonical subtree of some chunks. `at_start` says that no chunk comes before them, `at_end` that
    /// none comes after.
    ///
    /// ```
    /// use yurewha::merklehash::{MerkleHash, MerkleHashSubtree};
    ///
    /// let hash = MerkleHash::random_from_seed(1);
    /// let subtree = MerkleHashSubtree::from_chunks(true, &[(hash, 100)], true);
    /// assert_eq!(subtree.final_hash(), Some(hash));
    /// ```
    ///
    /// # Panics
    ///
    /// If the sizes add up to more than `u64::MAX` or an allocation fails; see
    /// [`try_from_chunks`](Self::try_from_chunks).
    #[must_use]
    #[track_caller]
    pub fn from_chunks(at_start: bool, chunks: &[(MerkleHash, u64)], at_end: bool) -> Self {
        plain(
            "MerkleHashSubtree::from_chunks",
            Self::try_from_chunks(at_start, chunks, at_end),
        )
    }

    /// Does the same as [`from_chunks`](Self::from_chunks), but returns an error if the sizes add up to more than
    /// `u64::MAX` or an allocation fails.
    ///
    /// ```
    /// use yurewha::error::CoreError;
    /// use yurewha::merklehash::{MerkleHash, MerkleHashSubtree};
    ///
    /// let chunk = (MerkleHash::default(), u64::MAX);
    /// let refused = MerkleHashSubtree::try_from_chunks(true, &[chunk; 2], true);
    /// assert_eq!(refused, Err(CoreError::SizeOverflow));
    /// ```
    ///
    /// # Errors
    ///
    /// - [`SizeOverflow`](crate::error::CoreError::SizeOverflow) if the sizes add up to more than `u64::MAX`
    /// - [`OutOfMemory`](crate::error::CoreError::OutOfMemory) if an allocation fails
    pub fn try_from_chunks(at_start: bool, chunks: &[(MerkleHash, u64)], at_end: bool) -> Result<Self> {
        let chunks = lend(chunks)?;
        // SAFETY: chunks of their number, and an empty handle to write to.
        Self::made(|made| unsafe {
            ffi::yurewha_subtree_from_chunks(at_start, chunks.as_ptr(), chunks.len(), at_end, made)
        })
    }

    /// Does the same as [`clone`](Clone::clone), but returns an error if an allocation fails.
    ///
    /// ```
    /// use yurewha::merklehash::MerkleHashSubtree;
    ///
    /// let empty = MerkleHashSubtree::from_chunks(true, &[], true);
    /// assert_eq!(empty.try_clone()?, empty);
    /// # Ok::<(), yurewha::error::CoreError>(())
    /// ```
    ///
    /// # Errors
    ///
    /// [`OutOfMemory`](crate::error::CoreError::OutOfMemory) if an allocation fails
    pub fn try_clone(&self) -> Result<Self> {
        // SAFETY: a handle, and another one that is empty to write to.
        Self::made(|made| unsafe { ffi::yurewha_subtree_clone(&mut *self.lock(), made) })
    }

    // Both marks.
    fn marks(&self) -> (bool, bool) {
        // SAFETY: a handle, and two `bool`s to write to.
        told(|(at_start, at_end)| unsafe { ffi::yurewha_subtree_marks(&mut *self.lock(), at_start, at_end) })
    }

    /// Returns whether no chunk comes before the range.
    ///
    /// ```
    /// use yurewha::merklehash::MerkleHashSubtree;
    ///
    /// assert!(MerkleHashSubtree::from_chunks(true, &[], false).at_start());
    /// ```
    pub fn at_start(&self) -> bool {
        self.marks().0
    }

    /// Returns whether no chunk comes after the range.
    ///
    /// ```
    /// use yurewha::merklehash::MerkleHashSubtree;
    ///
    /// assert!(!MerkleHashSubtree::from_chunks(true, &[], false).at_end());
    /// ```
    pub fn at_end(&self) -> bool {
        self.marks().1
    }

    /// Returns the total size of the chunks in bytes.
    ///
    /// ```
    /// use yurewha::merklehash::{MerkleHash, MerkleHashSubtree};
    ///
    /// let chunk = (MerkleHash::default(), 100);
    /// assert_eq!(MerkleHashSubtree::from_chunks(false, &[chunk; 3], false).total_size(), 300);
    /// ```
    pub fn total_size(&self) -> u64 {
        // SAFETY: a handle, and a number to write to.
        told(|size| unsafe { ffi::yurewha_subtree_total_size(&mut *self.lock(), size) })
    }

    /// Returns the number of nodes that are kept.
    ///
    /// ```
    /// use yurewha::merklehash::{MerkleHash, MerkleHashSubtree};
    ///
    /// let chunk = (MerkleHash::default(), 100);
    /// assert_eq!(MerkleHashSubtree::from_chunks(true, &[chunk; 3], true).num_nodes(), 1);
    /// ```
    pub fn num_nodes(&self) -> usize {
        // SAFETY: a handle, and a number to write to.
        told(|count| unsafe { ffi::yurewha_subtree_num_nodes(&mut *self.lock(), count) })
    }

    /// Returns the number of levels, which is at least one.
    ///
    /// ```
    /// use yurewha::merklehash::{MerkleHash, MerkleHashSubtree};
    ///
    /// let chunk = (MerkleHash::default(), 100);
    /// assert_eq!(MerkleHashSubtree::from_chunks(true, &[chunk; 3], true).num_levels(), 2);
    /// ```
    pub fn num_levels(&self) -> usize {
        // SAFETY: a handle, and a number to write to.
        told(|count| unsafe { ffi::yurewha_subtree_num_levels(&mut *self.lock(), count) })
    }

    /// Returns whether no node is kept. That is the case if the range has no chunks.
    ///
    /// ```
    /// use yurewha::merklehash::MerkleHashSubtree;
    ///
    /// assert!(MerkleHashSubtree::from_chunks(false, &[], false).is_empty());
    /// ```
    pub fn is_empty(&self) -> bool {
        self.num_nodes() == 0
    }

    /// Merges `other`, the subtree of the range that follows, into this one. This one becomes the subtree of both
    /// ranges. It keeps its start mark and takes the end mark of `other`.
    ///
    /// ```
    /// use yurewha::error::CoreError;
    /// use yurewha::merklehash::{MerkleHash, MerkleHashSubtree};
    ///
    /// let chunks = [1, 2, 3].map(|seed| (MerkleHash::random_from_seed(seed), 100));
    /// let mut first = MerkleHashSubtree::from_chunks(true, &chunks[..1], false);
    /// let second = MerkleHashSubtree::from_chunks(false, &chunks[1..], true);
    /// first.merge_into(&second)?;
    /// assert_eq!(first, MerkleHashSubtree::from_chunks(true, &chunks, true));
    /// // Nothing comes after the end.
    /// assert_eq!(first.merge_into(&second), Err(CoreError::InvalidArguments));
    /// # Ok::<(), CoreError>(())
    /// ```
    ///
    /// # Errors
    ///
    /// - [`InvalidArguments`] if and only if this one is marked at its end or `other` at its start
    /// - otherwise [`SizeOverflow`] if and only if the two sizes add up to more than `u64::MAX`
    /// - [`OutOfMemory`] if an allocation fails
    ///
    /// After an error this one is unchanged.
    ///
    /// [`InvalidArguments`]: crate::error::CoreError::InvalidArguments
    /// [`SizeOverflow`]: crate::error::CoreError::SizeOverflow
    /// [`OutOfMemory`]: crate::error::CoreError::OutOfMemory
    pub fn merge_into(&mut self, other: &MerkleHashSubtree) -> Result<()> {
        // SAFETY: two handles. They are two objects, because one is borrowed mutably.
        answer(|(): &mut ()| unsafe { ffi::yurewha_subtree_merge_into(self.0.get_mut(), &mut *other.lock()) })
    }

    /// Does the same as [`merge_into`](Self::merge_into). Returns the number of parents that were hashed for it, at
    /// most `u64::MAX`.
    ///
    /// ```
    /// use yurewha::merklehash::{MerkleHash, MerkleHashSubtree};
    ///
    /// let chunk = (MerkleHash::random_from_seed(1), 100);
    /// let mut subtree = MerkleHashSubtree::from_chunks(true, &[chunk; 4], false);
    /// let end = MerkleHashSubtree::from_chunks(false, &[], true);
    /// assert_eq!(subtree.merge_into_counted(&end)?, 1);
    /// # Ok::<(), yurewha::error::CoreError>(())
    /// ```
    ///
    /// # Errors
    ///
    /// Those of [`merge_into`](Self::merge_into)
    pub fn merge_into_counted(&mut self, other: &MerkleHashSubtree) -> Result<u64> {
        // SAFETY: two handles, and a number to write to. They are two objects, because one is borrowed mutably.
        answer(|parents| unsafe {
            ffi::yurewha_subtree_merge_into_counted(self.0.get_mut(), &mut *other.lock(), parents)
        })
    }

    /// Merges the subtrees of adjacent ranges, in order, and returns one subtree. With no ranges it is the empty
    /// subtree with both marks. With one range it is a copy.
    ///
    /// ```
    /// use yurewha::merklehash::{MerkleHash, MerkleHashSubtree};
    ///
    /// let chunks = [1, 2, 3].map(|seed| (MerkleHash::random_from_seed(seed), 100));
    /// let ranges = chunks.map(|chunk| MerkleHashSubtree::from_chunks(false, &[chunk], false));
    /// let whole = MerkleHashSubtree::merge(&ranges)?;
    /// assert_eq!(whole, MerkleHashSubtree::from_chunks(false, &chunks, false));
    /// # Ok::<(), yurewha::error::CoreError>(())
    /// ```
    ///
    /// # Errors
    ///
    /// - [`InvalidArguments`] if a range other than the first is marked at its start, or one other than the last at its
    ///   end
    /// - [`SizeOverflow`] if the sizes of all ranges add up to more than `u64::MAX`
    /// - [`OutOfMemory`] if an allocation fails
    ///
    /// [`InvalidArguments`]: crate::error::CoreError::InvalidArguments
    /// [`SizeOverflow`]: crate::error::CoreError::SizeOverflow
    /// [`OutOfMemory`]: crate::error::CoreError::OutOfMemory
    pub fn merge(ranges: &[MerkleHashSubtree]) -> Result<MerkleHashSubtree> {
        let (mut locked, mut handles) = (room(ranges.len())?, room(ranges.len())?);
        // This locks by rising address, because the ranges are in one slice.
        locked.extend(ranges.iter().map(Self::lock));
        handles.extend(locked.iter_mut().map(|handle| mem::take(&mut **handle)));
        // SAFETY: handles of their number, each the only one of its object, and an empty one to write to.
        let merged =
            Self::made(|made| unsafe { ffi::yurewha_subtree_merge(handles.as_mut_ptr(), handles.len(), made) });
        for (range, handle) in locked.iter_mut().zip(handles) {
            **range = handle;
        }
        merged
    }

    /// Returns the root of the chunks, or `None` if an end isn't marked.
    ///
    /// ```
    /// use yurewha::merklehash::{MerkleHash, MerkleHashSubtree};
    ///
    /// assert_eq!(MerkleHashSubtree::from_chunks(true, &[], true).final_hash(), Some(MerkleHash::default()));
    /// assert_eq!(MerkleHashSubtree::from_chunks(true, &[], false).final_hash(), None);
    /// ```
    pub fn final_hash(&self) -> Option<MerkleHash> {
        // SAFETY: a handle, and a hash to write to.
        told_if_there(|hash: &mut MerkleHash| unsafe { ffi::yurewha_subtree_final_hash(&mut *self.lock(), hash.out()) })
    }

    /// Returns the file hash of the chunks, or `None` if an end isn't marked.
    ///
    /// ```
    /// use yurewha::merklehash::{file_hash, MerkleHash, MerkleHashSubtree};
    ///
    /// let chunks = [1, 2, 3].map(|seed| (MerkleHash::random_from_seed(seed), 100));
    /// let whole = MerkleHashSubtree::from_chunks(true, &chunks, true);
    /// assert_eq!(whole.file_hash(), Some(file_hash(&chunks)));
    /// ```
    pub fn file_hash(&self) -> Option<MerkleHash> {
        self.file_hash_with_salt(&[0; 32])
    }

    /// Returns the file hash of the chunks under a salt, or `None` if an end isn't marked.
    ///
    /// ```
    /// use yurewha::merklehash::{file_hash_with_salt, MerkleHash, MerkleHashSubtree};
    ///
    /// let chunks = [1, 2, 3].map(|seed| (MerkleHash::random_from_seed(seed), 100));
    /// let whole = MerkleHashSubtree::from_chunks(true, &chunks, true);
    /// assert_eq!(whole.file_hash_with_salt(&[7; 32]), Some(file_hash_with_salt(&chunks, &[7; 32])));
    /// ```
    pub fn file_hash_with_salt(&self, salt: &[u8; 32]) -> Option<MerkleHash> {
        let root = self.final_hash()?;
        // Without chunks it is the default hash, which is the root. A chunk may have that hash too.
        let has_chunks = !self.is_empty();
        Some(if has_chunks { root.hmac(salt.into()) } else { root })
    }

    /// Returns the file hash of the chunks, as [`file_hash`](Self::file_hash) does, but an error if an end isn't marked. So
    /// two subtrees that aren't whole files never seem to have the same file hash.
    ///
    /// ```
    /// use yurewha::error::CoreError;
    /// use yurewha::merklehash::{file_hash, MerkleHash, MerkleHashSubtree};
    ///
    /// let chunks = [1, 2, 3].map(|seed| (MerkleHash::random_from_seed(seed), 100));
    /// let mut file = MerkleHashSubtree::from_chunks(true, &chunks[..2], false);
    /// assert_eq!(file.finish(), Err(CoreError::InvalidArguments));
    /// file.merge_into(&MerkleHashSubtree::from_chunks(false, &chunks[2..], true))?;
    /// assert_eq!(file.finish()?, file_hash(&chunks));
    /// # Ok::<(), CoreError>(())
    /// ```
    ///
    /// # Errors
    ///
    /// [`InvalidArguments`](crate::error::CoreError::InvalidArguments) if an end isn't marked
    pub fn finish(&self) -> Result<MerkleHash> {
        self.finish_with_salt(&[0; 32])
    }

    /// Returns the file hash of the chunks under a salt, as [`file_hash_with_salt`](Self::file_hash_with_salt) does, but an
    /// error if an end isn't marked.
    ///
    /// ```
    /// use yurewha::merklehash::{file_hash_with_salt, MerkleHash, MerkleHashSubtree};
    ///
    /// let chunks = [1, 2, 3].map(|seed| (MerkleHash::random_from_seed(seed), 100));
    /// let whole = MerkleHashSubtree::from_chunks(true, &chunks, true);
    /// assert_eq!(whole.finish_with_salt(&[7; 32])?, file_hash_with_salt(&chunks, &[7; 32]));
    /// # Ok::<(), yurewha::error::CoreError>(())
    /// ```
    ///
    /// # Errors
    ///
    /// Those of [`finish`](Self::finish)
    pub fn finish_with_salt(&self, salt: &[u8; 32]) -> Result<MerkleHash> {
        self.file_hash_with_salt(salt).ok_or(CoreError::InvalidArguments)
    }

    /// Returns this subtree as compact JSON text. The members are in the order `at_end`, `at_start`, `levels`, `nodes`.
    ///
    /// ```
    /// use yurewha::merklehash::MerkleHashSubtree;
    ///
    /// let json = MerkleHashSubtree::from_chunks(true, &[], true).to_json()?;
    /// assert_eq!(json, r#"{"at_end":true,"at_start":true,"levels":[[0,0]],"nodes":[]}"#);
    /// # Ok::<(), yurewha::error::CoreError>(())
    /// ```
    ///
    /// # Errors
    ///
    /// [`OutOfMemory`](crate::error::CoreError::OutOfMemory) if an allocation fails
    pub fn to_json(&self) -> Result<String> {
        let mut text: Vec<u8> = zeros(self.json_length_at_most())?;
        // SAFETY: a handle, a room with its length, and a length to write to.
        let length = answer(|length| unsafe {
            ffi::yurewha_subtree_to_json(&mut *self.lock(), text.as_mut_ptr().cast(), text.len(), length)
        })?;
        text.truncate(length);
        Ok(String::from_utf8(text).expect("JSON texts of subtrees are ASCII"))
    }

    // The greatest lengths of the members and marks, of a level and of a node, each with its comma. Numbers have at
    // most 20 digits.
    fn json_length_at_most(&self) -> usize {
        64 + 44 * self.num_levels() + 104 * self.num_nodes()
    }

    /// Reads a subtree from JSON text. The value is an object with these members:
    ///
    /// - `at_start` and `at_end`: the marks
    /// - `levels`: the number of left and right nodes of each level, from the chunks up
    /// - `nodes`: the left nodes of all levels, lowest level first, then the right nodes of all levels, highest level
    ///   first; each has its `hash` in hex and its `size`
    ///
    /// ```
    /// use yurewha::error::CoreError;
    /// use yurewha::merklehash::MerkleHashSubtree;
    ///
    /// let text = r#"{"nodes":[],"levels":[[0,0]],"at_start":true,"at_end":true}"#;
    /// assert_eq!(MerkleHashSubtree::from_json(text)?, MerkleHashSubtree::from_chunks(true, &[], true));
    /// let forged = text.replace("[0,0]", "[1,0]");
    /// assert_eq!(MerkleHashSubtree::from_json(&forged), Err(CoreError::InvalidJson(6)));
    /// # Ok::<(), CoreError>(())
    /// ```
    ///
    /// # Errors
    ///
    /// [`InvalidText`] if the text isn't JSON, [`OutOfMemory`] if an allocation fails, or [`InvalidJson`] with the
    /// lowest rule that the value breaks:
    ///
    /// 1. It is an object.
    /// 2. `nodes` and `levels` are arrays, and `at_start` and `at_end` are booleans.
    /// 3. A node is an object with `hash`, 64 hex digits, and `size`, a whole number below 2^64.
    /// 4. A level is an array of two whole numbers below 2^64.
    /// 5. There is at least one level.
    /// 6. The counts of all levels add up to the number of nodes.
    /// 7. The sizes of all nodes add up to at most 2^64 - 1.
    /// 8. The top level has no right nodes. With `at_end`, no level has any.
    /// 9. With `at_start`, no level below the top has left nodes. `xet-core-structures` keeps some if a range that is
    ///    marked at its start is merged with the next one; so it breaks rule 12 if other ranges are merged. Make such a
    ///    subtree anew from the list of its chunks.
    /// 10. With both marks, the top level has at most one node.
    /// 11. If there are several levels, the top level has a node.
    /// 12. Without `at_start`, left nodes below the top end like the nodes before a first stable point.
    /// 13. Without `at_end`, right nodes below the top begin like the nodes after a last stable point.
    ///
    /// [`InvalidText`]: crate::error::CoreError::InvalidText
    /// [`OutOfMemory`]: crate::error::CoreError::OutOfMemory
    /// [`InvalidJson`]: crate::error::CoreError::InvalidJson
    pub fn from_json(text: &str) -> Result<Self> {
        // SAFETY: a text of its length, and an empty handle to write to.
        Self::made(|made| unsafe { ffi::yurewha_subtree_from_json(text.as_ptr().cast(), text.len(), made) })
    }
}

// Marks and flat lists, in the order of `from_json`. They may describe no subtree.
struct Flat {
    nodes: Vec<ffi::yurewha_chunk>,
    levels: Vec<ffi::yurewha_level>,
    at_start: bool,
    at_end: bool,
}

impl Flat {
    fn of(subtree: &MerkleHashSubtree) -> Result<Flat> {
        let (at_start, at_end) = subtree.marks();
        let mut levels = zeros(subtree.num_levels())?;
        let mut nodes = zeros(subtree.num_nodes())?;
        // SAFETY: a handle, two rooms with their lengths, and two numbers to write to.
        let _: (usize, usize) = answer(|(level_count, node_count)| unsafe {
            ffi::yurewha_subtree_to_flat(
                &mut *subtree.lock(),
                levels.as_mut_ptr(),
                levels.len(),
                nodes.as_mut_ptr(),
                nodes.len(),
                level_count,
                node_count,
            )
        })?;
        Ok(Flat {
            nodes,
            levels,
            at_start,
            at_end,
        })
    }
}

fn pair_of(level: &ffi::yurewha_level) -> (usize, usize) {
    (level.left, level.right)
}

/// Makes an independent copy.
///
/// # Panics
///
/// If an allocation fails; see [`try_clone`](MerkleHashSubtree::try_clone).
impl Clone for MerkleHashSubtree {
    #[track_caller]
    fn clone(&self) -> Self {
        plain("MerkleHashSubtree::clone", self.try_clone())
    }
}

/// Subtrees are equal if they have the same marks, levels and nodes.
impl PartialEq for MerkleHashSubtree {
    fn eq(&self, other: &Self) -> bool {
        // A call needs two different objects.
        if ptr::eq(self, other) {
            return true;
        }
        let (mut first, mut second) = Owned::lock_both(&self.0, &other.0);
        // SAFETY: two handles, which are two objects, and a `bool` to write to.
        told(|equal| unsafe { ffi::yurewha_subtree_equal(&mut *first, &mut *second, equal) })
    }
}

impl Eq for MerkleHashSubtree {}

/// Hashes marks, levels and nodes.
///
/// # Panics
///
/// If an allocation fails.
impl Hash for MerkleHashSubtree {
    fn hash<H: Hasher>(&self, state: &mut H) {
        let flat = plain("MerkleHashSubtree::hash", Flat::of(self));
        (flat.at_start, flat.at_end).hash(state);
        flat.levels.iter().map(pair_of).for_each(|level| level.hash(state));
        flat.nodes.iter().map(node_of).for_each(|node| node.hash(state));
    }
}

/// The subtree of no chunks, without marks. Merged with a range, on a side where that isn't marked, it gives that range.
///
/// ```
/// use yurewha::merklehash::{MerkleHash, MerkleHashSubtree};
///
/// let range = MerkleHashSubtree::from_chunks(false, &[(MerkleHash::marker(), 100)], true);
/// let mut whole = MerkleHashSubtree::default();
/// whole.merge_into(&range)?;
/// assert_eq!(whole, range);
/// # Ok::<(), yurewha::error::CoreError>(())
/// ```
///
/// # Panics
///
/// If an allocation fails; see [`try_from_chunks`](MerkleHashSubtree::try_from_chunks).
impl Default for MerkleHashSubtree {
    #[track_caller]
    fn default() -> Self {
        Self::from_chunks(false, &[], false)
    }
}

/// Shows nodes, levels and marks.
impl fmt::Debug for MerkleHashSubtree {
    fn fmt(&self, f: &mut fmt::Formatter<'_>) -> fmt::Result {
        let flat = Flat::of(self).map_err(|_| fmt::Error)?;
        f.debug_struct("MerkleHashSubtree")
            .field("nodes", &InForm(&flat.nodes, node_of))
            .field("levels", &InForm(&flat.levels, pair_of))
            .field("at_start", &flat.at_start)
            .field("at_end", &flat.at_end)
            .finish()
    }
}

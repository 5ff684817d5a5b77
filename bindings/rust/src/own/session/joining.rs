//! What joins the parts of a file that others hashed: ranges at their positions, and sessions.

use super::{Session, SessionFault};
use crate::ffi;
use crate::merklehash::merkle_hash_subtree::MerkleHashSubtree;
use crate::status::{answer, done};

impl Session {
    /// Puts a range of `count` chunks at the positions from `first` on, as [`put`](Self::put) puts chunks. The session gets
    /// a copy of `range`, the subtree of these chunks. It doesn't know their hashes before they are
    /// [kept](Self::keep_hashes) or put.
    ///
    /// The call can't check that `range` is of `count` chunks. If it isn't, the root and the file hash are those of the
    /// chunks of the subtrees, and all else goes by the positions.
    ///
    /// ```
    /// use yurewha::merklehash::{file_hash, MerkleHash, MerkleHashSubtree};
    /// use yurewha::own::{Session, SessionFault};
    ///
    /// let chunks = [1, 2, 3, 4].map(|seed| (MerkleHash::random_from_seed(seed), 100));
    /// let front = MerkleHashSubtree::from_chunks(false, &chunks[..3], false);
    /// let back = MerkleHashSubtree::from_chunks(false, &chunks[3..], false);
    ///
    /// let mut session = Session::new();
    /// session.put_range(3, 1, &back)?;
    /// session.put_range(0, 3, &front)?;
    /// assert_eq!(session.put_range(3, 1, &back), Err(SessionFault::Overlap)); // nothing has changed
    /// assert_eq!(session.finish(4), Ok(file_hash(&chunks)));
    /// # Ok::<(), SessionFault>(())
    /// ```
    ///
    /// # Errors
    ///
    /// - [`InvalidArguments`](SessionFault::InvalidArguments) if `count` is 0, or the range is marked at an end
    /// - otherwise [`Overlap`](SessionFault::Overlap) if one of the positions is taken
    /// - otherwise [`Positions`](SessionFault::Positions) if `first` plus `count` is more than `u64::MAX`
    /// - otherwise [`Sizes`](SessionFault::Sizes) if the sizes of all chunks add up to more than `u64::MAX`
    /// - [`OutOfMemory`](SessionFault::OutOfMemory) if an allocation fails
    pub fn put_range(
        &mut self,
        first: u64,
        count: u64,
        range: &MerkleHashSubtree,
    ) -> std::result::Result<(), SessionFault> {
        // SAFETY: two handles.
        done(unsafe { ffi::yurewha_session_put_range(self.handle.get_mut(), first, count, &mut *range.lock()) })
    }

    /// Puts copies of all runs of another session at their positions, and keeps the hashes that it knows, unless this
    /// session [keeps none](Self::without_hashes). Returns how many of these hashes this session didn't know.
    ///
    /// The order doesn't matter: of many sessions that have no position in common any two can be joined first, and the
    /// last one stands for the chunks of all.
    ///
    /// ```
    /// use yurewha::merklehash::{file_hash, MerkleHash};
    /// use yurewha::own::{Session, SessionFault};
    ///
    /// let chunks = [1, 2, 3, 4].map(|seed| (MerkleHash::random_from_seed(seed), 100));
    /// let (mut one, mut other) = (Session::new(), Session::new());
    /// one.put(3, &chunks[3..])?;
    /// one.put(0, &chunks[..1])?;
    /// other.put(1, &chunks[1..3])?;
    /// assert_eq!(one.join(&other), Ok(2)); // two hashes that are new
    /// assert_eq!(one.join(&other), Err(SessionFault::Overlap)); // nothing has changed
    /// assert_eq!(one.finish(4), Ok(file_hash(&chunks)));
    /// # Ok::<(), SessionFault>(())
    /// ```
    ///
    /// # Errors
    ///
    /// - [`Overlap`](SessionFault::Overlap) if a position is taken in both
    /// - otherwise [`Sizes`](SessionFault::Sizes) if the sizes of all chunks add up to more than `u64::MAX`
    /// - [`OutOfMemory`](SessionFault::OutOfMemory) if an allocation fails
    pub fn join(&mut self, other: &Session) -> std::result::Result<u64, SessionFault> {
        // SAFETY: two handles, and a number to write to. They are two objects, because one is borrowed mutably.
        answer(|new_hashes| unsafe { ffi::yurewha_session_join(self.handle.get_mut(), &mut *other.lock(), new_hashes) })
    }
}

//! Upload sessions: the chunks of a file by their positions, put in any order.

use super::Node;
use crate::error::Result;
use crate::ffi;
use crate::handle::Owned;
use crate::lent_chunks::{lend, room};
use crate::merklehash::merkle_hash_subtree::MerkleHashSubtree;
use crate::merklehash::MerkleHash;
use crate::status::{answer, looked_up, plain, told, told_if_there, Refusal, StatusText};
use std::fmt;
use std::ops::Range;
use std::sync::MutexGuard;

mod comparing;
#[cfg(feature = "serde")]
mod forms;
mod joining;
mod saving;

/// Why a call of a session failed. If several reasons apply, the call returns the first of them, unless an allocation
/// fails before that. After a failure nothing has changed.
///
/// In Python and JavaScript these are the errors `InvalidArguments`, `SessionOverlap`, `SessionPositions`, `SessionSizes`,
/// `OutOfMemory` and `SessionGap`.
///
/// ```
/// use yurewha::own::SessionFault;
///
/// assert_eq!(SessionFault::Overlap.to_string(), "a position is taken");
/// ```
#[derive(Clone, Copy, Debug, PartialEq, Eq)]
#[non_exhaustive]
pub enum SessionFault {
    /// A range that is [put](Session::put_range) is said to have no chunk, or is marked at an end.
    InvalidArguments,
    /// A position is taken.
    Overlap,
    /// The first position plus the number of chunks is more than `u64::MAX`.
    Positions,
    /// The sizes of all chunks add up to more than `u64::MAX` bytes.
    Sizes,
    /// An allocation failed.
    OutOfMemory,
    /// The taken positions aren't exactly those below the total.
    Gap,
}

impl fmt::Display for SessionFault {
    fn fmt(&self, f: &mut fmt::Formatter<'_>) -> fmt::Result {
        match self {
            SessionFault::InvalidArguments => f.write_str("a range has no chunk, or is marked at an end"),
            SessionFault::Overlap => StatusText::of(ffi::YUREWHA_SESSION_OVERLAP).fmt(f),
            SessionFault::Positions => f.write_str("positions past 2^64 - 1"),
            SessionFault::Sizes => f.write_str("sizes past 2^64 - 1"),
            SessionFault::OutOfMemory => StatusText::of(ffi::YUREWHA_MEMORY).fmt(f),
            SessionFault::Gap => f.write_str("a position isn't taken, or one is past the total"),
        }
    }
}

impl std::error::Error for SessionFault {}

impl Refusal for SessionFault {
    fn of(status: ffi::yurewha_status) -> Option<Self> {
        match status {
            ffi::YUREWHA_ARGUMENTS => Some(SessionFault::InvalidArguments),
            ffi::YUREWHA_SESSION_OVERLAP => Some(SessionFault::Overlap),
            ffi::YUREWHA_SESSION_POSITIONS => Some(SessionFault::Positions),
            ffi::YUREWHA_SIZES => Some(SessionFault::Sizes),
            ffi::YUREWHA_MEMORY => Some(SessionFault::OutOfMemory),
            ffi::YUREWHA_SESSION_GAP => Some(SessionFault::Gap),
            _ => None,
        }
    }
}

/// The ranges of a file's chunks, put in any order. A session merges ranges once they are adjacent, and knows which
/// hashes it has seen.
///
/// ```
/// use yurewha::merklehash::{file_hash, MerkleHash};
/// use yurewha::own::{Session, SessionFault};
///
/// let [first, second, third] = [1, 2, 3].map(|seed| (MerkleHash::random_from_seed(seed), 100));
/// let mut session = Session::new();
/// assert_eq!(session.put(2, &[third]), Ok(1)); // one hash that is new
/// assert_eq!(session.put(0, &[first, second]), Ok(2));
/// assert_eq!(session.put(1, &[third]), Err(SessionFault::Overlap)); // nothing has changed
/// assert_eq!(session.put(4, &[third]), Ok(0)); // its hash was seen
/// assert_eq!(session.finish(4), Err(SessionFault::Gap));
/// assert_eq!(session.put(3, &[first]), Ok(0));
/// assert_eq!(session.finish(5), Ok(file_hash(&[first, second, third, first, third])));
/// ```
///
/// A session can be saved and restored: with serde, or by its runs and [`known_hashes`](Self::known_hashes), which
/// [`push_run`](Self::push_run) and [`keep_hashes`](Self::keep_hashes) put into another session.
///
/// If many machines hash a file, each of them has the subtree of its chunks, or a session, and in whatever order these come,
/// [`put_range`](Self::put_range) and [`join`](Self::join) make one session of them.
///
/// Threads may share a session. Threads that read it at once take turns, call by call.
pub struct Session {
    handle: Owned<ffi::yurewha_session>,
}

impl Session {
    /// Returns a session without chunks.
    ///
    /// ```
    /// use yurewha::merklehash::MerkleHash;
    /// use yurewha::own::Session;
    ///
    /// assert_eq!(Session::new().finish(0), Ok(MerkleHash::default()));
    /// ```
    ///
    /// # Panics
    ///
    /// If an allocation fails; see [`try_new`](Self::try_new).
    #[must_use]
    #[track_caller]
    pub fn new() -> Self {
        plain("Session::new", Self::try_new())
    }

    /// Does the same as [`new`](Self::new), but returns an error if an allocation fails.
    ///
    /// ```
    /// use yurewha::own::Session;
    ///
    /// assert_eq!(Session::try_new()?.num_runs(), 0);
    /// # Ok::<(), yurewha::error::CoreError>(())
    /// ```
    ///
    /// # Errors
    ///
    /// [`OutOfMemory`](crate::error::CoreError::OutOfMemory) if an allocation fails
    pub fn try_new() -> Result<Self> {
        // SAFETY: an empty handle to write to.
        let handle = answer(|made: &mut Owned<_>| unsafe { ffi::yurewha_session_new(made.get_mut()) })?;
        Ok(Session { handle })
    }

    /// Returns a session without chunks that keeps no hashes, so that its memory is in proportion to its number of runs.
    /// It counts as new each hash of a put, once.
    ///
    /// ```
    /// use yurewha::merklehash::MerkleHash;
    /// use yurewha::own::Session;
    ///
    /// let chunk = (MerkleHash::random_from_seed(1), 100);
    /// let mut session = Session::without_hashes();
    /// assert_eq!(session.put(7, &[chunk; 3]), Ok(1));
    /// assert_eq!(session.put(0, &[chunk]), Ok(1));
    /// assert!(!session.knows(&chunk.0));
    /// ```
    ///
    /// # Panics
    ///
    /// If an allocation fails; see [`try_without_hashes`](Self::try_without_hashes).
    #[must_use]
    #[track_caller]
    pub fn without_hashes() -> Self {
        plain("Session::without_hashes", Self::try_without_hashes())
    }

    /// Does the same as [`without_hashes`](Self::without_hashes), but returns an error if an allocation fails.
    ///
    /// ```
    /// use yurewha::own::Session;
    ///
    /// assert_eq!(Session::try_without_hashes()?.num_runs(), 0);
    /// # Ok::<(), yurewha::error::CoreError>(())
    /// ```
    ///
    /// # Errors
    ///
    /// [`OutOfMemory`](crate::error::CoreError::OutOfMemory) if an allocation fails
    pub fn try_without_hashes() -> Result<Self> {
        // SAFETY: an empty handle to write to.
        let handle = answer(|made: &mut Owned<_>| unsafe { ffi::yurewha_session_new_without_hashes(made.get_mut()) })?;
        Ok(Session { handle })
    }

    /// Returns a session that keeps no hashes, with the chunks of an iterator at the positions from 0 on. It holds a few
    /// thousand of them at once, so its memory hardly grows with their number.
    ///
    /// ```
    /// use yurewha::merklehash::{file_hash, MerkleHash};
    /// use yurewha::own::Session;
    ///
    /// let chunks = (0..10_000).map(|seed| (MerkleHash::random_from_seed(seed), 100));
    /// let session = Session::from_chunks(chunks.clone())?;
    /// assert_eq!(session.finish(session.num_chunks())?, file_hash(&chunks.collect::<Vec<_>>()));
    /// # Ok::<(), yurewha::own::SessionFault>(())
    /// ```
    ///
    /// # Errors
    ///
    /// - [`Sizes`](SessionFault::Sizes) if the sizes add up to more than `u64::MAX`
    /// - [`OutOfMemory`](SessionFault::OutOfMemory) if an allocation fails
    pub fn from_chunks(chunks: impl IntoIterator<Item = Node>) -> std::result::Result<Self, SessionFault> {
        const AT_ONCE: usize = 4096;
        let out_of_memory = |_| SessionFault::OutOfMemory;
        let mut session = Self::try_without_hashes().map_err(out_of_memory)?;
        let (mut first, mut piece) = (0, room(AT_ONCE).map_err(out_of_memory)?);
        for chunk in chunks {
            piece.push(chunk);
            if piece.len() == AT_ONCE {
                session.put(first, &piece)?;
                first += AT_ONCE as u64;
                piece.clear();
            }
        }
        session.put(first, &piece)?;
        Ok(session)
    }

    /// Does the same as [`clone`](Clone::clone), but returns an error if an allocation fails.
    ///
    /// ```
    /// use yurewha::own::Session;
    ///
    /// assert_eq!(Session::new().try_clone()?.num_runs(), 0);
    /// # Ok::<(), yurewha::error::CoreError>(())
    /// ```
    ///
    /// # Errors
    ///
    /// [`OutOfMemory`](crate::error::CoreError::OutOfMemory) if an allocation fails
    pub fn try_clone(&self) -> Result<Self> {
        // SAFETY: a handle, and another one that is empty to write to.
        let handle =
            answer(|copy: &mut Owned<_>| unsafe { ffi::yurewha_session_copy(&mut *self.lock(), copy.get_mut()) })?;
        Ok(Session { handle })
    }

    // The handle, for one call.
    fn lock(&self) -> MutexGuard<'_, ffi::yurewha_session> {
        self.handle.lock()
    }

    /// Puts chunks at the positions from `first` on. Returns how many of their hashes the session didn't know, each
    /// counted once. With no chunks it returns 0 and changes nothing.
    ///
    /// ```
    /// use yurewha::merklehash::MerkleHash;
    /// use yurewha::own::Session;
    ///
    /// let chunk = (MerkleHash::random_from_seed(1), 100);
    /// let mut session = Session::new();
    /// assert_eq!(session.put(7, &[chunk; 3]), Ok(1));
    /// assert_eq!(session.put(0, &[chunk]), Ok(0));
    /// ```
    ///
    /// # Errors
    ///
    /// - [`Overlap`](SessionFault::Overlap) if one of the positions is taken
    /// - otherwise [`Positions`](SessionFault::Positions) if `first` plus the number of chunks is more than `u64::MAX`
    /// - otherwise [`Sizes`](SessionFault::Sizes) if the sizes of all chunks add up to more than `u64::MAX`
    /// - [`OutOfMemory`](SessionFault::OutOfMemory) if an allocation fails
    pub fn put(&mut self, first: u64, chunks: &[Node]) -> std::result::Result<u64, SessionFault> {
        let chunks = lend(chunks).map_err(|_| SessionFault::OutOfMemory)?;
        // SAFETY: a handle, chunks of their number, and a number to write to.
        answer(|new_hashes| unsafe {
            ffi::yurewha_session_put(self.handle.get_mut(), first, chunks.as_ptr(), chunks.len(), new_hashes)
        })
    }

    /// Returns the number of chunks, which is that of taken positions. The time is proportional to the number of runs.
    ///
    /// ```
    /// use yurewha::merklehash::MerkleHash;
    /// use yurewha::own::Session;
    ///
    /// let mut session = Session::new();
    /// session.put(7, &[(MerkleHash::default(), 100); 3])?;
    /// assert_eq!(session.num_chunks(), 3);
    /// # Ok::<(), yurewha::own::SessionFault>(())
    /// ```
    pub fn num_chunks(&self) -> u64 {
        // SAFETY: a handle, and a number to write to.
        told(|count| unsafe { ffi::yurewha_session_num_chunks(&mut *self.lock(), count) })
    }

    /// Returns the total size of the chunks that were put, in bytes.
    ///
    /// ```
    /// use yurewha::merklehash::MerkleHash;
    /// use yurewha::own::Session;
    ///
    /// let mut session = Session::new();
    /// session.put(7, &[(MerkleHash::default(), 100); 3])?;
    /// assert_eq!(session.total_size(), 300);
    /// # Ok::<(), yurewha::own::SessionFault>(())
    /// ```
    pub fn total_size(&self) -> u64 {
        // SAFETY: a handle, and a number to write to.
        told(|size| unsafe { ffi::yurewha_session_total_size(&mut *self.lock(), size) })
    }

    /// Returns whether a position is taken.
    ///
    /// ```
    /// use yurewha::merklehash::MerkleHash;
    /// use yurewha::own::Session;
    ///
    /// let mut session = Session::new();
    /// session.put(7, &[(MerkleHash::default(), 100)])?;
    /// assert!(session.taken(7) && !session.taken(8));
    /// # Ok::<(), yurewha::own::SessionFault>(())
    /// ```
    pub fn taken(&self, position: u64) -> bool {
        // SAFETY: a handle, and a `bool` to write to.
        told(|taken| unsafe { ffi::yurewha_session_taken(&mut *self.lock(), position, taken) })
    }

    /// Returns the number of runs of adjacent taken positions.
    ///
    /// ```
    /// use yurewha::merklehash::MerkleHash;
    /// use yurewha::own::Session;
    ///
    /// let chunk = (MerkleHash::default(), 100);
    /// let mut session = Session::new();
    /// session.put(7, &[chunk; 2])?;
    /// session.put(0, &[chunk; 2])?;
    /// assert_eq!(session.num_runs(), 2);
    /// # Ok::<(), yurewha::own::SessionFault>(())
    /// ```
    pub fn num_runs(&self) -> usize {
        // SAFETY: a handle, and a number to write to.
        told(|count| unsafe { ffi::yurewha_session_num_runs(&mut *self.lock(), count) })
    }

    /// Returns the first position of a run, and a copy of the subtree of its chunks, which is open at both ends.
    ///
    /// Runs are numbered from 0, by rising position. The result is `None` if there is no such run. The time is
    /// proportional to the index; see [`run_from`](Self::run_from).
    ///
    /// ```
    /// use yurewha::merklehash::MerkleHash;
    /// use yurewha::own::Session;
    ///
    /// let mut session = Session::new();
    /// session.put(7, &[(MerkleHash::default(), 100); 2])?;
    /// let (first, range) = session.range(0).unwrap();
    /// assert_eq!((first, range.total_size()), (7, 200));
    /// assert!(session.range(1).is_none());
    /// # Ok::<(), yurewha::own::SessionFault>(())
    /// ```
    ///
    /// # Panics
    ///
    /// If an allocation fails; see [`try_range`](Self::try_range).
    #[track_caller]
    pub fn range(&self, index: usize) -> Option<(u64, MerkleHashSubtree)> {
        plain("Session::range", self.try_range(index))
    }

    /// Does the same as [`range`](Self::range), but returns an error if an allocation fails.
    ///
    /// ```
    /// use yurewha::own::Session;
    ///
    /// assert!(Session::new().try_range(0)?.is_none());
    /// # Ok::<(), yurewha::error::CoreError>(())
    /// ```
    ///
    /// # Errors
    ///
    /// [`OutOfMemory`](crate::error::CoreError::OutOfMemory) if an allocation fails
    pub fn try_range(&self, index: usize) -> Result<Option<(u64, MerkleHashSubtree)>> {
        // SAFETY: a handle, a number to write to, and an empty handle to write to.
        let run = looked_up(|(first, range): &mut (u64, Owned<_>)| unsafe {
            ffi::yurewha_session_run(&mut *self.lock(), index, first, range.get_mut())
        })?;
        Ok(run.map(|(first, range)| (first, MerkleHashSubtree::of(range))))
    }

    /// Returns the first run that ends after a position: the run that holds it or else the next one. The result is
    /// its positions, and a copy of the subtree of its chunks, which is open at both ends. Finding a run takes
    /// logarithmic time.
    ///
    /// The result is `None` if no run ends after the position.
    ///
    /// ```
    /// use yurewha::merklehash::MerkleHash;
    /// use yurewha::own::Session;
    ///
    /// let mut session = Session::new();
    /// session.put(7, &[(MerkleHash::default(), 100); 2])?;
    /// for position in [0, 7, 8] {
    ///     let (positions, range) = session.run_from(position).unwrap();
    ///     assert_eq!((positions, range.total_size()), (7..9, 200));
    /// }
    /// assert!(session.run_from(9).is_none());
    /// # Ok::<(), yurewha::own::SessionFault>(())
    /// ```
    ///
    /// # Panics
    ///
    /// If an allocation fails; see [`try_run_from`](Self::try_run_from).
    #[track_caller]
    pub fn run_from(&self, position: u64) -> Option<(Range<u64>, MerkleHashSubtree)> {
        plain("Session::run_from", self.try_run_from(position))
    }

    /// Does the same as [`run_from`](Self::run_from), but returns an error if an allocation fails.
    ///
    /// ```
    /// use yurewha::own::Session;
    ///
    /// assert!(Session::new().try_run_from(0)?.is_none());
    /// # Ok::<(), yurewha::error::CoreError>(())
    /// ```
    ///
    /// # Errors
    ///
    /// [`OutOfMemory`](crate::error::CoreError::OutOfMemory) if an allocation fails
    pub fn try_run_from(&self, position: u64) -> Result<Option<(Range<u64>, MerkleHashSubtree)>> {
        // SAFETY: a handle, two numbers to write to, and an empty handle to write to.
        let run = looked_up(|(Range { start, end }, range): &mut (Range<u64>, Owned<_>)| unsafe {
            ffi::yurewha_session_run_from(&mut *self.lock(), position, start, end, range.get_mut())
        })?;
        Ok(run.map(|(positions, range)| (positions, MerkleHashSubtree::of(range))))
    }

    /// Returns all runs by rising position, each as [`range`](Self::range) returns it.
    ///
    /// ```
    /// use yurewha::merklehash::MerkleHash;
    /// use yurewha::own::Session;
    ///
    /// let chunk = (MerkleHash::default(), 100);
    /// let mut session = Session::new();
    /// session.put(7, &[chunk; 2])?;
    /// session.put(0, &[chunk; 3])?;
    /// let sizes: Vec<_> = session.runs().map(|(first, range)| (first, range.total_size())).collect();
    /// assert_eq!(sizes, [(0, 300), (7, 200)]);
    /// # Ok::<(), yurewha::own::SessionFault>(())
    /// ```
    ///
    /// # Panics
    ///
    /// If an allocation fails.
    pub fn runs(&self) -> impl ExactSizeIterator<Item = (u64, MerkleHashSubtree)> + '_ {
        let mut position = 0;
        (0..self.num_runs()).map(move |_| {
            let (positions, range) = self.run_from(position).expect("a run that was counted");
            position = positions.end;
            (positions.start, range)
        })
    }

    /// Returns the ranges of positions below `total` that aren't taken, by rising position.
    ///
    /// ```
    /// use yurewha::merklehash::MerkleHash;
    /// use yurewha::own::Session;
    ///
    /// let chunk = (MerkleHash::default(), 100);
    /// let mut session = Session::new();
    /// session.put(7, &[chunk; 2])?;
    /// session.put(1, &[chunk; 3])?;
    /// assert_eq!(session.gaps(12)?, [0..1, 4..7, 9..12]);
    /// # Ok::<(), Box<dyn std::error::Error>>(())
    /// ```
    ///
    /// # Errors
    ///
    /// [`OutOfMemory`](crate::error::CoreError::OutOfMemory) if an allocation fails
    pub fn gaps(&self, total: u64) -> Result<Vec<Range<u64>>> {
        let mut gaps = room(self.num_runs() + 1)?;
        let mut position = 0;
        // SAFETY: a handle, and two numbers to write to.
        while let Some((first, end)) = told_if_there(|gap: &mut (u64, u64)| unsafe {
            ffi::yurewha_session_next_gap(&mut *self.lock(), position, total, &mut gap.0, &mut gap.1)
        }) {
            gaps.push(first..end);
            position = end;
        }
        Ok(gaps)
    }

    /// Returns the root of all chunks by position.
    ///
    /// ```
    /// use yurewha::merklehash::{xorb_hash, MerkleHash};
    /// use yurewha::own::Session;
    ///
    /// let chunks = [1, 2, 3].map(|seed| (MerkleHash::random_from_seed(seed), 100));
    /// let mut session = Session::new();
    /// session.put(0, &chunks)?;
    /// assert_eq!(session.root(3), Ok(xorb_hash(&chunks)));
    /// # Ok::<(), yurewha::own::SessionFault>(())
    /// ```
    ///
    /// # Errors
    ///
    /// - [`Gap`](SessionFault::Gap) if and only if the taken positions aren't exactly those from 0 to `total` - 1
    /// - [`OutOfMemory`](SessionFault::OutOfMemory) if an allocation fails
    pub fn root(&self, total: u64) -> std::result::Result<MerkleHash, SessionFault> {
        // SAFETY: a handle, and a hash to write to.
        answer(|root: &mut MerkleHash| unsafe { ffi::yurewha_session_root(&mut *self.lock(), total, root.out()) })
    }

    /// Returns the file hash of all chunks by position, without a salt.
    ///
    /// ```
    /// use yurewha::merklehash::{file_hash, MerkleHash};
    /// use yurewha::own::Session;
    ///
    /// let chunks = [1, 2, 3].map(|seed| (MerkleHash::random_from_seed(seed), 100));
    /// let mut session = Session::new();
    /// session.put(1, &chunks[1..])?;
    /// session.put(0, &chunks[..1])?;
    /// assert_eq!(session.finish(3), Ok(file_hash(&chunks)));
    /// # Ok::<(), yurewha::own::SessionFault>(())
    /// ```
    ///
    /// # Errors
    ///
    /// Those of [`root`](Self::root)
    pub fn finish(&self, total: u64) -> std::result::Result<MerkleHash, SessionFault> {
        // SAFETY: a handle, and a hash to write to.
        answer(|hash: &mut MerkleHash| unsafe { ffi::yurewha_session_finish(&mut *self.lock(), total, hash.out()) })
    }

    /// Returns the file hash of all chunks by position, under a salt.
    ///
    /// ```
    /// use yurewha::merklehash::{file_hash_with_salt, MerkleHash};
    /// use yurewha::own::Session;
    ///
    /// let chunks = [1, 2, 3].map(|seed| (MerkleHash::random_from_seed(seed), 100));
    /// let mut session = Session::new();
    /// session.put(0, &chunks)?;
    /// assert_eq!(session.finish_with_salt(3, &[7; 32]), Ok(file_hash_with_salt(&chunks, &[7; 32])));
    /// # Ok::<(), yurewha::own::SessionFault>(())
    /// ```
    ///
    /// # Errors
    ///
    /// Those of [`root`](Self::root)
    pub fn finish_with_salt(&self, total: u64, salt: &[u8; 32]) -> std::result::Result<MerkleHash, SessionFault> {
        // SAFETY: a handle, the bytes of a salt, and a hash to write to.
        answer(|hash: &mut MerkleHash| unsafe {
            ffi::yurewha_session_finish_with_salt(&mut *self.lock(), total, salt.as_ptr().cast(), hash.out())
        })
    }
}

/// A clone has the same chunks, knows the same hashes, and keeps hashes if the session does.
///
/// # Panics
///
/// If an allocation fails; see [`try_clone`](Session::try_clone).
impl Clone for Session {
    #[track_caller]
    fn clone(&self) -> Self {
        plain("Session::clone", self.try_clone())
    }
}

impl Default for Session {
    /// A session without chunks.
    #[track_caller]
    fn default() -> Self {
        Self::new()
    }
}

/// Shows the number of runs.
impl fmt::Debug for Session {
    fn fmt(&self, f: &mut fmt::Formatter<'_>) -> fmt::Result {
        f.debug_struct("Session")
            .field("num_runs", &self.num_runs())
            .finish_non_exhaustive()
    }
}

#[cfg(test)]
mod tests {
    use super::*;

    #[test]
    fn each_status_has_its_fault() {
        let faults = [
            (ffi::YUREWHA_ARGUMENTS, SessionFault::InvalidArguments),
            (ffi::YUREWHA_SESSION_OVERLAP, SessionFault::Overlap),
            (ffi::YUREWHA_SESSION_POSITIONS, SessionFault::Positions),
            (ffi::YUREWHA_SIZES, SessionFault::Sizes),
            (ffi::YUREWHA_MEMORY, SessionFault::OutOfMemory),
            (ffi::YUREWHA_SESSION_GAP, SessionFault::Gap),
        ];
        for (status, fault) in faults {
            assert_eq!(SessionFault::of(status), Some(fault));
        }
        for status in [ffi::YUREWHA_DONE, ffi::YUREWHA_EMPTY_HANDLE, 32, 35, 36, 38] {
            assert_eq!(SessionFault::of(status), None);
        }
    }
}

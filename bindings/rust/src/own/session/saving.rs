//! What saves and restores a session: its runs, and the hashes that it knows.

use super::Session;
use crate::error::Result;
use crate::ffi;
use crate::handle::Owned;
use crate::lent_chunks::{room, zeros};
use crate::merklehash::merkle_hash_subtree::MerkleHashSubtree;
use crate::merklehash::MerkleHash;
use crate::status::{answer, done, told};
use std::ops::Range;

// Room for the text of a session without chunks, for a known hash, and for each run, unless its subtree has many nodes.
const TEXT_LENGTH: usize = 64;
const HASH_LENGTH: usize = 90;
const RUN_LENGTH: usize = 1 << 10;

impl Session {
    /// Returns the session as compact JSON text: `runs`, by rising position, each with its `first` position and its `end`,
    /// the position after its last one, and `chunks`, the subtree of its chunks; and `known_hashes`, by rising order.
    /// Python, JavaScript and serde read this text, too, and Python and JavaScript write it. Equal sessions have equal
    /// texts.
    ///
    /// ```
    /// use yurewha::merklehash::MerkleHash;
    /// use yurewha::own::Session;
    ///
    /// let mut session = Session::new();
    /// session.keep_hashes(&[MerkleHash::from([1, 2, 3, 4])])?;
    /// assert_eq!(session.to_json()?, r#"{"runs":[],"known_hashes":[[1,2,3,4]]}"#);
    /// # Ok::<(), yurewha::error::CoreError>(())
    /// ```
    ///
    /// # Errors
    ///
    /// [`OutOfMemory`](crate::error::CoreError::OutOfMemory) if an allocation fails
    pub fn to_json(&self) -> Result<String> {
        let mut handle = self.lock();
        // SAFETY: a handle, and two numbers to write to.
        let (runs, hashes): (usize, usize) = (
            told(|count| unsafe { ffi::yurewha_session_num_runs(&mut *handle, count) }),
            told(|count| unsafe { ffi::yurewha_session_num_known_hashes(&mut *handle, count) }),
        );
        let mut text: Vec<u8> = zeros(TEXT_LENGTH + HASH_LENGTH * hashes + RUN_LENGTH * runs)?;
        loop {
            let (room, mut length) = (text.len(), 0);
            // SAFETY: a handle, a room with its length, and a number to write to.
            let status = unsafe {
                ffi::yurewha_session_to_json(&mut *handle, true, text.as_mut_ptr().cast(), room, &mut length)
            };
            if status != ffi::YUREWHA_ROOM {
                done(status)?;
                text.truncate(length);
                return Ok(String::from_utf8(text).expect("JSON texts of sessions are ASCII"));
            }
            text = zeros(length)?;
        }
    }

    /// Reads a session from JSON text: what [`to_json`](Self::to_json) returned, or Python, JavaScript or serde wrote. Members
    /// with other names are ignored. That a run has as many chunks as positions can't be checked. Time and memory are in
    /// proportion to the text, so refuse a stranger's text above a limit before this call.
    ///
    /// ```
    /// use yurewha::error::CoreError;
    /// use yurewha::own::Session;
    ///
    /// let session = Session::from_json(r#"{"runs":[],"known_hashes":[[1,2,3,4]]}"#)?;
    /// assert_eq!(session.known_hashes()?, [[1, 2, 3, 4].into()]);
    /// let refused = Session::from_json(r#"{"runs":[7],"known_hashes":[]}"#).unwrap_err();
    /// assert_eq!(refused, CoreError::InvalidSession(3));
    /// # Ok::<(), CoreError>(())
    /// ```
    ///
    /// # Errors
    ///
    /// [`InvalidText`] if the text isn't JSON, or an object in it has a member twice; [`OutOfMemory`] if an allocation fails;
    /// or [`InvalidSession`] with the lowest rule that the value breaks:
    ///
    /// 1. It is an object.
    /// 2. `runs` and `known_hashes` are arrays.
    /// 3. A run is an object with `first` and `end`, whole numbers below 2^64, and `chunks`.
    /// 4. A known hash is an array of four whole numbers below 2^64.
    /// 5. The `chunks` of each run are a subtree. If not, the error is [`InvalidJson`] with the rule of subtrees that the
    ///    first of them breaks.
    /// 6. Each run can follow those before it, as in [`push_run`](Self::push_run).
    /// 7. The sizes of all chunks add up to at most 2^64 - 1.
    ///
    /// [`InvalidText`]: crate::error::CoreError::InvalidText
    /// [`InvalidJson`]: crate::error::CoreError::InvalidJson
    /// [`InvalidSession`]: crate::error::CoreError::InvalidSession
    /// [`OutOfMemory`]: crate::error::CoreError::OutOfMemory
    pub fn from_json(text: &str) -> Result<Self> {
        Self::read_json(text, true)
    }

    /// Does the same as [`from_json`](Self::from_json), but the session [keeps no hashes](Self::without_hashes), and leaves
    /// out those of the text.
    ///
    /// ```
    /// use yurewha::own::Session;
    ///
    /// let session = Session::from_json_without_hashes(r#"{"runs":[],"known_hashes":[[1,2,3,4]]}"#)?;
    /// assert!(session.known_hashes()?.is_empty() && !session.keeps_hashes());
    /// # Ok::<(), yurewha::error::CoreError>(())
    /// ```
    ///
    /// # Errors
    ///
    /// Those of [`from_json`](Self::from_json)
    pub fn from_json_without_hashes(text: &str) -> Result<Self> {
        Self::read_json(text, false)
    }

    fn read_json(text: &str, keep_hashes: bool) -> Result<Self> {
        // SAFETY: a text of its length, and an empty handle to write to.
        let handle = answer(|session: &mut Owned<_>| unsafe {
            ffi::yurewha_session_from_json(text.as_ptr().cast(), text.len(), keep_hashes, session.get_mut())
        })?;
        Ok(Session { handle })
    }

    /// Adds a run after all runs of this session: its positions, and the subtree of its chunks. So a session can be
    /// restored from what [`run_from`](Self::run_from) and [`known_hashes`](Self::known_hashes) returned.
    ///
    /// The call can't check that there are as many chunks as positions. If there aren't, the root and the file hash are
    /// those of the chunks of the subtrees, and all else goes by the positions. The session doesn't know the hashes of
    /// these chunks before they are [kept](Self::keep_hashes) or put.
    ///
    /// ```
    /// use yurewha::merklehash::MerkleHash;
    /// use yurewha::own::Session;
    ///
    /// let chunk = (MerkleHash::random_from_seed(1), 100);
    /// let mut saved = Session::new();
    /// saved.put(7, &[chunk; 2])?;
    /// saved.put(0, &[chunk; 3])?;
    ///
    /// let mut restored = Session::new();
    /// let mut end = 0;
    /// while let Some((positions, range)) = saved.run_from(end) {
    ///     end = positions.end;
    ///     restored.push_run(positions, &range)?;
    /// }
    /// restored.keep_hashes(&saved.known_hashes()?)?;
    /// assert_eq!(restored.put(3, &[chunk; 4]), Ok(0));
    /// saved.put(3, &[chunk; 4])?;
    /// assert_eq!(restored.root(9), saved.root(9));
    /// # Ok::<(), Box<dyn std::error::Error>>(())
    /// ```
    ///
    /// # Errors
    ///
    /// - [`InvalidArguments`](crate::error::CoreError::InvalidArguments) if there is no position, the subtree is marked
    ///   at an end, or a position from the one before the run on is taken
    /// - otherwise [`SizeOverflow`](crate::error::CoreError::SizeOverflow) if the sizes of all chunks add up to more
    ///   than `u64::MAX`
    /// - [`OutOfMemory`](crate::error::CoreError::OutOfMemory) if an allocation fails
    pub fn push_run(&mut self, positions: Range<u64>, range: &MerkleHashSubtree) -> Result<()> {
        let Range { start, end } = positions;
        // SAFETY: two handles.
        done(unsafe { ffi::yurewha_session_push_run(self.handle.get_mut(), start, end, &mut *range.lock()) })
    }

    /// Keeps hashes, as if an earlier put had had them. The session then knows them.
    ///
    /// ```
    /// use yurewha::merklehash::MerkleHash;
    /// use yurewha::own::Session;
    ///
    /// let [one, two] = [1, 2].map(MerkleHash::random_from_seed);
    /// let mut session = Session::new();
    /// session.keep_hashes(&[one])?;
    /// assert_eq!(session.put(0, &[(one, 100), (two, 100)]), Ok(1));
    /// # Ok::<(), yurewha::error::CoreError>(())
    /// ```
    ///
    /// # Errors
    ///
    /// - [`InvalidArguments`](crate::error::CoreError::InvalidArguments) if there are hashes, and the session keeps none
    /// - [`OutOfMemory`](crate::error::CoreError::OutOfMemory) if an allocation fails. The session then knows the same
    ///   hashes as before.
    pub fn keep_hashes(&mut self, hashes: &[MerkleHash]) -> Result<()> {
        // SAFETY: a handle, and hashes of their number.
        done(unsafe { ffi::yurewha_session_keep_hashes(self.handle.get_mut(), hashes.as_ptr().cast(), hashes.len()) })
    }

    /// Returns whether this session keeps the hashes of its chunks, as one [without hashes](Self::without_hashes) doesn't.
    ///
    /// ```
    /// use yurewha::own::Session;
    ///
    /// assert!(Session::new().keeps_hashes() && !Session::without_hashes().keeps_hashes());
    /// ```
    pub fn keeps_hashes(&self) -> bool {
        // SAFETY: a handle, and a `bool` to write to.
        told(|keeps| unsafe { ffi::yurewha_session_keeps_hashes(&mut *self.lock(), keeps) })
    }

    /// Returns whether this session knows a hash: whether a put had it, or it was [kept](Self::keep_hashes).
    ///
    /// ```
    /// use yurewha::merklehash::MerkleHash;
    /// use yurewha::own::Session;
    ///
    /// let [one, two] = [1, 2].map(MerkleHash::random_from_seed);
    /// let mut session = Session::new();
    /// session.put(7, &[(one, 100)])?;
    /// assert!(session.knows(&one) && !session.knows(&two));
    /// # Ok::<(), yurewha::own::SessionFault>(())
    /// ```
    pub fn knows(&self, hash: &MerkleHash) -> bool {
        // SAFETY: a handle, a hash, and a `bool` to write to.
        told(|known| unsafe { ffi::yurewha_session_knows(&mut *self.lock(), hash.for_call(), known) })
    }

    /// Returns the hashes that this session knows, each once, in no particular order: those of all chunks that were
    /// put, and those that were [kept](Self::keep_hashes).
    ///
    /// ```
    /// use yurewha::merklehash::MerkleHash;
    /// use yurewha::own::Session;
    ///
    /// let hash = MerkleHash::random_from_seed(1);
    /// let mut session = Session::new();
    /// session.put(7, &[(hash, 100); 2])?;
    /// assert_eq!(session.known_hashes()?, [hash]);
    /// # Ok::<(), Box<dyn std::error::Error>>(())
    /// ```
    ///
    /// # Errors
    ///
    /// [`OutOfMemory`](crate::error::CoreError::OutOfMemory) if an allocation fails
    pub fn known_hashes(&self) -> Result<Vec<MerkleHash>> {
        let mut handle = self.lock();
        // SAFETY: a handle, and a number to write to.
        let count = told(|count| unsafe { ffi::yurewha_session_num_known_hashes(&mut *handle, count) });
        let mut hashes = room(count)?;
        hashes.resize(count, MerkleHash::default());
        // SAFETY: a handle, and hashes to write to, as many as it says.
        done(unsafe { ffi::yurewha_session_known_hashes(&mut *handle, hashes.as_mut_ptr().cast(), count) })?;
        Ok(hashes)
    }
}

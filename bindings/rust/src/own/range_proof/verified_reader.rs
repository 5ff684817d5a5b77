//! A reader of a file that is somewhere else: what was checked of it, and is kept.

use super::{PartFault, RangeProof, WantedPart};
use crate::error::Result;
use crate::ffi;
use crate::handle::Owned;
use crate::merklehash::MerkleHash;
use crate::status::{answer, told, told_if_there};
use std::fmt;
use std::ops::Range;

/// Chunks of a file that were checked against its hash, up to a number of bytes, and the file's size once that was shown.
///
/// It asks nobody for anything. Whoever reads the file asks it what is missing, fetches a proof and data from whomever, and
/// checks them in a [`WantedPart`], which the reader takes:
///
/// ```
/// use std::ops::Range;
/// use yurewha::merklehash::compute_data_hash;
/// use yurewha::own::{HashTree, RangeProof, VerifiedReader};
///
/// let data = [&b"a chunk"[..], b"another", b"and a third"];
/// // A server keeps the data and the tree. Nobody has to trust it.
/// let tree = HashTree::from_chunks(&data.map(|data| (compute_data_hash(data), data.len() as u64)))?;
/// let prove = |bytes: Range<u64>| tree.proof(tree.chunks_at(bytes).expect("bytes of the file"));
/// let fetch = |bytes: Range<u64>| data.concat()[bytes.start as usize..bytes.end as usize].to_vec();
///
/// let reader = VerifiedReader::new(&tree.file_hash(), 4 << 20)?;
/// let wanted = 5..17;
/// while let Some(missing) = reader.needs(wanted.clone(), 4 << 20) {
///     let mut part = reader.open(&prove(missing.clone())?, missing, 1 << 20)?;
///     let sent = fetch(part.range());
///     part.check(&sent).ok_or("this isn't the file's data")?;
///     reader.take(part)?;
/// }
/// let mut bytes = [0; 12];
/// assert_eq!(reader.read(wanted.start, &mut bytes), 12);
/// assert_eq!((&bytes, reader.size()), (b"nkanotherand", Some(25)));
/// # Ok::<(), Box<dyn std::error::Error>>(())
/// ```
///
/// A reader may keep less than what was just taken, so a loop like this one ends only if all wanted bytes have room. Else use
/// what [`check`](WantedPart::check) returns.
///
/// What it hands out is part of every file with the hash under the salt, or two messages with one BLAKE3 hash were found. The
/// library is proved to have this property; a file is here a list of chunks.
///
/// Threads may share a reader. They take turns, call by call, and open and check parts at once. The chunk that was used
/// longest ago goes first.
pub struct VerifiedReader {
    handle: Owned<ffi::yurewha_reader>,
    file_hash: MerkleHash,
    salt: [u8; 32],
}

impl VerifiedReader {
    /// Makes a reader of the file with this hash, which keeps nothing yet. Its chunks will count at most `most`, where each
    /// counts its bytes and 128 for the memory beside them.
    ///
    /// # Errors
    ///
    /// [`OutOfMemory`](crate::error::CoreError::OutOfMemory) if an allocation fails
    pub fn new(file_hash: &MerkleHash, most: u64) -> Result<Self> {
        Self::with_salt(file_hash, &[0; 32], most)
    }

    /// Makes a reader of the file with this hash under a salt, as [`new`](Self::new) does for one without a salt.
    ///
    /// ```
    /// use yurewha::merklehash::{file_hash_with_salt, MerkleHash};
    /// use yurewha::own::{PartFault, RangeProof, VerifiedReader};
    ///
    /// let chunks = [1, 2, 3].map(|seed| (MerkleHash::random_from_seed(seed), 100));
    /// let (hash, proof) = (file_hash_with_salt(&chunks, &[7; 32]), RangeProof::from_chunks(&chunks, 1..2)?);
    /// assert!(VerifiedReader::with_salt(&hash, &[7; 32], 0)?.open(&proof, 100..200, 0).is_ok());
    /// assert_eq!(VerifiedReader::new(&hash, 0)?.open(&proof, 100..200, 0).unwrap_err(), PartFault::ProofMismatch);
    /// # Ok::<(), yurewha::error::CoreError>(())
    /// ```
    ///
    /// # Errors
    ///
    /// Those of [`new`](Self::new)
    pub fn with_salt(file_hash: &MerkleHash, salt: &[u8; 32], most: u64) -> Result<Self> {
        // SAFETY: a hash, 32 bytes, as the header's struct has them, and an empty handle to write to.
        let handle = answer(|reader: &mut Owned<_>| unsafe {
            ffi::yurewha_reader_new(file_hash.for_call(), salt.as_ptr().cast(), most, reader.get_mut())
        })?;
        Ok(VerifiedReader {
            handle,
            file_hash: *file_hash,
            salt: *salt,
        })
    }

    /// Copies the bytes that are kept from the place `from` on to the front of `room`, as far as they follow one another.
    /// Returns how many these are. The rest of `room` stays the same. Their chunks count as used last.
    pub fn read(&self, from: u64, room: &mut [u8]) -> usize {
        let length = room.len();
        // SAFETY: a handle, a room with its length, and two numbers to write to.
        let (filled, _): (usize, u64) = told(|(filled, end)| unsafe {
            ffi::yurewha_reader_read(
                &mut *self.handle.lock(),
                from,
                room.as_mut_ptr(),
                length,
                1,
                filled,
                end,
            )
        });
        filled
    }

    /// Returns what is missing of some bytes, or of those up to the end of the file if its size is known: from the first
    /// byte that isn't kept on, at most `piece` bytes, or one if that is 0. Returns `None` if all are kept.
    ///
    /// ```
    /// use yurewha::merklehash::MerkleHash;
    /// use yurewha::own::VerifiedReader;
    ///
    /// let reader = VerifiedReader::new(&MerkleHash::random_from_seed(1), 0)?;
    /// assert_eq!(reader.needs(5..100, 10), Some(5..15));
    /// assert_eq!(reader.needs(5..5, 10), None);
    /// # Ok::<(), yurewha::error::CoreError>(())
    /// ```
    #[must_use]
    pub fn needs(&self, bytes: Range<u64>, piece: u64) -> Option<Range<u64>> {
        // SAFETY: a handle, and two numbers to write to.
        told_if_there(|Range { start, end }| unsafe {
            ffi::yurewha_reader_needs(&mut *self.handle.lock(), bytes.start, bytes.end, piece, start, end)
        })
    }

    /// Returns the piece of the file that has a place, where pieces of `piece` bytes follow one another from the file's start,
    /// so that proofs that were made of each piece can be asked for. The last one ends with the file, if its size is known.
    /// Returns `None` if `piece` is 0, or if the file has no byte at the place.
    ///
    /// ```
    /// use yurewha::merklehash::MerkleHash;
    /// use yurewha::own::VerifiedReader;
    ///
    /// let reader = VerifiedReader::new(&MerkleHash::random_from_seed(1), 0)?;
    /// assert_eq!(reader.piece_at(25, 10), Some(20..30));
    /// assert_eq!(reader.piece_at(25, 0), None);
    /// # Ok::<(), yurewha::error::CoreError>(())
    /// ```
    #[must_use]
    pub fn piece_at(&self, place: u64, piece: u64) -> Option<Range<u64>> {
        // SAFETY: a handle, and two numbers to write to.
        told_if_there(|Range { start, end }| unsafe {
            ffi::yurewha_reader_piece(&mut *self.handle.lock(), place, piece, start, end)
        })
    }

    /// Returns the size of the file in bytes, or `None` until a part with a checked chunk was taken.
    #[must_use]
    pub fn size(&self) -> Option<u64> {
        // SAFETY: a handle, and a number to write to.
        told_if_there(|size| unsafe { ffi::yurewha_reader_size(&mut *self.handle.lock(), size) })
    }

    /// Returns what all chunks count: their bytes, and 128 for each.
    #[must_use]
    pub fn counted(&self) -> u64 {
        // SAFETY: a handle, and a number to write to.
        told(|counted| unsafe { ffi::yurewha_reader_counted(&mut *self.handle.lock(), counted) })
    }

    /// Changes what all chunks may count, and drops those that were used longest ago until they do.
    ///
    /// ```
    /// use yurewha::merklehash::{compute_data_hash, file_hash};
    /// use yurewha::own::{RangeProof, VerifiedReader};
    ///
    /// let chunk = (compute_data_hash(b"a chunk"), 7);
    /// let reader = VerifiedReader::new(&file_hash(&[chunk]), 1 << 20)?;
    /// let mut part = reader.open(&RangeProof::from_chunks(&[chunk], 0..1)?, 0..7, 0)?;
    /// assert!(part.check(b"a chunk").is_some());
    /// reader.take(part)?;
    /// assert_eq!(reader.counted(), 7 + 128);
    /// reader.keep_at_most(100);
    /// assert_eq!((reader.counted(), reader.size()), (0, Some(7)));
    /// # Ok::<(), Box<dyn std::error::Error>>(())
    /// ```
    pub fn keep_at_most(&self, most: u64) {
        // SAFETY: a handle.
        told(|(): &mut ()| unsafe { ffi::yurewha_reader_keep_at_most(&mut *self.handle.lock(), most) });
    }

    /// Opens a proof for some bytes of the file, or for those up to its end if that comes first. The proof may come from
    /// anybody. Its range may go at most `beyond` bytes beyond them on each side. The reader is unchanged.
    ///
    /// A proof of a file without bytes is opened for any of them.
    ///
    /// # Errors
    ///
    /// - [`ProofMismatch`](PartFault::ProofMismatch) if the proof doesn't show the file hash
    /// - otherwise [`Elsewhere`](PartFault::Elsewhere) if its range doesn't hold the bytes, or the file ends before them
    /// - otherwise [`TooFar`](PartFault::TooFar) if it goes more than `beyond` bytes beyond them
    /// - [`OutOfMemory`](PartFault::OutOfMemory) if an allocation fails
    pub fn open(
        &self,
        proof: &RangeProof,
        bytes: Range<u64>,
        beyond: u64,
    ) -> std::result::Result<WantedPart, PartFault> {
        WantedPart::open(proof, (&self.file_hash, &self.salt), bytes, beyond)
    }

    /// Keeps the chunks of a part that were checked, and drops the chunks that were used longest ago until all count as much
    /// as they may. If a chunk was checked, the size of the file is known from now on. A chunk for which an allocation fails
    /// isn't kept.
    ///
    /// # Errors
    ///
    /// [`OtherFile`] with the part if it is of another file hash or salt than this reader, or its proof says another size of
    /// the file than is known. Then nothing has changed.
    pub fn take(&self, mut part: WantedPart) -> std::result::Result<(), OtherFile> {
        // SAFETY: two handles.
        let taken = told_if_there(|(): &mut ()| unsafe {
            ffi::yurewha_reader_take(&mut *self.handle.lock(), part.handle.get_mut())
        });
        taken.ok_or(OtherFile(part))
    }
}

/// Shows what all chunks count, and the file's size.
impl fmt::Debug for VerifiedReader {
    fn fmt(&self, f: &mut fmt::Formatter<'_>) -> fmt::Result {
        f.debug_struct("VerifiedReader")
            .field("file_hash", &self.file_hash)
            .field("counted", &self.counted())
            .field("size", &self.size())
            .finish_non_exhaustive()
    }
}

/// A part that isn't of a reader's file, unchanged.
///
/// ```
/// use yurewha::merklehash::{file_hash, MerkleHash};
/// use yurewha::own::{RangeProof, VerifiedReader};
///
/// let chunks = [1, 2, 3].map(|seed| (MerkleHash::random_from_seed(seed), 100));
/// let reader = VerifiedReader::new(&file_hash(&chunks), 1 << 20)?;
/// let part = reader.open(&RangeProof::from_chunks(&chunks, 1..2)?, 100..200, 0)?;
/// let refused = VerifiedReader::new(&MerkleHash::default(), 1 << 20)?.take(part).unwrap_err();
/// assert_eq!(refused.to_string(), "the part is of another file");
/// reader.take(refused.0)?;
/// # Ok::<(), Box<dyn std::error::Error>>(())
/// ```
#[derive(Debug)]
pub struct OtherFile(pub WantedPart);

impl fmt::Display for OtherFile {
    fn fmt(&self, f: &mut fmt::Formatter<'_>) -> fmt::Result {
        f.write_str("the part is of another file")
    }
}

impl std::error::Error for OtherFile {}

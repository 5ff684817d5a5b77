//! A part of a file that was asked for, which checks data.

use super::{Lists, OpenFault, RangeProof};
use crate::ffi;
use crate::handle::Owned;
use crate::lent_chunks::lend;
use crate::merklehash::MerkleHash;
use crate::status::{done, told, told_if_shown, Refusal, StatusText};
use std::fmt;
use std::ops::Range;

/// Some bytes of a file that was asked for, and what was checked of them. [`VerifiedReader::open`] makes it.
///
/// A part belongs to whoever asked. Opening and checking it use no reader, so threads do both at once. Any number of parts
/// may be open, and [`VerifiedReader::take`] gets them in any order, or never.
///
/// ```
/// use yurewha::merklehash::compute_data_hash;
/// use yurewha::own::{HashTree, VerifiedReader};
///
/// let data = [&b"a chunk"[..], b"another", b"and a third"];
/// let tree = HashTree::from_chunks(&data.map(|data| (compute_data_hash(data), data.len() as u64)))?;
/// let reader = VerifiedReader::new(&tree.file_hash(), 1 << 20)?;
/// let mut part = reader.open(&tree.proof(1..3)?, 8..16, 1 << 20)?;
/// assert_eq!(part.range(), 7..25); // the data of these places is fetched and checked
/// assert_eq!(part.check(b"anotherand a third"), Some(&b"notheran"[..]));
/// assert_eq!(part.check(b"anotherand a fifth"), None);
/// assert_eq!(part.checked(), (1, 14)); // the chunk after the first one is wrong
/// # Ok::<(), Box<dyn std::error::Error>>(())
/// ```
///
/// [`VerifiedReader::open`]: super::VerifiedReader::open
/// [`VerifiedReader::take`]: super::VerifiedReader::take
pub struct WantedPart {
    pub(super) handle: Owned<ffi::yurewha_part>,
    range: Range<u64>,
}

impl WantedPart {
    // Opens a proof for bytes of the file with this hash under this salt.
    pub(super) fn open(
        proof: &RangeProof,
        (file_hash, salt): (&MerkleHash, &[u8; 32]),
        bytes: Range<u64>,
        beyond: u64,
    ) -> Result<Self, PartFault> {
        let nodes = lend(&proof.nodes).map_err(|_| PartFault::OutOfMemory)?;
        let it = Lists::of(&proof.levels, &nodes);
        let (mut handle, mut range) = (Owned::default(), 0..0);
        let Range { start, end } = &mut range;
        // SAFETY: levels and nodes of their numbers, a hash, 32 bytes, two numbers to write to, and an empty handle to write to.
        let status = unsafe {
            ffi::yurewha_part_open(
                it.levels,
                it.level_count,
                it.nodes,
                it.node_count,
                file_hash.for_call(),
                salt.as_ptr().cast(),
                bytes.start,
                bytes.end,
                beyond,
                start,
                end,
                handle.get_mut(),
            )
        };
        match status {
            ffi::YUREWHA_ELSEWHERE => Err(PartFault::Elsewhere(range)),
            ffi::YUREWHA_TOO_FAR => Err(PartFault::TooFar(range)),
            status => done(status).map(|()| WantedPart { handle, range }),
        }
    }

    /// Returns where in the file the proof's range begins and ends, in bytes: the data of these places is what
    /// [`check`](Self::check) checks. Until then, the places are the proof's own word.
    #[must_use]
    pub fn range(&self) -> Range<u64> {
        self.range.clone()
    }

    /// Returns the size of the file in bytes, as the proof says it. Until data was checked, it is the proof's own word.
    ///
    /// ```
    /// use yurewha::merklehash::{file_hash, MerkleHash};
    /// use yurewha::own::{RangeProof, VerifiedReader};
    ///
    /// let chunks = [1, 2, 3].map(|seed| (MerkleHash::random_from_seed(seed), 100));
    /// let part = VerifiedReader::new(&file_hash(&chunks), 0)?.open(&RangeProof::from_chunks(&chunks, 1..2)?, 110..120, 100)?;
    /// assert_eq!((part.range(), part.file_size()), (100..200, 300));
    /// # Ok::<(), Box<dyn std::error::Error>>(())
    /// ```
    #[must_use]
    pub fn file_size(&self) -> u64 {
        // SAFETY: a handle, and a number to write to.
        told(|size| unsafe { ffi::yurewha_part_file_size(&mut *self.handle.lock(), size) })
    }

    /// Checks the data of all chunks of the range, which come one after another with nothing else. Returns those of the
    /// bytes that were asked for, up to the end of the file if that comes first: they are a part of `data`. Returns `None`
    /// if a chunk is wrong, or the data is too short or too long.
    ///
    /// The part gets copies of the chunks that are right, up to the first one that is wrong, instead of those of an earlier
    /// call. So a reader that [takes](super::VerifiedReader::take) the part keeps what came before a fault. A chunk for
    /// which an allocation fails isn't copied.
    ///
    /// If it accepts data, each file with the hash and the salt of the reader has these bytes at their place. Otherwise two
    /// messages with one BLAKE3 hash were found.
    #[must_use]
    pub fn check<'d>(&mut self, data: &'d [u8]) -> Option<&'d [u8]> {
        self.checked_data(data, true)
    }

    /// Does the same as [`check`](Self::check), but copies no chunk and allocates nothing. The part has no chunks then.
    ///
    /// ```
    /// use yurewha::merklehash::{compute_data_hash, file_hash};
    /// use yurewha::own::{RangeProof, VerifiedReader};
    ///
    /// let chunk = (compute_data_hash(b"a chunk"), 7);
    /// let reader = VerifiedReader::new(&file_hash(&[chunk]), 1 << 20)?;
    /// let mut part = reader.open(&RangeProof::from_chunks(&[chunk], 0..1)?, 2..7, 1 << 20)?;
    /// assert_eq!(part.check_only(b"a chunk"), Some(&b"chunk"[..]));
    /// reader.take(part)?;
    /// assert_eq!(reader.counted(), 0);
    /// # Ok::<(), Box<dyn std::error::Error>>(())
    /// ```
    #[must_use]
    pub fn check_only<'d>(&mut self, data: &'d [u8]) -> Option<&'d [u8]> {
        self.checked_data(data, false)
    }

    fn checked_data<'d>(&mut self, data: &'d [u8], keep: bool) -> Option<&'d [u8]> {
        let handle = self.handle.get_mut();
        // SAFETY: a handle, data of its length, and two numbers to write to.
        let (start, count): (usize, usize) = told_if_shown(|(start, count)| unsafe {
            ffi::yurewha_part_check(handle, data.as_ptr(), data.len(), keep, start, count)
        })?;
        data.get(start..)?.get(..count)
    }

    /// Returns how many chunks of the range the last check found right, and where in the file they end, in bytes. The first
    /// chunk that was wrong has this number, as the chunks of the range count from 0, and begins at this place. If all were
    /// right, these are the number of chunks and the end of the range.
    #[must_use]
    pub fn checked(&self) -> (usize, u64) {
        // SAFETY: a handle, and two numbers to write to.
        told(|(chunks, place)| unsafe { ffi::yurewha_part_checked(&mut *self.handle.lock(), chunks, place) })
    }
}

/// Shows where the range is, and how many of its chunks were checked.
impl fmt::Debug for WantedPart {
    fn fmt(&self, f: &mut fmt::Formatter<'_>) -> fmt::Result {
        f.debug_struct("WantedPart")
            .field("range", &self.range)
            .field("checked", &self.checked())
            .finish_non_exhaustive()
    }
}

/// Why a proof isn't that of the bytes that were asked for. If several reasons apply, it is the first of them, unless an
/// allocation fails before that.
///
/// ```
/// use yurewha::own::PartFault;
///
/// let text = "the proof is of the bytes from 7 up to 14, and not of those that were asked for";
/// assert_eq!(PartFault::Elsewhere(7..14).to_string(), text);
/// ```
///
/// Later versions may have more variants, so a `match` needs an arm for others.
#[derive(Clone, Debug, PartialEq, Eq)]
#[non_exhaustive]
pub enum PartFault {
    /// The proof doesn't show the file hash. It is a proof of another file, was altered, or the salt is another.
    ProofMismatch,
    /// The proof's range, which is at these places, doesn't hold the bytes. Or the file ends before them.
    Elsewhere(Range<u64>),
    /// The proof's range, which is at these places, goes too far beyond the bytes.
    TooFar(Range<u64>),
    /// An allocation failed.
    OutOfMemory,
}

impl fmt::Display for PartFault {
    fn fmt(&self, f: &mut fmt::Formatter<'_>) -> fmt::Result {
        match self {
            PartFault::ProofMismatch => OpenFault::ProofMismatch.fmt(f),
            PartFault::Elsewhere(Range { start, end }) => {
                write!(
                    f,
                    "the proof is of the bytes from {start} up to {end}, and not of those that were asked for"
                )
            }
            PartFault::TooFar(Range { start, end }) => {
                write!(
                    f,
                    "the proof is of the bytes from {start} up to {end}, too far beyond those that were asked for"
                )
            }
            PartFault::OutOfMemory => StatusText::of(ffi::YUREWHA_MEMORY).fmt(f),
        }
    }
}

impl std::error::Error for PartFault {}

// The faults with places aren't here, since their status doesn't say them.
impl Refusal for PartFault {
    fn of(status: ffi::yurewha_status) -> Option<Self> {
        match status {
            ffi::YUREWHA_MISMATCH => Some(PartFault::ProofMismatch),
            ffi::YUREWHA_MEMORY => Some(PartFault::OutOfMemory),
            _ => None,
        }
    }
}

//! Range proofs: that some adjacent chunks are part of a file, shown to whoever knows the file's hash.

use super::Node;
use crate::error::{CoreError, Result};
use crate::ffi;
use crate::handle::Shared;
use crate::lent_chunks::{lend, node_of, room, zeros};
use crate::merklehash::MerkleHash;
#[cfg(feature = "serde")]
use crate::status::done;
use crate::status::{answer, plain, Refusal, StatusText};
use std::fmt;
use std::ops::Range;
use std::ptr;

#[cfg(feature = "serde")]
mod forms;
mod hash_tree;
mod opened_range;
mod verified_reader;
mod wanted_part;

pub use hash_tree::{Difference, HashTree};
pub use opened_range::OpenedRange;
use opened_range::Shown;
pub use verified_reader::{OtherFile, VerifiedReader};
pub use wanted_part::{PartFault, WantedPart};

// The most levels of a proof, and the most nodes on their sides.
const MOST_LEVELS: usize = 64;
const MOST_BESIDE: usize = 2 * 8 * MOST_LEVELS;
// The number of bytes of a node in the binary form.
const NODE_LENGTH: usize = 40;

/// The nodes of some adjacent chunks of a file, and the other nodes of each group on the way up to the root.
///
/// Whoever knows the file hash opens the proof, and then checks the data of these chunks without the other chunks. For
/// one chunk of a hundred thousand a proof has 36 nodes on average.
///
/// ```
/// use yurewha::merklehash::{compute_data_hash, file_hash};
/// use yurewha::own::{HashTree, RangeProof};
///
/// // Whoever has all chunks makes the proof of those that hold the bytes 8 to 10.
/// let chunks = [&b"a chunk"[..], b"another", b"and a third"].map(|data| (compute_data_hash(data), data.len() as u64));
/// let tree = HashTree::from_chunks(&chunks)?;
/// let range = tree.chunks_at(8..10).unwrap();
/// assert_eq!(range, 1..2);
/// let sent = tree.proof(range)?.to_json()?;
///
/// // Whoever knows the file hash gets the proof, and the data of its chunks.
/// let opened = RangeProof::from_json(&sent)?.open(&file_hash(&chunks))?;
/// assert_eq!(opened.read(8..10, b"another"), Some(&b"no"[..]));
/// assert_eq!(opened.read(8..10, b"annther"), None);
/// # Ok::<(), Box<dyn std::error::Error>>(())
/// ```
///
/// A proof may come from anybody: reading one checks its form alone. [`open`](Self::open) checks that its nodes lead to
/// the hash, and [`OpenedRange`] that data is that of a chunk. **A node alone shows nothing**, since the parents of a
/// level pass as chunks of their own list. Only data that was checked is part of the file.
///
/// With serde a proof is a struct of `chunks` and `levels`. In every format, a value that breaks a rule of
/// [`from_json`](Self::from_json) is an error with the rule in its text.
pub struct RangeProof {
    // The numbers of left and right nodes of each level, from the chunks up.
    levels: Vec<ffi::yurewha_level>,
    // The left nodes of all levels, lowest level first, then the chunks, then the right nodes of all levels, highest
    // level first.
    nodes: Vec<Node>,
}

// What a call writes a proof to: rooms for levels and nodes, each with its length, and their numbers.
struct Rooms {
    levels: Vec<ffi::yurewha_level>,
    nodes: Vec<ffi::yurewha_chunk>,
}

impl Rooms {
    // Room for a proof of at most this many nodes.
    fn of(nodes: usize) -> Result<Self> {
        Ok(Rooms {
            levels: zeros(MOST_LEVELS)?,
            nodes: zeros(nodes)?,
        })
    }

    // The proof that was written.
    fn proof(mut self, (level_count, node_count): (usize, usize)) -> Result<RangeProof> {
        self.levels.truncate(level_count);
        let mut nodes = room(node_count)?;
        nodes.extend(self.nodes[..node_count].iter().map(node_of));
        Ok(RangeProof {
            levels: self.levels,
            nodes,
        })
    }
}

// Levels and nodes as a call gets them, each with its number.
struct Lists {
    levels: *const ffi::yurewha_level,
    level_count: usize,
    nodes: *const ffi::yurewha_chunk,
    node_count: usize,
}

impl Lists {
    fn of(levels: &[ffi::yurewha_level], nodes: &[ffi::yurewha_chunk]) -> Self {
        Lists {
            levels: levels.as_ptr(),
            level_count: levels.len(),
            nodes: nodes.as_ptr(),
            node_count: nodes.len(),
        }
    }
}

impl RangeProof {
    /// Returns the proof of some adjacent chunks of a list, by their numbers, which count from 0. To make several proofs
    /// of one list, keep its [`HashTree`].
    ///
    /// ```
    /// use yurewha::error::CoreError;
    /// use yurewha::merklehash::MerkleHash;
    /// use yurewha::own::RangeProof;
    ///
    /// let chunks = [1, 2, 3].map(|seed| (MerkleHash::random_from_seed(seed), 100));
    /// let proof = RangeProof::from_chunks(&chunks, 1..2)?;
    /// assert_eq!((proof.left(0), proof.chunks(), proof.right(0)), (&chunks[..1], &chunks[1..2], &chunks[2..]));
    /// assert_eq!(RangeProof::from_chunks(&chunks, 1..4), Err(CoreError::InvalidArguments));
    /// # Ok::<(), CoreError>(())
    /// ```
    ///
    /// # Errors
    ///
    /// - [`InvalidArguments`](CoreError::InvalidArguments) unless the range has a chunk, and only chunks of the list
    /// - otherwise [`SizeOverflow`](CoreError::SizeOverflow) if the sizes add up to more than `u64::MAX`
    /// - [`OutOfMemory`](CoreError::OutOfMemory) if an allocation fails
    pub fn from_chunks(chunks: &[Node], range: Range<usize>) -> Result<Self> {
        if range.is_empty() || chunks.len() < range.end {
            return Err(CoreError::InvalidArguments);
        }
        HashTree::from_chunks(chunks)?.proof(range)
    }

    /// Returns the nodes of the range's chunks. There is at least one.
    ///
    /// ```
    /// use yurewha::merklehash::MerkleHash;
    /// use yurewha::own::RangeProof;
    ///
    /// let chunks = [1, 2, 3].map(|seed| (MerkleHash::random_from_seed(seed), 100));
    /// assert_eq!(RangeProof::from_chunks(&chunks, 0..2)?.chunks(), &chunks[..2]);
    /// # Ok::<(), yurewha::error::CoreError>(())
    /// ```
    #[must_use]
    pub fn chunks(&self) -> &[Node] {
        let [before, after] = self.beside(self.levels.len());
        &self.nodes[before..self.nodes.len() - after]
    }

    /// Returns the number of levels on which nodes may stand beside those of the range.
    ///
    /// ```
    /// use yurewha::merklehash::MerkleHash;
    /// use yurewha::own::RangeProof;
    ///
    /// let chunk = (MerkleHash::random_from_seed(1), 100);
    /// assert_eq!(RangeProof::from_chunks(&[chunk; 3], 0..3)?.num_levels(), 1);
    /// // The only chunk of a file is its root.
    /// assert_eq!(RangeProof::from_chunks(&[chunk], 0..1)?.num_levels(), 0);
    /// # Ok::<(), yurewha::error::CoreError>(())
    /// ```
    #[must_use]
    pub fn num_levels(&self) -> usize {
        self.levels.len()
    }

    /// Returns the nodes before those of the range on a level, at most 8. Levels count from 0, from the chunks up. If
    /// there is no such level, there are no nodes.
    ///
    /// ```
    /// use yurewha::merklehash::MerkleHash;
    /// use yurewha::own::RangeProof;
    ///
    /// let chunks = [1, 2, 3].map(|seed| (MerkleHash::random_from_seed(seed), 100));
    /// let proof = RangeProof::from_chunks(&chunks, 2..3)?;
    /// assert_eq!((proof.left(0), proof.left(1)), (&chunks[..2], &[][..]));
    /// # Ok::<(), yurewha::error::CoreError>(())
    /// ```
    #[must_use]
    pub fn left(&self, level: usize) -> &[Node] {
        let Some(count) = self.levels.get(level) else {
            return &[];
        };
        let [before, _] = self.beside(level);
        &self.nodes[before..before + count.left]
    }

    /// Returns the nodes after those of the range on a level, as [`left`](Self::left) returns those before.
    ///
    /// ```
    /// use yurewha::merklehash::MerkleHash;
    /// use yurewha::own::RangeProof;
    ///
    /// let chunks = [1, 2, 3].map(|seed| (MerkleHash::random_from_seed(seed), 100));
    /// assert_eq!(RangeProof::from_chunks(&chunks, 0..1)?.right(0), &chunks[1..]);
    /// # Ok::<(), yurewha::error::CoreError>(())
    /// ```
    #[must_use]
    pub fn right(&self, level: usize) -> &[Node] {
        let Some(count) = self.levels.get(level) else {
            return &[];
        };
        let [_, after] = self.beside(level);
        let end = self.nodes.len() - after;
        &self.nodes[end - count.right..end]
    }

    // How many nodes stand on the left and on the right sides of the levels below this one.
    fn beside(&self, level: usize) -> [usize; 2] {
        let below = &self.levels[..level];
        [
            below.iter().map(|count| count.left).sum(),
            below.iter().map(|count| count.right).sum(),
        ]
    }

    /// Opens the proof with a file hash. That succeeds if its nodes have a common root, and this root gives the file
    /// hash. The default hash is never shown, since it is the file hash of the empty file under each salt.
    ///
    /// So an opened proof leads to this hash. That alone shows nothing of its nodes; [`OpenedRange`] says what a check of
    /// data shows.
    ///
    /// ```
    /// use yurewha::merklehash::{file_hash, MerkleHash};
    /// use yurewha::own::{OpenFault, RangeProof};
    ///
    /// let chunks = [1, 2, 3].map(|seed| (MerkleHash::random_from_seed(seed), 100));
    /// let proof = RangeProof::from_chunks(&chunks, 1..2)?;
    /// let refused = proof.open(&MerkleHash::random_from_seed(4)).unwrap_err();
    /// assert_eq!(refused.fault, OpenFault::ProofMismatch);
    /// // The proof comes back.
    /// assert_eq!(refused.proof.open(&file_hash(&chunks))?.file_size(), 300);
    /// # Ok::<(), Box<dyn std::error::Error>>(())
    /// ```
    ///
    /// # Errors
    ///
    /// - [`ProofMismatch`](OpenFault::ProofMismatch) if the proof doesn't show the hash
    /// - [`OutOfMemory`](OpenFault::OutOfMemory) if an allocation fails
    pub fn open(self, file_hash: &MerkleHash) -> std::result::Result<OpenedRange, OpenError> {
        self.open_with_salt(file_hash, &[0; 32])
    }

    /// Opens the proof with a file hash under a salt, as [`open`](Self::open) does with one that has no salt.
    ///
    /// ```
    /// use yurewha::merklehash::{file_hash_with_salt, MerkleHash};
    /// use yurewha::own::RangeProof;
    ///
    /// let chunks = [1, 2, 3].map(|seed| (MerkleHash::random_from_seed(seed), 100));
    /// let file_hash = file_hash_with_salt(&chunks, &[7; 32]);
    /// let proof = RangeProof::from_chunks(&chunks, 1..2)?;
    /// assert!(proof.clone().open(&file_hash).is_err());
    /// assert_eq!(proof.open_with_salt(&file_hash, &[7; 32])?.file_size(), 300);
    /// # Ok::<(), Box<dyn std::error::Error>>(())
    /// ```
    ///
    /// # Errors
    ///
    /// Those of [`open`](Self::open)
    pub fn open_with_salt(
        self,
        file_hash: &MerkleHash,
        salt: &[u8; 32],
    ) -> std::result::Result<OpenedRange, OpenError> {
        let shown = Shown::FileHash(*file_hash, *salt);
        let (hash, salt) = (file_hash.for_call(), ptr::from_ref(salt).cast());
        // SAFETY: levels and nodes of their numbers, a hash, 32 bytes, as the header's struct has them, and an empty handle
        // to write to.
        self.opened(shown, |it, range| unsafe {
            ffi::yurewha_range_proof_open(it.levels, it.level_count, it.nodes, it.node_count, hash, salt, range)
        })
    }

    /// Opens the proof with the root of a list of chunks, such as the hash of a xorb, as [`open`](Self::open) does with a
    /// file hash. The default hash is never shown, since it is the root of the empty list.
    ///
    /// ```
    /// use yurewha::merklehash::{xorb_hash, MerkleHash};
    /// use yurewha::own::RangeProof;
    ///
    /// let chunks = [1, 2, 3].map(|seed| (MerkleHash::random_from_seed(seed), 100));
    /// assert_eq!(RangeProof::from_chunks(&chunks, 1..2)?.open_root(&xorb_hash(&chunks))?.begins(0), Some(100));
    /// # Ok::<(), Box<dyn std::error::Error>>(())
    /// ```
    ///
    /// # Errors
    ///
    /// Those of [`open`](Self::open)
    pub fn open_root(self, root: &MerkleHash) -> std::result::Result<OpenedRange, OpenError> {
        let shown = Shown::Root(*root);
        let root = root.for_call();
        // SAFETY: levels and nodes of their numbers, a hash, and an empty handle to write to.
        self.opened(shown, |it, range| unsafe {
            ffi::yurewha_range_proof_open_root(it.levels, it.level_count, it.nodes, it.node_count, root, range)
        })
    }

    // The range of a handle that a call writes to.
    fn opened(
        self,
        shown: Shown,
        open: impl FnOnce(Lists, *mut ffi::yurewha_opened_range) -> ffi::yurewha_status,
    ) -> std::result::Result<OpenedRange, OpenError> {
        let handle = match lend(&self.nodes) {
            Ok(nodes) => answer(|range: &mut Shared<_>| open(Lists::of(&self.levels, &nodes), range.get_mut())),
            Err(_) => Err(OpenFault::OutOfMemory),
        };
        match handle {
            Ok(handle) => Ok(OpenedRange::new(handle, self, shown)),
            Err(fault) => Err(OpenError { proof: self, fault }),
        }
    }

    /// Returns the proof as compact JSON text. `chunks` has the nodes of the range's chunks. `levels` has an object for
    /// each level, from the chunks up, with the nodes of both sides as `left` and `right`. A node has its `hash` in hex
    /// and its `size`.
    ///
    /// ```
    /// use yurewha::merklehash::MerkleHash;
    /// use yurewha::own::RangeProof;
    ///
    /// let json = RangeProof::from_chunks(&[(MerkleHash::marker(), 7)], 0..1)?.to_json()?;
    /// let hash = "f".repeat(64);
    /// assert_eq!(json, format!(r#"{{"chunks":[{{"hash":"{hash}","size":7}}],"levels":[]}}"#));
    /// # Ok::<(), yurewha::error::CoreError>(())
    /// ```
    ///
    /// # Errors
    ///
    /// [`OutOfMemory`](CoreError::OutOfMemory) if an allocation fails
    pub fn to_json(&self) -> Result<String> {
        let nodes = lend(&self.nodes)?;
        let it = Lists::of(&self.levels, &nodes);
        let mut text: Vec<u8> = zeros(self.json_length_at_most())?;
        let (room, room_length) = (text.as_mut_ptr().cast(), text.len());
        // SAFETY: levels and nodes of their numbers, a room with its length, and a length to write to.
        let length = answer(|length| unsafe {
            ffi::yurewha_range_proof_to_json(
                it.levels,
                it.level_count,
                it.nodes,
                it.node_count,
                room,
                room_length,
                length,
            )
        })?;
        text.truncate(length);
        Ok(String::from_utf8(text).expect("JSON texts of proofs are ASCII"))
    }

    // The greatest lengths of both members, of a level and of a node, each with its comma. Sizes have at most 20 digits.
    fn json_length_at_most(&self) -> usize {
        32 + 24 * self.levels.len() + 104 * self.nodes.len()
    }

    /// Reads a proof from JSON text. The value is an object with these members:
    ///
    /// - `chunks`: the nodes of the range's chunks; each has its `hash` in hex and its `size`
    /// - `levels`: for each level, from the chunks up, an object with the nodes of both sides as `left` and `right`
    ///
    /// Time and memory are in proportion to the text, so refuse a stranger's text of more than 2^24 bytes, or another limit,
    /// before this call: that many are enough for about 180,000 chunks.
    ///
    /// ```
    /// use yurewha::error::CoreError;
    /// use yurewha::merklehash::MerkleHash;
    /// use yurewha::own::RangeProof;
    ///
    /// let proof = RangeProof::from_chunks(&[1, 2, 3].map(|seed| (MerkleHash::random_from_seed(seed), 100)), 1..2)?;
    /// assert_eq!(RangeProof::from_json(&proof.to_json()?)?, proof);
    /// let refused = RangeProof::from_json(r#"{"chunks":[],"levels":[]}"#).unwrap_err();
    /// assert_eq!(refused, CoreError::InvalidProof(5));
    /// assert_eq!(refused.to_string(), "invalid range proof: rule 5: there is no chunk");
    /// # Ok::<(), CoreError>(())
    /// ```
    ///
    /// # Errors
    ///
    /// [`InvalidText`] if the text isn't JSON, [`OutOfMemory`] if an allocation fails, or [`InvalidProof`] with the
    /// lowest rule that the value breaks:
    ///
    /// 1. It is an object.
    /// 2. `chunks` and `levels` are arrays.
    /// 3. A level is an object, and its `left` and `right` are arrays.
    /// 4. A node is an object with `hash`, 64 hex digits, and `size`, a whole number below 2^64.
    /// 5. There is at least one chunk.
    /// 6. There are at most 64 levels.
    /// 7. A side of a level has at most 8 nodes.
    /// 8. The sizes of all nodes add up to at most 2^64 - 1.
    ///
    /// [`InvalidText`]: CoreError::InvalidText
    /// [`OutOfMemory`]: CoreError::OutOfMemory
    /// [`InvalidProof`]: CoreError::InvalidProof
    pub fn from_json(text: &str) -> Result<Self> {
        // The text of a node has more than 64 bytes.
        let mut rooms = Rooms::of(text.len() / 64)?;
        let (levels, level_room) = (rooms.levels.as_mut_ptr(), rooms.levels.len());
        let (nodes, node_room) = (rooms.nodes.as_mut_ptr(), rooms.nodes.len());
        // SAFETY: a text of its length, two rooms with their lengths, and two numbers to write to.
        let counts = answer(|(level_count, node_count)| unsafe {
            ffi::yurewha_range_proof_from_json(
                text.as_ptr().cast(),
                text.len(),
                levels,
                level_room,
                nodes,
                node_room,
                level_count,
                node_count,
            )
        })?;
        rooms.proof(counts)
    }

    /// Returns the proof in its binary form: a byte with the number of levels; for each level, from the chunks up, two bytes
    /// with the numbers of its left and right nodes; and all nodes in the order of the file, each with the 32 bytes of its
    /// hash and the 8 of its size, little-endian. Python and JavaScript read and write it, too.
    ///
    /// ```
    /// use yurewha::merklehash::MerkleHash;
    /// use yurewha::own::RangeProof;
    ///
    /// let bytes = RangeProof::from_chunks(&[(MerkleHash::marker(), 7)], 0..1)?.to_bytes()?;
    /// assert_eq!(bytes, [&[0][..], &[0xff; 32], &[7, 0, 0, 0, 0, 0, 0, 0]].concat());
    /// # Ok::<(), yurewha::error::CoreError>(())
    /// ```
    ///
    /// # Errors
    ///
    /// [`OutOfMemory`](CoreError::OutOfMemory) if an allocation fails
    pub fn to_bytes(&self) -> Result<Vec<u8>> {
        let nodes = lend(&self.nodes)?;
        let it = Lists::of(&self.levels, &nodes);
        let mut bytes: Vec<u8> = zeros(1 + 2 * self.levels.len() + NODE_LENGTH * self.nodes.len())?;
        let (room, room_length) = (bytes.as_mut_ptr(), bytes.len());
        // SAFETY: levels and nodes of their numbers, a room with its length, and a length to write to.
        let length = answer(|length| unsafe {
            ffi::yurewha_range_proof_to_bytes(
                it.levels,
                it.level_count,
                it.nodes,
                it.node_count,
                room,
                room_length,
                length,
            )
        })?;
        bytes.truncate(length);
        Ok(bytes)
    }

    /// Reads a proof from its binary form, which [`to_bytes`](Self::to_bytes) returns.
    ///
    /// Time and memory are in proportion to the bytes, so refuse more than 2^23 bytes from a stranger, or another limit,
    /// before this call: that many are enough for about 200,000 chunks.
    ///
    /// ```
    /// use yurewha::error::CoreError;
    /// use yurewha::merklehash::MerkleHash;
    /// use yurewha::own::RangeProof;
    ///
    /// let proof = RangeProof::from_chunks(&[1, 2, 3].map(|seed| (MerkleHash::random_from_seed(seed), 100)), 1..2)?;
    /// assert_eq!(RangeProof::from_bytes(&proof.to_bytes()?)?, proof);
    /// assert_eq!(RangeProof::from_bytes(&[0, 1, 2]), Err(CoreError::InvalidProof(4)));
    /// # Ok::<(), CoreError>(())
    /// ```
    ///
    /// # Errors
    ///
    /// [`OutOfMemory`] if an allocation fails, or [`InvalidProof`] with the lowest rule that the bytes break. It is one of
    /// these, or of those from 5 to 8 of [`from_json`](Self::from_json):
    ///
    /// - 1: There is a first byte.
    /// - 3: Two bytes follow for each level.
    /// - 4: Whole nodes follow, of 40 bytes each.
    ///
    /// [`OutOfMemory`]: CoreError::OutOfMemory
    /// [`InvalidProof`]: CoreError::InvalidProof
    pub fn from_bytes(bytes: &[u8]) -> Result<Self> {
        let mut rooms = Rooms::of(bytes.len() / NODE_LENGTH)?;
        let (levels, level_room) = (rooms.levels.as_mut_ptr(), rooms.levels.len());
        let (nodes, node_room) = (rooms.nodes.as_mut_ptr(), rooms.nodes.len());
        // SAFETY: bytes of their number, two rooms with their lengths, and two numbers to write to.
        let counts = answer(|(level_count, node_count)| unsafe {
            ffi::yurewha_range_proof_from_bytes(
                bytes.as_ptr(),
                bytes.len(),
                levels,
                level_room,
                nodes,
                node_room,
                level_count,
                node_count,
            )
        })?;
        rooms.proof(counts)
    }

    // The proof of these lists, if they break none of the rules 5 to 8.
    #[cfg(feature = "serde")]
    fn of_lists(levels: Vec<ffi::yurewha_level>, nodes: Vec<Node>) -> Result<Self> {
        let lent = lend(&nodes)?;
        let it = Lists::of(&levels, &lent);
        // SAFETY: levels and nodes of their numbers.
        done(unsafe { ffi::yurewha_range_proof_check(it.levels, it.level_count, it.nodes, it.node_count) })?;
        drop(lent);
        Ok(RangeProof { levels, nodes })
    }

    /// Does the same as [`clone`](Clone::clone), but returns an error if an allocation fails.
    ///
    /// ```
    /// use yurewha::merklehash::MerkleHash;
    /// use yurewha::own::RangeProof;
    ///
    /// let proof = RangeProof::from_chunks(&[(MerkleHash::marker(), 7)], 0..1)?;
    /// assert_eq!(proof.try_clone()?, proof);
    /// # Ok::<(), yurewha::error::CoreError>(())
    /// ```
    ///
    /// # Errors
    ///
    /// [`OutOfMemory`](CoreError::OutOfMemory) if an allocation fails
    pub fn try_clone(&self) -> Result<Self> {
        let (mut levels, mut nodes) = (room(self.levels.len())?, room(self.nodes.len())?);
        levels.extend_from_slice(&self.levels);
        nodes.extend_from_slice(&self.nodes);
        Ok(RangeProof { levels, nodes })
    }
}

/// Makes an independent copy.
///
/// # Panics
///
/// If an allocation fails; see [`try_clone`](RangeProof::try_clone).
impl Clone for RangeProof {
    #[track_caller]
    fn clone(&self) -> Self {
        plain("RangeProof::clone", self.try_clone())
    }
}

/// Proofs are equal if they have the same chunks, and the same nodes on the sides of each level.
impl PartialEq for RangeProof {
    fn eq(&self, other: &Self) -> bool {
        let counts = self.levels.iter().map(|count| (count.left, count.right));
        let others = other.levels.iter().map(|count| (count.left, count.right));
        self.nodes == other.nodes && counts.eq(others)
    }
}

impl Eq for RangeProof {}

/// Shows the chunks, and the sides of each level.
impl fmt::Debug for RangeProof {
    fn fmt(&self, f: &mut fmt::Formatter<'_>) -> fmt::Result {
        f.debug_struct("RangeProof")
            .field("chunks", &self.chunks())
            .field("levels", &DebugLevels(self))
            .finish()
    }
}

struct DebugLevels<'a>(&'a RangeProof);

impl fmt::Debug for DebugLevels<'_> {
    fn fmt(&self, f: &mut fmt::Formatter<'_>) -> fmt::Result {
        let sides = (0..self.0.num_levels()).map(|level| (self.0.left(level), self.0.right(level)));
        f.debug_list().entries(sides).finish()
    }
}

/// Why a range proof wasn't opened.
///
/// ```
/// use yurewha::own::OpenFault;
///
/// assert_eq!(OpenFault::ProofMismatch.to_string(), "the proof doesn't show this hash");
/// ```
///
/// Later versions may have more variants, so a `match` needs an arm for others:
///
/// ```compile_fail,E0004
/// # use yurewha::own::OpenFault;
/// fn is_worth_another_try(fault: OpenFault) -> bool {
///     match fault {
///         OpenFault::OutOfMemory => true,
///         OpenFault::ProofMismatch => false,
///     }
/// }
/// ```
#[derive(Clone, Copy, Debug, PartialEq, Eq)]
#[non_exhaustive]
pub enum OpenFault {
    /// The proof doesn't show the hash. It is a proof of another file, was altered, or the salt is another.
    ProofMismatch,
    /// An allocation failed.
    OutOfMemory,
}

impl fmt::Display for OpenFault {
    fn fmt(&self, f: &mut fmt::Formatter<'_>) -> fmt::Result {
        match self {
            OpenFault::ProofMismatch => f.write_str("the proof doesn't show this hash"),
            OpenFault::OutOfMemory => StatusText::of(ffi::YUREWHA_MEMORY).fmt(f),
        }
    }
}

impl std::error::Error for OpenFault {}

impl Refusal for OpenFault {
    fn of(status: ffi::yurewha_status) -> Option<Self> {
        match status {
            ffi::YUREWHA_MISMATCH => Some(OpenFault::ProofMismatch),
            ffi::YUREWHA_MEMORY => Some(OpenFault::OutOfMemory),
            _ => None,
        }
    }
}

/// A range proof that wasn't opened, unchanged, and why. Its text is that of the fault.
///
/// ```
/// use yurewha::merklehash::MerkleHash;
/// use yurewha::own::RangeProof;
///
/// let proof = RangeProof::from_chunks(&[(MerkleHash::marker(), 7)], 0..1)?;
/// let refused = proof.clone().open_root(&MerkleHash::default()).unwrap_err();
/// assert_eq!((refused.to_string(), refused.proof), ("the proof doesn't show this hash".to_owned(), proof));
/// # Ok::<(), yurewha::error::CoreError>(())
/// ```
#[derive(PartialEq, Eq)]
pub struct OpenError {
    /// The proof.
    pub proof: RangeProof,
    /// Why it wasn't opened.
    pub fault: OpenFault,
}

/// Shows the fault and the number of the proof's chunks, which may be many.
impl fmt::Debug for OpenError {
    fn fmt(&self, f: &mut fmt::Formatter<'_>) -> fmt::Result {
        f.debug_struct("OpenError")
            .field("fault", &self.fault)
            .field("num_chunks", &self.proof.chunks().len())
            .finish_non_exhaustive()
    }
}

impl fmt::Display for OpenError {
    fn fmt(&self, f: &mut fmt::Formatter<'_>) -> fmt::Result {
        self.fault.fmt(f)
    }
}

impl std::error::Error for OpenError {}

#[cfg(test)]
mod tests {
    use super::*;

    #[test]
    fn each_status_has_its_fault() {
        let faults = [
            (ffi::YUREWHA_MISMATCH, OpenFault::ProofMismatch),
            (ffi::YUREWHA_MEMORY, OpenFault::OutOfMemory),
        ];
        for (status, fault) in faults {
            assert_eq!(OpenFault::of(status), Some(fault));
        }
        for status in [ffi::YUREWHA_DONE, ffi::YUREWHA_ARGUMENTS, ffi::YUREWHA_PROOF_RULE + 5] {
            assert_eq!(OpenFault::of(status), None);
        }
    }

    // Levels of these numbers of nodes on both sides, and this many nodes of one size.
    #[cfg(feature = "serde")]
    #[test]
    fn lists_of_no_proof_are_refused_by_the_lowest_rule() {
        let chunks_of = |levels: &[(usize, usize)], count: usize, size: u64| {
            let levels = levels.iter().map(|&(left, right)| ffi::yurewha_level { left, right });
            let nodes = vec![(MerkleHash::marker(), size); count];
            RangeProof::of_lists(levels.collect(), nodes).map(|proof| proof.chunks().len())
        };
        assert_eq!(chunks_of(&[], 1, u64::MAX), Ok(1));
        assert_eq!(chunks_of(&[(8, 8); 64], 1026, 1), Ok(2));
        for (rule, refused) in [
            (5, chunks_of(&[], 0, 1)),
            (5, chunks_of(&[(1, 0); 65], 65, u64::MAX)),
            (6, chunks_of(&[(9, 9); 65], 1171, u64::MAX)),
            (7, chunks_of(&[(9, 0)], 10, u64::MAX)),
            (7, chunks_of(&[(0, 9)], 10, 1)),
            (8, chunks_of(&[(1, 0)], 2, u64::MAX)),
        ] {
            assert_eq!(refused, Err(CoreError::InvalidProof(rule)));
        }
    }
}

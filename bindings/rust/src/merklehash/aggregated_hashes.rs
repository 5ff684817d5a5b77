//! The hashes of lists of chunks: of a xorb, and of a file.

use super::MerkleHash;
use crate::own::{try_file_hash, try_file_hash_with_salt, try_xorb_hash};
use crate::status::plain;

/// On average, one node in this many is a natural cut. A parent has 5.47 children on average, since no group ends before
/// its third node unless the list does, and none has more than nine.
pub const AGGREGATED_HASHES_MEAN_TREE_BRANCHING_FACTOR: u64 = 4;

/// Returns the root of a list of chunks. The root of no chunks is the default hash. The root of one chunk is its own
/// hash. The root of more chunks is the hash at the top of their tree.
///
/// ```
/// use yurewha::merklehash::{xorb_hash, MerkleHash};
///
/// let hash = MerkleHash::random_from_seed(1);
/// assert_eq!(xorb_hash(&[]), MerkleHash::default());
/// assert_eq!(xorb_hash(&[(hash, 100)]), hash);
/// let root = xorb_hash(&[(hash, 100); 4]);
/// assert!(root.hex().starts_with("89f2ada89ff8c967"));
/// ```
///
/// # Panics
///
/// If the sizes add up to more than `u64::MAX` or an allocation fails; see [`try_xorb_hash`].
#[must_use]
#[track_caller]
pub fn xorb_hash(chunks: &[(MerkleHash, u64)]) -> MerkleHash {
    plain("xorb_hash", try_xorb_hash(chunks))
}

/// Returns the file hash of a list of chunks. With no chunks it is the default hash. Otherwise it is the hmac of the
/// root under 32 zero bytes.
///
/// ```
/// use yurewha::merklehash::{file_hash, xorb_hash, HMACKey, MerkleHash};
///
/// let chunks = [1, 2, 3].map(|seed| (MerkleHash::random_from_seed(seed), 100));
/// assert_eq!(file_hash(&chunks), xorb_hash(&chunks).hmac(HMACKey::default()));
/// ```
///
/// # Panics
///
/// In the same cases as [`xorb_hash`]; see [`try_file_hash`].
#[must_use]
#[track_caller]
pub fn file_hash(chunks: &[(MerkleHash, u64)]) -> MerkleHash {
    plain("file_hash", try_file_hash(chunks))
}

/// Returns the file hash of a list of chunks under a salt. With no chunks it is the default hash. Otherwise it is the
/// hmac of the root under the salt.
///
/// ```
/// use yurewha::merklehash::{file_hash, file_hash_with_salt, MerkleHash};
///
/// let chunks = [1, 2, 3].map(|seed| (MerkleHash::random_from_seed(seed), 100));
/// assert_eq!(file_hash_with_salt(&chunks, &[0; 32]), file_hash(&chunks));
/// assert_ne!(file_hash_with_salt(&chunks, &[7; 32]), file_hash(&chunks));
/// ```
///
/// # Panics
///
/// In the same cases as [`xorb_hash`]; see [`try_file_hash_with_salt`].
#[must_use]
#[track_caller]
pub fn file_hash_with_salt(chunks: &[(MerkleHash, u64)], salt: &[u8; 32]) -> MerkleHash {
    plain("file_hash_with_salt", try_file_hash_with_salt(chunks, salt))
}

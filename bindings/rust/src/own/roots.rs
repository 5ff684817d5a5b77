//! The hashes of lists of chunks, with a `Result`.

use super::Node;
use crate::error::Result;
use crate::ffi;
use crate::lent_chunks::lend;
use crate::merklehash::MerkleHash;
use crate::status::answer;
use std::ptr;

/// Does the same as [`xorb_hash`](crate::merklehash::xorb_hash), but returns an error if the sizes add up to more than
/// `u64::MAX` or an allocation fails.
///
/// ```
/// use yurewha::error::CoreError;
/// use yurewha::merklehash::MerkleHash;
/// use yurewha::own::try_xorb_hash;
///
/// let chunk = (MerkleHash::default(), u64::MAX);
/// assert_eq!(try_xorb_hash(&[chunk; 2]), Err(CoreError::SizeOverflow));
/// ```
///
/// # Errors
///
/// - [`SizeOverflow`](crate::error::CoreError::SizeOverflow) if the sizes add up to more than `u64::MAX`
/// - [`OutOfMemory`](crate::error::CoreError::OutOfMemory) if an allocation fails
pub fn try_xorb_hash(chunks: &[Node]) -> Result<MerkleHash> {
    let chunks = lend(chunks)?;
    // SAFETY: chunks of their number, and a hash to write to.
    answer(|root: &mut MerkleHash| unsafe { ffi::yurewha_xorb_hash(chunks.as_ptr(), chunks.len(), root.out()) })
}

/// Does the same as [`file_hash`](crate::merklehash::file_hash), with the errors of [`try_xorb_hash`].
///
/// ```
/// use yurewha::merklehash::MerkleHash;
/// use yurewha::own::try_file_hash;
///
/// assert_eq!(try_file_hash(&[])?, MerkleHash::default());
/// # Ok::<(), yurewha::error::CoreError>(())
/// ```
///
/// # Errors
///
/// Those of [`try_xorb_hash`]
pub fn try_file_hash(chunks: &[Node]) -> Result<MerkleHash> {
    let chunks = lend(chunks)?;
    // SAFETY: chunks of their number, and a hash to write to.
    answer(|hash: &mut MerkleHash| unsafe { ffi::yurewha_file_hash(chunks.as_ptr(), chunks.len(), hash.out()) })
}

/// Does the same as [`file_hash_with_salt`](crate::merklehash::file_hash_with_salt), with the errors of
/// [`try_xorb_hash`].
///
/// ```
/// use yurewha::merklehash::MerkleHash;
/// use yurewha::own::try_file_hash_with_salt;
///
/// assert_eq!(try_file_hash_with_salt(&[], &[7; 32])?, MerkleHash::default());
/// # Ok::<(), yurewha::error::CoreError>(())
/// ```
///
/// # Errors
///
/// Those of [`try_xorb_hash`]
pub fn try_file_hash_with_salt(chunks: &[Node], salt: &[u8; 32]) -> Result<MerkleHash> {
    let chunks = lend(chunks)?;
    let salt = ptr::from_ref(salt).cast();
    // SAFETY: chunks of their number, 32 bytes, as the header's struct has them, and a hash to write to.
    answer(|hash: &mut MerkleHash| unsafe {
        ffi::yurewha_file_hash_with_salt(chunks.as_ptr(), chunks.len(), salt, hash.out())
    })
}

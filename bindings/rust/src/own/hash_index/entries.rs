//! All entries of an index, and what is made of them.

use super::HashIndex;
use crate::error::{CoreError, Result};
use crate::ffi;
use crate::lent_chunks::{room, zeros};
use crate::merklehash::MerkleHash;
use crate::status::{done, plain};

impl HashIndex {
    /// Returns all hashes with their numbers, each hash once, in no particular order.
    ///
    /// ```
    /// use yurewha::merklehash::MerkleHash;
    /// use yurewha::own::HashIndex;
    ///
    /// let mut index = HashIndex::new();
    /// index.insert([(MerkleHash::marker(), 7); 2])?;
    /// assert_eq!(index.entries()?, [(MerkleHash::marker(), 7)]);
    /// # Ok::<(), yurewha::error::CoreError>(())
    /// ```
    ///
    /// # Errors
    ///
    /// [`OutOfMemory`](CoreError::OutOfMemory) if an allocation fails
    pub fn entries(&self) -> Result<Vec<(MerkleHash, u64)>> {
        let (hashes, numbers) = self.lists()?;
        let mut entries = room(hashes.len())?;
        entries.extend(hashes.into_iter().zip(numbers));
        Ok(entries)
    }

    // Does the same, with a hash and its number at the same place of two lists.
    fn lists(&self) -> Result<(Vec<MerkleHash>, Vec<u64>)> {
        let count = self.len();
        let (mut hashes, mut numbers): (Vec<MerkleHash>, Vec<u64>) = (zeros(count)?, zeros(count)?);
        // SAFETY: a handle, and two lists of their lengths to write to.
        done::<CoreError>(unsafe {
            ffi::yurewha_hash_index_entries(
                &mut self.0.copy(),
                hashes.as_mut_ptr().cast(),
                count,
                numbers.as_mut_ptr(),
                count,
            )
        })?;
        Ok((hashes, numbers))
    }

    /// Does the same as [`clone`](Clone::clone), but returns an error if an allocation fails.
    ///
    /// ```
    /// use yurewha::merklehash::MerkleHash;
    /// use yurewha::own::HashIndex;
    ///
    /// let mut index = HashIndex::new();
    /// index.insert([(MerkleHash::marker(), 7)])?;
    /// assert_eq!(index.try_clone()?, index);
    /// # Ok::<(), yurewha::error::CoreError>(())
    /// ```
    ///
    /// # Errors
    ///
    /// [`OutOfMemory`](CoreError::OutOfMemory) if an allocation fails
    pub fn try_clone(&self) -> Result<Self> {
        let (hashes, numbers) = self.lists()?;
        let mut clone = Self::try_new()?;
        clone.insert_lists(&hashes, &numbers)?;
        Ok(clone)
    }
}

/// A clone has the same number for each hash.
///
/// # Panics
///
/// If an allocation fails; see [`try_clone`](HashIndex::try_clone).
impl Clone for HashIndex {
    #[track_caller]
    fn clone(&self) -> Self {
        plain("HashIndex::clone", self.try_clone())
    }
}

/// Indexes are equal if each hash has the same number in both, or none.
///
/// # Panics
///
/// If an allocation fails.
impl PartialEq for HashIndex {
    #[track_caller]
    fn eq(&self, other: &Self) -> bool {
        let is_in_other = |(hash, number): &(MerkleHash, u64)| other.get(hash) == Some(*number);
        self.len() == other.len() && plain("HashIndex::eq", self.entries()).iter().all(is_in_other)
    }
}

impl Eq for HashIndex {}

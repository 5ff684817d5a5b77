//! Indexes of hashes: a number for each of some hashes.

use crate::error::{CoreError, Result};
use crate::ffi;
use crate::handle::Shared;
use crate::merklehash::MerkleHash;
use crate::status::{answer, plain, told};
use std::fmt;

mod entries;

/// A number for each of some hashes, such as where the chunk with this hash stands. The number that came first stays.
///
/// ```
/// use yurewha::merklehash::MerkleHash;
/// use yurewha::own::HashIndex;
///
/// let [one, two, three] = [1, 2, 3].map(MerkleHash::random_from_seed);
/// let mut index = HashIndex::new();
/// // The chunks of a file, by their places.
/// assert_eq!(index.insert([one, two, one].into_iter().zip(0..))?, 2); // two hashes that are new
/// assert_eq!([one, two, three].map(|hash| index.get(&hash)), [Some(0), Some(1), None]);
/// assert_eq!(index.insert([(two, 7), (three, 8)])?, 1);
/// assert_eq!((index.get(&two), index.get(&three), index.len()), (Some(1), Some(8), 3));
/// # Ok::<(), yurewha::error::CoreError>(())
/// ```
///
/// Threads that share an index read it at once, and none waits for another.
pub struct HashIndex(Shared<ffi::yurewha_hash_index>);

impl HashIndex {
    /// Returns an index without hashes.
    ///
    /// ```
    /// use yurewha::own::HashIndex;
    ///
    /// assert!(HashIndex::new().is_empty());
    /// ```
    ///
    /// # Panics
    ///
    /// If an allocation fails; see [`try_new`](Self::try_new).
    #[must_use]
    #[track_caller]
    pub fn new() -> Self {
        plain("HashIndex::new", Self::try_new())
    }

    /// Does the same as [`new`](Self::new), but returns an error if an allocation fails.
    ///
    /// ```
    /// use yurewha::own::HashIndex;
    ///
    /// assert_eq!(HashIndex::try_new()?.len(), 0);
    /// # Ok::<(), yurewha::error::CoreError>(())
    /// ```
    ///
    /// # Errors
    ///
    /// [`OutOfMemory`](CoreError::OutOfMemory) if an allocation fails
    pub fn try_new() -> Result<Self> {
        // SAFETY: an empty handle to write to.
        answer(|index: &mut Shared<_>| unsafe { ffi::yurewha_hash_index_new(index.get_mut()) }).map(HashIndex)
    }

    /// Gives each hash the number beside it, unless it has one already: the number that came first stays, also among those
    /// of one call. Returns how many hashes are new, each counted once.
    ///
    /// ```
    /// use yurewha::merklehash::MerkleHash;
    /// use yurewha::own::HashIndex;
    ///
    /// let hash = MerkleHash::random_from_seed(1);
    /// let mut index = HashIndex::new();
    /// assert_eq!(index.insert([(hash, 7), (hash, 8)])?, 1);
    /// assert_eq!(index.insert([(hash, 9)])?, 0);
    /// assert_eq!(index.get(&hash), Some(7));
    /// # Ok::<(), yurewha::error::CoreError>(())
    /// ```
    ///
    /// # Errors
    ///
    /// [`OutOfMemory`](CoreError::OutOfMemory) if an allocation fails. Nothing was added then.
    pub fn insert(&mut self, entries: impl IntoIterator<Item = (MerkleHash, u64)>) -> Result<usize> {
        let (mut hashes, mut numbers) = (Vec::new(), Vec::new());
        for (hash, number) in entries {
            push(&mut hashes, hash)?;
            push(&mut numbers, number)?;
        }
        self.insert_lists(&hashes, &numbers)
    }

    // Does the same with a hash and its number at the same place of two lists.
    fn insert_lists(&mut self, hashes: &[MerkleHash], numbers: &[u64]) -> Result<usize> {
        let (list, count) = (hashes.as_ptr().cast(), hashes.len());
        // SAFETY: a handle, two lists of their lengths, and a number to write to.
        answer(|new_hashes| unsafe {
            ffi::yurewha_hash_index_insert(
                self.0.get_mut(),
                list,
                count,
                numbers.as_ptr(),
                numbers.len(),
                new_hashes,
            )
        })
    }

    /// Returns the number of a hash, or `None` if it has none.
    ///
    /// ```
    /// use yurewha::merklehash::MerkleHash;
    /// use yurewha::own::HashIndex;
    ///
    /// let [one, two] = [1, 2].map(MerkleHash::random_from_seed);
    /// let mut index = HashIndex::new();
    /// index.insert([(one, 7)])?;
    /// assert_eq!((index.get(&one), index.get(&two)), (Some(7), None));
    /// # Ok::<(), yurewha::error::CoreError>(())
    /// ```
    #[must_use]
    pub fn get(&self, hash: &MerkleHash) -> Option<u64> {
        // SAFETY: a handle, a hash, and two lists of one number to write to.
        let (found, number) = told(|(found, number): &mut (u8, u64)| unsafe {
            ffi::yurewha_hash_index_find(&mut self.0.copy(), hash.for_call(), 1, found, 1, number, 1)
        });
        (found != 0).then_some(number)
    }

    /// Returns whether a hash has a number.
    ///
    /// ```
    /// use yurewha::merklehash::MerkleHash;
    /// use yurewha::own::HashIndex;
    ///
    /// let [one, two] = [1, 2].map(MerkleHash::random_from_seed);
    /// let mut index = HashIndex::new();
    /// index.insert([(one, 0)])?;
    /// assert!(index.contains(&one) && !index.contains(&two));
    /// # Ok::<(), yurewha::error::CoreError>(())
    /// ```
    #[must_use]
    pub fn contains(&self, hash: &MerkleHash) -> bool {
        self.get(hash).is_some()
    }

    /// Returns how many hashes have a number.
    ///
    /// ```
    /// use yurewha::merklehash::MerkleHash;
    /// use yurewha::own::HashIndex;
    ///
    /// let mut index = HashIndex::new();
    /// index.insert([(MerkleHash::marker(), 7); 3])?;
    /// assert_eq!(index.len(), 1);
    /// # Ok::<(), yurewha::error::CoreError>(())
    /// ```
    #[must_use]
    pub fn len(&self) -> usize {
        // SAFETY: a handle, and a number to write to.
        told(|count| unsafe { ffi::yurewha_hash_index_len(&mut self.0.copy(), count) })
    }

    /// Returns whether no hash has a number.
    ///
    /// ```
    /// use yurewha::merklehash::MerkleHash;
    /// use yurewha::own::HashIndex;
    ///
    /// let mut index = HashIndex::new();
    /// assert!(index.is_empty());
    /// index.insert([(MerkleHash::default(), 0)])?;
    /// assert!(!index.is_empty());
    /// # Ok::<(), yurewha::error::CoreError>(())
    /// ```
    #[must_use]
    pub fn is_empty(&self) -> bool {
        self.len() == 0
    }
}

// Appends to a list.
fn push<T>(list: &mut Vec<T>, value: T) -> Result<()> {
    list.try_reserve(1).map_err(|_| CoreError::OutOfMemory)?;
    list.push(value);
    Ok(())
}

impl Default for HashIndex {
    /// An index without hashes.
    #[track_caller]
    fn default() -> Self {
        Self::new()
    }
}

/// Shows the number of hashes.
impl fmt::Debug for HashIndex {
    fn fmt(&self, f: &mut fmt::Formatter<'_>) -> fmt::Result {
        f.debug_struct("HashIndex")
            .field("len", &self.len())
            .finish_non_exhaustive()
    }
}

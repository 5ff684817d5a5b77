//! A hasher that passes on a number of the key unchanged, for keys that are already hashes.
//!
//! This module and [`passthrough_hashmap`](super::passthrough_hashmap) are only tested, not proved. They are generic
//! over the caller's types, which can't be passed to the library.

use super::data_hash::DataHash;
use std::fmt;
use std::hash::{BuildHasher, Hasher};
use std::marker::PhantomData;

/// A key with a 64-bit number that can serve as its hash.
pub trait U64HashExtractable {
    /// Returns the number of this key. Equal keys must have equal numbers.
    ///
    /// ```
    /// use yurewha::merklehash::{DataHash, U64HashExtractable};
    ///
    /// assert_eq!(7u64.u64_hash_value(), 7);
    /// assert_eq!(DataHash::from([7, 1, 2, 3]).u64_hash_value(), 7);
    /// ```
    fn u64_hash_value(&self) -> u64;
}

/// The number itself.
impl U64HashExtractable for u64 {
    #[inline]
    fn u64_hash_value(&self) -> u64 {
        *self
    }
}

/// The first word.
impl U64HashExtractable for DataHash {
    #[inline]
    fn u64_hash_value(&self) -> u64 {
        self[0]
    }
}

/// A hasher whose state is one number. It starts at 0, and becomes the last number that was written.
///
/// This type is only tested, not proved. It is generic over the key. With serde a hasher is a struct of one number,
/// `state`.
///
/// ```
/// use std::hash::{BuildHasher, Hasher};
/// use yurewha::merklehash::{DataHash, U64DirectHasher};
///
/// let hasher = U64DirectHasher::<DataHash>::default();
/// assert_eq!(hasher.hash_one(DataHash::from([7, 1, 2, 3])), 7);
/// assert_eq!(hasher.finish(), 0);
/// ```
#[cfg_attr(feature = "serde", derive(serde::Serialize, serde::Deserialize), serde(bound = ""))]
pub struct U64DirectHasher<T: U64HashExtractable> {
    state: u64,
    #[cfg_attr(feature = "serde", serde(skip))]
    of: PhantomData<T>,
}

impl<T: U64HashExtractable> Default for U64DirectHasher<T> {
    /// Returns a hasher in the state 0.
    fn default() -> Self {
        U64DirectHasher {
            state: 0,
            of: PhantomData,
        }
    }
}

impl<T: U64HashExtractable> Clone for U64DirectHasher<T> {
    fn clone(&self) -> Self {
        *self
    }
}

impl<T: U64HashExtractable> Copy for U64DirectHasher<T> {}

impl<T: U64HashExtractable> fmt::Debug for U64DirectHasher<T> {
    fn fmt(&self, f: &mut fmt::Formatter<'_>) -> fmt::Result {
        f.debug_struct("U64DirectHasher").field("state", &self.state).finish()
    }
}

impl<T: U64HashExtractable> Hasher for U64DirectHasher<T> {
    /// Returns the state.
    fn finish(&self) -> u64 {
        self.state
    }

    /// Overwrites the low bytes of the state with the first eight of `bytes`, lowest first. If there are fewer, the
    /// higher bytes of the state stay.
    fn write(&mut self, bytes: &[u8]) {
        let mut state = self.state.to_le_bytes();
        state.iter_mut().zip(bytes).for_each(|(low, byte)| *low = *byte);
        self.state = u64::from_le_bytes(state);
    }

    /// Makes `number` the state.
    fn write_u64(&mut self, number: u64) {
        self.state = number;
    }
}

impl<T: U64HashExtractable> BuildHasher for U64DirectHasher<T> {
    type Hasher = Self;

    /// Returns a hasher in the state 0, whatever the state of this one.
    fn build_hasher(&self) -> Self {
        Self::default()
    }
}

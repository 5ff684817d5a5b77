//! A map for keys that are already hashes.

use super::passthrough_hasher::{U64DirectHasher, U64HashExtractable};
use std::collections::{hash_map, HashMap};
use std::hash::Hash;
use std::ops::{Deref, DerefMut};

#[cfg(feature = "serde")]
mod forms;

// The inner map.
type Inner<Key, Value> = HashMap<Key, Value, U64DirectHasher<Key>>;

/// A [`HashMap`] that uses the number of a key as its hash. For a [`DataHash`](super::data_hash::DataHash) that is the
/// first word. It dereferences to the map.
///
/// This type is only tested, not proved. It is generic over key and value, and the map is the standard library's. With
/// serde it is a sequence of pairs, in iteration order.
///
/// ```
/// use yurewha::merklehash::{DataHash, PassThroughHashMap};
///
/// let mut names = PassThroughHashMap::new();
/// let hash = DataHash::random_from_seed(1);
/// assert_eq!(names.insert(hash, "first"), None);
/// assert_eq!(names.insert(hash, "second"), Some("first"));
/// assert_eq!(names.get(&hash), Some(&"second"));
/// ```
#[derive(Clone, Debug)]
pub struct PassThroughHashMap<Key: U64HashExtractable, Value>(Inner<Key, Value>);

impl<Key: U64HashExtractable, Value> PassThroughHashMap<Key, Value> {
    /// Returns an empty map.
    ///
    /// ```
    /// use yurewha::merklehash::PassThroughHashMap;
    ///
    /// assert!(PassThroughHashMap::<u64, u8>::new().is_empty());
    /// ```
    #[must_use]
    pub fn new() -> Self {
        Self::default()
    }

    /// Returns an empty map with room for at least this many pairs.
    ///
    /// ```
    /// use yurewha::merklehash::PassThroughHashMap;
    ///
    /// assert!(PassThroughHashMap::<u64, u8>::with_capacity(10).capacity() >= 10);
    /// ```
    #[must_use]
    pub fn with_capacity(capacity: usize) -> Self {
        PassThroughHashMap(Inner::with_capacity_and_hasher(capacity, U64DirectHasher::default()))
    }
}

// A map that is made of pairs which come one by one. However many pairs are announced, its room is bounded by the
// number of different keys.
//
// Pairs often come in the iteration order of another map, which is that of their places in it. A full map that is
// smaller than the other gets many of them at the same places. So the map grows when it is half full, unless all pairs
// that come have room.
struct Growing<Key: U64HashExtractable, Value>(Inner<Key, Value>);

// How many times the keys that are there a map makes room for, if that many pairs are announced.
const MOST_GROWTH: usize = 8;

impl<Key: U64HashExtractable + Eq + Hash, Value> Growing<Key, Value> {
    fn new() -> Self {
        Growing(Inner::default())
    }

    // Inserts a pair. `more` is the `size_hint` of those that come after it.
    fn insert(&mut self, key: Key, value: Value, more: impl FnOnce() -> (usize, Option<usize>)) {
        let (count, room) = (self.0.len(), self.0.capacity());
        if count >= room / 2 {
            let (least, most) = more();
            let left = room - count;
            if most.map_or(true, |most| most >= left) {
                let wanted = least.saturating_add(1);
                self.0.reserve(wanted.clamp(left + 1, MOST_GROWTH * (count + 1)));
            }
        }
        self.0.insert(key, value);
    }

    fn finish(mut self) -> PassThroughHashMap<Key, Value> {
        self.0.shrink_to_fit();
        PassThroughHashMap(self.0)
    }
}

impl<Key: U64HashExtractable, Value> Default for PassThroughHashMap<Key, Value> {
    /// Returns an empty map.
    fn default() -> Self {
        PassThroughHashMap(Inner::default())
    }
}

impl<Key: U64HashExtractable, Value> Deref for PassThroughHashMap<Key, Value> {
    type Target = HashMap<Key, Value, U64DirectHasher<Key>>;

    fn deref(&self) -> &Self::Target {
        &self.0
    }
}

impl<Key: U64HashExtractable, Value> DerefMut for PassThroughHashMap<Key, Value> {
    fn deref_mut(&mut self) -> &mut Self::Target {
        &mut self.0
    }
}

impl<Key: U64HashExtractable, Value> From<HashMap<Key, Value, U64DirectHasher<Key>>>
    for PassThroughHashMap<Key, Value>
{
    fn from(map: Inner<Key, Value>) -> Self {
        PassThroughHashMap(map)
    }
}

impl<Key: U64HashExtractable, Value> From<PassThroughHashMap<Key, Value>>
    for HashMap<Key, Value, U64DirectHasher<Key>>
{
    fn from(map: PassThroughHashMap<Key, Value>) -> Self {
        map.0
    }
}

/// If keys are equal, the last value stays. The map takes memory for the different keys, not for all pairs.
impl<Key: U64HashExtractable + Eq + Hash, Value> FromIterator<(Key, Value)> for PassThroughHashMap<Key, Value> {
    fn from_iter<I: IntoIterator<Item = (Key, Value)>>(pairs: I) -> Self {
        let (mut map, mut pairs) = (Growing::new(), pairs.into_iter());
        while let Some((key, value)) = pairs.next() {
            map.insert(key, value, || pairs.size_hint());
        }
        map.finish()
    }
}

/// If keys are equal, the last value stays.
impl<Key: U64HashExtractable + Eq + Hash, Value, const N: usize> From<[(Key, Value); N]>
    for PassThroughHashMap<Key, Value>
{
    fn from(pairs: [(Key, Value); N]) -> Self {
        pairs.into_iter().collect()
    }
}

impl<Key: U64HashExtractable, Value> IntoIterator for PassThroughHashMap<Key, Value> {
    type Item = (Key, Value);
    type IntoIter = hash_map::IntoIter<Key, Value>;

    fn into_iter(self) -> Self::IntoIter {
        self.0.into_iter()
    }
}

impl<'a, Key: U64HashExtractable, Value> IntoIterator for &'a PassThroughHashMap<Key, Value> {
    type Item = (&'a Key, &'a Value);
    type IntoIter = hash_map::Iter<'a, Key, Value>;

    fn into_iter(self) -> Self::IntoIter {
        self.0.iter()
    }
}

impl<'a, Key: U64HashExtractable, Value> IntoIterator for &'a mut PassThroughHashMap<Key, Value> {
    type Item = (&'a Key, &'a mut Value);
    type IntoIter = hash_map::IterMut<'a, Key, Value>;

    fn into_iter(self) -> Self::IntoIter {
        self.0.iter_mut()
    }
}

//! The map in serde's formats.

use super::{Growing, PassThroughHashMap, U64HashExtractable};
use serde::de::{SeqAccess, Visitor};
use serde::{Deserialize, Deserializer, Serialize, Serializer};
use std::fmt;
use std::hash::Hash;
use std::marker::PhantomData;

/// A sequence of pairs, in iteration order.
impl<Key: U64HashExtractable + Serialize, Value: Serialize> Serialize for PassThroughHashMap<Key, Value> {
    fn serialize<S: Serializer>(&self, serializer: S) -> Result<S::Ok, S::Error> {
        serializer.collect_seq(self)
    }
}

/// If keys are equal, the last value stays. Memory grows with the keys, whatever number of pairs a format claims.
impl<'de, Key, Value> Deserialize<'de> for PassThroughHashMap<Key, Value>
where
    Key: U64HashExtractable + Eq + Hash + Deserialize<'de>,
    Value: Deserialize<'de>,
{
    fn deserialize<D: Deserializer<'de>>(deserializer: D) -> Result<Self, D::Error> {
        deserializer.deserialize_seq(PairsVisitor(PhantomData))
    }
}

struct PairsVisitor<Key: U64HashExtractable, Value>(PhantomData<PassThroughHashMap<Key, Value>>);

impl<'de, Key, Value> Visitor<'de> for PairsVisitor<Key, Value>
where
    Key: U64HashExtractable + Eq + Hash + Deserialize<'de>,
    Value: Deserialize<'de>,
{
    type Value = PassThroughHashMap<Key, Value>;

    fn expecting(&self, f: &mut fmt::Formatter<'_>) -> fmt::Result {
        f.write_str("a sequence of pairs of key and value")
    }

    fn visit_seq<A: SeqAccess<'de>>(self, mut pairs: A) -> Result<Self::Value, A::Error> {
        let mut map = Growing::new();
        while let Some((key, value)) = pairs.next_element()? {
            map.insert(key, value, || (pairs.size_hint().unwrap_or(0), pairs.size_hint()));
        }
        Ok(map.finish())
    }
}

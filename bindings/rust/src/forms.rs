//! What the serde forms of subtrees and range proofs share: nodes, and how values are read.
//!
//! Each value is read by its type. Its visitor says what it expects, and which rule any other value breaks. The format
//! adds the place to that error.

use crate::error::CoreError;
use crate::ffi::yurewha_chunk;
use crate::lent_chunks::{chunk_of, node_of};
use crate::merklehash::data_hash::{hex, DataHash};
use serde::de::value::MapAccessDeserializer;
use serde::de::{DeserializeSeed, Error, Expected, IgnoredAny, MapAccess, SeqAccess, Unexpected, Visitor};
use serde::{Deserialize, Deserializer, Serialize};
use std::fmt;
use std::marker::PhantomData;

// A node in a human-readable format.
const NODE_NAME: &str = "Node";
const NODE_MEMBERS: &[&str] = &["hash", "size"];

/// A node as it is written in a human-readable format.
#[derive(Serialize)]
#[serde(rename = "Node")]
pub(crate) struct NamedNode {
    #[serde(with = "hex::serde")]
    hash: DataHash,
    size: u64,
}

pub(crate) fn named(chunk: &yurewha_chunk) -> NamedNode {
    let (hash, size) = node_of(chunk);
    NamedNode { hash, size }
}

/// What a value must be, and the rule that any other value breaks.
#[derive(Clone, Copy)]
pub(crate) struct Form(pub(crate) &'static str, pub(crate) u8);

impl fmt::Display for Form {
    fn fmt(&self, f: &mut fmt::Formatter<'_>) -> fmt::Result {
        write!(f, "{} (rule {})", self.0, self.1)
    }
}

/// The error for a missing member.
pub(crate) fn missing<E: Error>(member: &str, form: Form) -> E {
    E::custom(format_args!("missing field `{member}`, expected {form}"))
}

/// Reads a struct. In a human-readable format an array can't be one.
pub(crate) fn read_struct<'de, T: Deserialize<'de>, D: Deserializer<'de>>(
    deserializer: D,
    name: &'static str,
    members: &'static [&'static str],
) -> Result<T, D::Error> {
    if deserializer.is_human_readable() {
        deserializer.deserialize_struct(name, members, ByMembers(name, PhantomData))
    } else {
        T::deserialize(deserializer)
    }
}

// Reads a struct of this name from its members alone.
struct ByMembers<T>(&'static str, PhantomData<T>);

impl<'de, T: Deserialize<'de>> Visitor<'de> for ByMembers<T> {
    type Value = T;

    fn expecting(&self, f: &mut fmt::Formatter<'_>) -> fmt::Result {
        write!(f, "struct {}", self.0)
    }

    fn visit_map<A: MapAccess<'de>>(self, map: A) -> Result<T, A::Error> {
        T::deserialize(MapAccessDeserializer::new(map))
    }
}

/// Reads the value of a member. It may occur only once.
pub(crate) fn read_member<'de, A: MapAccess<'de>, S: DeserializeSeed<'de>>(
    map: &mut A,
    member: &'static str,
    seed: S,
    value: &mut Option<S::Value>,
) -> Result<(), A::Error> {
    if value.is_some() {
        return Err(A::Error::duplicate_field(member));
    }
    *value = Some(map.next_value_seed(seed)?);
    Ok(())
}

/// Reads the next element. It must exist.
pub(crate) fn read_element<'de, A: SeqAccess<'de>, S: DeserializeSeed<'de>>(
    seq: &mut A,
    index: usize,
    seed: S,
    whole: &dyn Expected,
) -> Result<S::Value, A::Error> {
    seq.next_element_seed(seed)?
        .ok_or_else(|| A::Error::invalid_length(index, whole))
}

/// Reads a sequence, with a seed for each element. Its memory grows with the elements, not with the claimed length.
#[derive(Clone, Copy)]
pub(crate) struct Sequence<S>(pub(crate) Form, pub(crate) S);

impl<'de, S: DeserializeSeed<'de> + Copy> DeserializeSeed<'de> for Sequence<S> {
    type Value = Vec<S::Value>;

    fn deserialize<D: Deserializer<'de>>(self, deserializer: D) -> Result<Self::Value, D::Error> {
        deserializer.deserialize_seq(self)
    }
}

impl<'de, S: DeserializeSeed<'de> + Copy> Visitor<'de> for Sequence<S> {
    type Value = Vec<S::Value>;

    fn expecting(&self, f: &mut fmt::Formatter<'_>) -> fmt::Result {
        fmt::Display::fmt(&self.0, f)
    }

    fn visit_seq<A: SeqAccess<'de>>(self, mut seq: A) -> Result<Self::Value, A::Error> {
        let mut elements = Vec::new();
        while let Some(element) = seq.next_element_seed(self.1)? {
            elements
                .try_reserve(1)
                .map_err(|_| A::Error::custom(CoreError::OutOfMemory))?;
            elements.push(element);
        }
        Ok(elements)
    }
}

// Reads a hash from its hex digits.
struct HexText(Form);

impl<'de> DeserializeSeed<'de> for HexText {
    type Value = DataHash;

    fn deserialize<D: Deserializer<'de>>(self, deserializer: D) -> Result<Self::Value, D::Error> {
        deserializer.deserialize_str(self)
    }
}

impl Visitor<'_> for HexText {
    type Value = DataHash;

    fn expecting(&self, f: &mut fmt::Formatter<'_>) -> fmt::Result {
        fmt::Display::fmt(&self.0, f)
    }

    fn visit_str<E: Error>(self, text: &str) -> Result<DataHash, E> {
        DataHash::from_hex(text).map_err(|_| E::invalid_value(Unexpected::Str(text), &self))
    }
}

/// Reads a whole number from 0 to `u64::MAX`.
pub(crate) struct Number(pub(crate) Form);

impl<'de> DeserializeSeed<'de> for Number {
    type Value = u64;

    fn deserialize<D: Deserializer<'de>>(self, deserializer: D) -> Result<Self::Value, D::Error> {
        deserializer.deserialize_u64(self)
    }
}

impl Visitor<'_> for Number {
    type Value = u64;

    fn expecting(&self, f: &mut fmt::Formatter<'_>) -> fmt::Result {
        fmt::Display::fmt(&self.0, f)
    }

    fn visit_u64<E: Error>(self, number: u64) -> Result<u64, E> {
        Ok(number)
    }

    fn visit_i64<E: Error>(self, number: i64) -> Result<u64, E> {
        u64::try_from(number).map_err(|_| E::invalid_value(Unexpected::Signed(number), &self))
    }
}

/// Reads a node: a struct in a human-readable format, else a pair.
#[derive(Clone, Copy)]
pub(crate) struct Node {
    pub(crate) for_people: bool,
    /// What it is, and the rule that anything else breaks.
    pub(crate) form: Form,
}

impl Node {
    fn hash(&self) -> Form {
        Form("64 hex digits as `hash`", self.form.1)
    }

    fn size(&self) -> Form {
        Form("a whole number below 2^64 as `size`", self.form.1)
    }
}

#[derive(Deserialize)]
#[serde(field_identifier, rename_all = "snake_case")]
enum NodeMember {
    Hash,
    Size,
    #[serde(other)]
    Other,
}

impl<'de> DeserializeSeed<'de> for Node {
    type Value = yurewha_chunk;

    fn deserialize<D: Deserializer<'de>>(self, deserializer: D) -> Result<Self::Value, D::Error> {
        if self.for_people {
            deserializer.deserialize_struct(NODE_NAME, NODE_MEMBERS, self)
        } else {
            Deserialize::deserialize(deserializer).map(chunk_of)
        }
    }
}

impl<'de> Visitor<'de> for Node {
    type Value = yurewha_chunk;

    fn expecting(&self, f: &mut fmt::Formatter<'_>) -> fmt::Result {
        fmt::Display::fmt(&self.form, f)
    }

    fn visit_map<A: MapAccess<'de>>(self, mut map: A) -> Result<Self::Value, A::Error> {
        let (mut hash, mut size) = (None, None);
        while let Some(member) = map.next_key()? {
            match member {
                NodeMember::Hash => read_member(&mut map, NODE_MEMBERS[0], HexText(self.hash()), &mut hash)?,
                NodeMember::Size => read_member(&mut map, NODE_MEMBERS[1], Number(self.size()), &mut size)?,
                NodeMember::Other => drop(map.next_value::<IgnoredAny>()?),
            }
        }
        let hash = hash.ok_or_else(|| missing(NODE_MEMBERS[0], self.hash()))?;
        let size = size.ok_or_else(|| missing(NODE_MEMBERS[1], self.size()))?;
        Ok(chunk_of((hash, size)))
    }
}

#[cfg(test)]
mod tests {
    use super::*;
    use serde::de::value::{Error, I64Deserializer};

    // Some formats have signed numbers alone.
    #[test]
    fn a_signed_number_is_read_unless_it_is_negative() {
        let read = |number| Number(Form("a number", 3)).deserialize(I64Deserializer::<Error>::new(number));
        assert_eq!(
            [0, 7, i64::MAX].map(|number| read(number).unwrap()),
            [0, 7, i64::MAX as u64]
        );
        let error = read(-7).unwrap_err().to_string();
        assert_eq!(error, "invalid value: integer `-7`, expected a number (rule 3)");
    }
}

//! A range proof in serde's formats: a struct of chunks and levels.

use super::RangeProof;
use crate::error::CoreError;
use crate::ffi::{yurewha_chunk, yurewha_level};
use crate::forms::{missing, named, read_element, read_member, Form, Node, Sequence};
use crate::in_form::InForm;
use crate::lent_chunks::{chunk_of, node_of, room};
use crate::own;
use serde::de::{DeserializeSeed, Error, IgnoredAny, MapAccess, SeqAccess, Unexpected, Visitor};
use serde::ser::{SerializeSeq, SerializeStruct};
use serde::{Deserialize, Deserializer, Serialize, Serializer};
use std::fmt;

const NAME: &str = "RangeProof";
const MEMBERS: &[&str] = &["chunks", "levels"];
const SIDES_NAME: &str = "Sides";
const SIDES: &[&str] = &["left", "right"];

const WHOLE: Form = Form("struct RangeProof", 1);
const CHUNKS: Form = Form("a sequence as `chunks`", 2);
const LEVELS: Form = Form("a sequence as `levels`", 2);
const LEVEL: Form = Form("struct Sides in `levels`", 3);
const LEFT: Form = Form("a sequence as `left`", 3);
const RIGHT: Form = Form("a sequence as `right`", 3);
const NODE: Form = Form("struct Node", 4);

/// Writes a struct of `chunks` and `levels`, in this order. A level is a struct of `left` and `right`. In a
/// human-readable format, a node is a struct of `hash`, 64 hex digits, and `size`. In other formats it is a pair of hash
/// and size.
impl Serialize for RangeProof {
    fn serialize<S: Serializer>(&self, serializer: S) -> Result<S::Ok, S::Error> {
        let for_people = serializer.is_human_readable();
        let mut form = serializer.serialize_struct(NAME, MEMBERS.len())?;
        form.serialize_field(MEMBERS[0], &Nodes(self.chunks(), for_people))?;
        form.serialize_field(MEMBERS[1], &Levels(self, for_people))?;
        form.end()
    }
}

// Some nodes, and whether people read them.
struct Nodes<'a>(&'a [own::Node], bool);

impl Serialize for Nodes<'_> {
    fn serialize<S: Serializer>(&self, serializer: S) -> Result<S::Ok, S::Error> {
        if self.1 {
            InForm(self.0, |node: &own::Node| named(&chunk_of(*node))).serialize(serializer)
        } else {
            self.0.serialize(serializer)
        }
    }
}

// The levels of a proof, and whether people read them.
struct Levels<'a>(&'a RangeProof, bool);

impl Serialize for Levels<'_> {
    fn serialize<S: Serializer>(&self, serializer: S) -> Result<S::Ok, S::Error> {
        let Levels(proof, for_people) = *self;
        let mut levels = serializer.serialize_seq(Some(proof.num_levels()))?;
        for level in 0..proof.num_levels() {
            let left = Nodes(proof.left(level), for_people);
            let right = Nodes(proof.right(level), for_people);
            levels.serialize_element(&WrittenSides { left, right })?;
        }
        levels.end()
    }
}

#[derive(Serialize)]
#[serde(rename = "Sides")]
struct WrittenSides<'a> {
    left: Nodes<'a>,
    right: Nodes<'a>,
}

/// A value that breaks a rule of [`from_json`](RangeProof::from_json) is an error, and its text has the rule's number.
///
/// The rules 1 to 4 are about the form. Reading stops at the first of them that is broken, so the format can name the
/// place. Of the rules 5 to 8, the error has the lowest that is broken. Unknown members are ignored. A member that occurs
/// twice is an error.
impl<'de> Deserialize<'de> for RangeProof {
    fn deserialize<D: Deserializer<'de>>(deserializer: D) -> Result<Self, D::Error> {
        let for_people = deserializer.is_human_readable();
        deserializer.deserialize_struct(NAME, MEMBERS, Whole { for_people })
    }
}

// The nodes on both sides of a level.
type Sides = (Vec<yurewha_chunk>, Vec<yurewha_chunk>);

// The proof of these nodes, if they break none of the rules 5 to 8. The error names no format.
fn proof_of<E: Error>(chunks: &[yurewha_chunk], levels: &[Sides]) -> Result<RangeProof, E> {
    checked(chunks, levels).map_err(E::custom)
}

fn checked(chunks: &[yurewha_chunk], levels: &[Sides]) -> Result<RangeProof, CoreError> {
    let lefts = levels.iter().map(|(left, _)| &left[..]);
    let rights = levels.iter().rev().map(|(_, right)| &right[..]);
    let parts = lefts.chain([chunks]).chain(rights);
    let mut nodes = room(parts.clone().map(<[_]>::len).sum())?;
    nodes.extend(parts.flatten().map(node_of));
    let mut counts = room(levels.len())?;
    counts.extend(levels.iter().map(|(left, right)| yurewha_level {
        left: left.len(),
        right: right.len(),
    }));
    RangeProof::of_lists(counts, nodes)
}

// Reads the struct of a proof.
struct Whole {
    // Whether the format is human-readable. In such a format nodes are structs, and an array can't be a struct.
    for_people: bool,
}

#[derive(Deserialize)]
#[serde(field_identifier, rename_all = "snake_case")]
enum Member {
    Chunks,
    Levels,
    #[serde(other)]
    Other,
}

impl Whole {
    fn chunks(&self) -> Sequence<Node> {
        Sequence(CHUNKS, node(self.for_people))
    }

    fn levels(&self) -> Sequence<Level> {
        let for_people = self.for_people;
        Sequence(LEVELS, Level { for_people })
    }
}

fn node(for_people: bool) -> Node {
    Node { for_people, form: NODE }
}

impl<'de> Visitor<'de> for Whole {
    type Value = RangeProof;

    fn expecting(&self, f: &mut fmt::Formatter<'_>) -> fmt::Result {
        fmt::Display::fmt(&WHOLE, f)
    }

    fn visit_map<A: MapAccess<'de>>(self, mut map: A) -> Result<Self::Value, A::Error> {
        let (mut chunks, mut levels) = (None, None);
        while let Some(member) = map.next_key()? {
            match member {
                Member::Chunks => read_member(&mut map, MEMBERS[0], self.chunks(), &mut chunks)?,
                Member::Levels => read_member(&mut map, MEMBERS[1], self.levels(), &mut levels)?,
                Member::Other => drop(map.next_value::<IgnoredAny>()?),
            }
        }
        let chunks = chunks.ok_or_else(|| missing(MEMBERS[0], CHUNKS))?;
        let levels = levels.ok_or_else(|| missing(MEMBERS[1], LEVELS))?;
        proof_of(&chunks, &levels)
    }

    fn visit_seq<A: SeqAccess<'de>>(self, mut seq: A) -> Result<Self::Value, A::Error> {
        if self.for_people {
            return Err(A::Error::invalid_type(Unexpected::Seq, &self));
        }
        let chunks = read_element(&mut seq, 0, self.chunks(), &self)?;
        let levels = read_element(&mut seq, 1, self.levels(), &self)?;
        proof_of(&chunks, &levels)
    }
}

// Reads the struct of a level.
#[derive(Clone, Copy)]
struct Level {
    for_people: bool,
}

#[derive(Deserialize)]
#[serde(field_identifier, rename_all = "snake_case")]
enum Side {
    Left,
    Right,
    #[serde(other)]
    Other,
}

impl Level {
    fn left(&self) -> Sequence<Node> {
        Sequence(LEFT, node(self.for_people))
    }

    fn right(&self) -> Sequence<Node> {
        Sequence(RIGHT, node(self.for_people))
    }
}

impl<'de> DeserializeSeed<'de> for Level {
    type Value = Sides;

    fn deserialize<D: Deserializer<'de>>(self, deserializer: D) -> Result<Self::Value, D::Error> {
        deserializer.deserialize_struct(SIDES_NAME, SIDES, self)
    }
}

impl<'de> Visitor<'de> for Level {
    type Value = Sides;

    fn expecting(&self, f: &mut fmt::Formatter<'_>) -> fmt::Result {
        fmt::Display::fmt(&LEVEL, f)
    }

    fn visit_map<A: MapAccess<'de>>(self, mut map: A) -> Result<Self::Value, A::Error> {
        let (mut left, mut right) = (None, None);
        while let Some(side) = map.next_key()? {
            match side {
                Side::Left => read_member(&mut map, SIDES[0], self.left(), &mut left)?,
                Side::Right => read_member(&mut map, SIDES[1], self.right(), &mut right)?,
                Side::Other => drop(map.next_value::<IgnoredAny>()?),
            }
        }
        let left = left.ok_or_else(|| missing(SIDES[0], LEFT))?;
        let right = right.ok_or_else(|| missing(SIDES[1], RIGHT))?;
        Ok((left, right))
    }

    fn visit_seq<A: SeqAccess<'de>>(self, mut seq: A) -> Result<Self::Value, A::Error> {
        if self.for_people {
            return Err(A::Error::invalid_type(Unexpected::Seq, &self));
        }
        let left = read_element(&mut seq, 0, self.left(), &self)?;
        let right = read_element(&mut seq, 1, self.right(), &self)?;
        Ok((left, right))
    }
}

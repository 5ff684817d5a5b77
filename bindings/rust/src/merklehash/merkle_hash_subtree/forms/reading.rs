//! Reads a subtree from serde's formats.
//!
//! The module `forms` of the crate says how. The library checks the result.

use super::super::{Flat, MerkleHashSubtree};
use super::MEMBERS;
use crate::error::{BrokenRule, CoreError};
use crate::ffi::{self, yurewha_level};
use crate::forms::{missing, read_element, read_member, Form, Node, Number, Sequence};
use serde::de::{DeserializeSeed, Error, IgnoredAny, MapAccess, SeqAccess, Unexpected, Visitor};
use serde::{Deserialize, Deserializer};
use std::fmt;

const WHOLE: Form = Form("struct MerkleHashSubtree", 1);
const NODES: Form = Form("a sequence as `nodes`", 2);
const LEVELS: Form = Form("a sequence as `levels`", 2);
const AT_START: Form = Form("a truth value as `at_start`", 2);
const AT_END: Form = Form("a truth value as `at_end`", 2);
const NODE: Form = Form("struct Node in `nodes`", 3);
const LEVEL: Form = Form("a pair of numbers in `levels`", 4);
const COUNT: Form = Form("a whole number below 2^64 in `levels`", 4);

// The subtree that marks and lists describe, if they break none of the rules 5 to 13. The error names no format.
fn subtree_of<E: Error>(flat: &Flat) -> Result<MerkleHashSubtree, E> {
    checked(flat).map_err(|error| match error {
        CoreError::InvalidJson(rule) => E::custom(format_args!("invalid subtree: {}", BrokenRule(rule))),
        error => E::custom(error),
    })
}

fn checked(flat: &Flat) -> Result<MerkleHashSubtree, CoreError> {
    // SAFETY: levels and nodes with their counts, and an empty handle to write to.
    MerkleHashSubtree::made(|made| unsafe {
        ffi::yurewha_subtree_from_flat(
            flat.at_start,
            flat.levels.as_ptr(),
            flat.levels.len(),
            flat.nodes.as_ptr(),
            flat.nodes.len(),
            flat.at_end,
            made,
        )
    })
}

/// Reads the struct of a subtree.
pub(super) struct Whole {
    /// Whether the format is human-readable. In such a format nodes are structs, and an array can't be a struct.
    pub(super) for_people: bool,
}

#[derive(Deserialize)]
#[serde(field_identifier, rename_all = "snake_case")]
enum Member {
    Nodes,
    Levels,
    AtStart,
    AtEnd,
    #[serde(other)]
    Other,
}

impl Whole {
    fn nodes(&self) -> Sequence<Node> {
        let node = Node {
            for_people: self.for_people,
            form: NODE,
        };
        Sequence(NODES, node)
    }
}

impl<'de> Visitor<'de> for Whole {
    type Value = MerkleHashSubtree;

    fn expecting(&self, f: &mut fmt::Formatter<'_>) -> fmt::Result {
        fmt::Display::fmt(&WHOLE, f)
    }

    fn visit_map<A: MapAccess<'de>>(self, mut map: A) -> Result<Self::Value, A::Error> {
        let (mut nodes, mut levels, mut at_start, mut at_end) = (None, None, None, None);
        while let Some(member) = map.next_key()? {
            match member {
                Member::Nodes => read_member(&mut map, MEMBERS[0], self.nodes(), &mut nodes)?,
                Member::Levels => read_member(&mut map, MEMBERS[1], Sequence(LEVELS, Level), &mut levels)?,
                Member::AtStart => read_member(&mut map, MEMBERS[2], Truth(AT_START), &mut at_start)?,
                Member::AtEnd => read_member(&mut map, MEMBERS[3], Truth(AT_END), &mut at_end)?,
                Member::Other => drop(map.next_value::<IgnoredAny>()?),
            }
        }
        let flat = Flat {
            nodes: nodes.ok_or_else(|| missing(MEMBERS[0], NODES))?,
            levels: levels.ok_or_else(|| missing(MEMBERS[1], LEVELS))?,
            at_start: at_start.ok_or_else(|| missing(MEMBERS[2], AT_START))?,
            at_end: at_end.ok_or_else(|| missing(MEMBERS[3], AT_END))?,
        };
        subtree_of(&flat)
    }

    fn visit_seq<A: SeqAccess<'de>>(self, mut seq: A) -> Result<Self::Value, A::Error> {
        if self.for_people {
            return Err(A::Error::invalid_type(Unexpected::Seq, &self));
        }
        let flat = Flat {
            nodes: read_element(&mut seq, 0, self.nodes(), &self)?,
            levels: read_element(&mut seq, 1, Sequence(LEVELS, Level), &self)?,
            at_start: read_element(&mut seq, 2, Truth(AT_START), &self)?,
            at_end: read_element(&mut seq, 3, Truth(AT_END), &self)?,
        };
        subtree_of(&flat)
    }
}

// Reads the numbers of left and right nodes of a level.
#[derive(Clone, Copy)]
struct Level;

impl<'de> DeserializeSeed<'de> for Level {
    type Value = yurewha_level;

    fn deserialize<D: Deserializer<'de>>(self, deserializer: D) -> Result<Self::Value, D::Error> {
        deserializer.deserialize_tuple(2, self)
    }
}

impl<'de> Visitor<'de> for Level {
    type Value = yurewha_level;

    fn expecting(&self, f: &mut fmt::Formatter<'_>) -> fmt::Result {
        fmt::Display::fmt(&LEVEL, f)
    }

    fn visit_seq<A: SeqAccess<'de>>(self, mut seq: A) -> Result<Self::Value, A::Error> {
        let left = read_element(&mut seq, 0, Number(COUNT), &self)?;
        let right = read_element(&mut seq, 1, Number(COUNT), &self)?;
        if seq.next_element::<IgnoredAny>()?.is_some() {
            return Err(A::Error::invalid_length(3, &self));
        }
        // No machine has more than `usize::MAX` nodes. So a greater count fails in the same way as that count.
        let [left, right] = [left, right].map(|count| usize::try_from(count).unwrap_or(usize::MAX));
        Ok(yurewha_level { left, right })
    }
}

// Reads a boolean.
struct Truth(Form);

impl<'de> DeserializeSeed<'de> for Truth {
    type Value = bool;

    fn deserialize<D: Deserializer<'de>>(self, deserializer: D) -> Result<Self::Value, D::Error> {
        deserializer.deserialize_bool(self)
    }
}

impl Visitor<'_> for Truth {
    type Value = bool;

    fn expecting(&self, f: &mut fmt::Formatter<'_>) -> fmt::Result {
        fmt::Display::fmt(&self.0, f)
    }

    fn visit_bool<E: Error>(self, truth: bool) -> Result<bool, E> {
        Ok(truth)
    }
}

#[cfg(test)]
mod tests {
    use super::*;
    use crate::ffi::yurewha_chunk;

    // The lists of this many nodes of one size, with both marks.
    fn lists(nodes: usize, size: u64, levels: &[(usize, usize)]) -> Flat {
        let hash = Default::default();
        Flat {
            nodes: vec![yurewha_chunk { hash, size }; nodes],
            levels: levels
                .iter()
                .map(|&(left, right)| yurewha_level { left, right })
                .collect(),
            at_start: true,
            at_end: true,
        }
    }

    #[test]
    fn lists_of_no_subtree_are_refused_by_the_lowest_rule() {
        assert_eq!(checked(&lists(1, 7, &[(1, 0)])).map(|it| it.total_size()), Ok(7));
        for (rule, flat) in [
            (5, lists(0, 1, &[])),
            (6, lists(0, 1, &[(1, 0)])),
            (7, lists(2, u64::MAX, &[(2, 0)])),
            (8, lists(1, 1, &[(0, 1)])),
            (9, lists(2, 1, &[(1, 0), (1, 0)])),
            (10, lists(2, 1, &[(2, 0)])),
            (11, lists(0, 1, &[(0, 0), (0, 0)])),
        ] {
            assert_eq!(checked(&flat), Err(CoreError::InvalidJson(rule)));
        }
    }
}

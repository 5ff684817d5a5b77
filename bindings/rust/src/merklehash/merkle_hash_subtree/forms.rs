//! A subtree in serde's formats: a struct of four members.

use super::{pair_of, Flat, MerkleHashSubtree};
use crate::forms::named;
use crate::in_form::InForm;
use crate::lent_chunks::node_of;
use serde::ser::{Error, SerializeStruct};
use serde::{Deserialize, Deserializer, Serialize, Serializer};

mod reading;

const NAME: &str = "MerkleHashSubtree";
const MEMBERS: &[&str] = &["nodes", "levels", "at_start", "at_end"];

/// Writes a struct of `nodes`, `levels`, `at_start` and `at_end`, in this order. In a human-readable format, a node is
/// a struct of `hash`, 64 hex digits, and `size`. In other formats it is a pair of hash and size. A level is a pair:
/// the numbers of left and right nodes.
impl Serialize for MerkleHashSubtree {
    fn serialize<S: Serializer>(&self, serializer: S) -> Result<S::Ok, S::Error> {
        let flat = Flat::of(self).map_err(S::Error::custom)?;
        let for_people = serializer.is_human_readable();
        let mut form = serializer.serialize_struct(NAME, MEMBERS.len())?;
        if for_people {
            form.serialize_field("nodes", &InForm(&flat.nodes, named))?;
        } else {
            form.serialize_field("nodes", &InForm(&flat.nodes, node_of))?;
        }
        form.serialize_field("levels", &InForm(&flat.levels, pair_of))?;
        form.serialize_field("at_start", &flat.at_start)?;
        form.serialize_field("at_end", &flat.at_end)?;
        form.end()
    }
}

/// A value that breaks a rule of [`from_json`](MerkleHashSubtree::from_json) is an error, and its text has the rule's
/// number.
///
/// The rules 1 to 4 are about the form. Reading stops at the first of them that is broken, so the format can name the
/// place. Of the rules 5 to 13, the error has the lowest that is broken. Unknown members are ignored. A member that
/// occurs twice is an error.
impl<'de> Deserialize<'de> for MerkleHashSubtree {
    fn deserialize<D: Deserializer<'de>>(deserializer: D) -> Result<Self, D::Error> {
        let for_people = deserializer.is_human_readable();
        deserializer.deserialize_struct(NAME, MEMBERS, reading::Whole { for_people })
    }
}

//! The scripts of the repository's folder `tests/vectors`, through the crate: calls of the library with their answers.

use serde_json::{json, Value};
use std::any::Any;
use std::cell::RefCell;
use std::collections::{BTreeSet, HashMap};
use std::fs;
use std::ops::Range;
use std::path::{Path, PathBuf};
use std::process::Command;
use std::sync::OnceLock;
use yurewha::error::CoreError;
use yurewha::merklehash::{compute_data_hash, compute_internal_node_hash, DataHash, MerkleHashSubtree};
use yurewha::merklehash::{find_stable_end, find_stable_start};
use yurewha::own::{try_file_hash, try_file_hash_with_salt, try_xorb_hash, Hasher, Node, Session, SessionFault};
use yurewha::own::{Chunker, FileHasher, HashIndex, HashTree, OpenError, OpenedRange, RangeProof};

// ---- Calls: what each call of the library is here

fn call(name: &str, a: &Arguments) -> Answer {
    match name {
        "data_hash" => is(compute_data_hash(&a.data(0)).hex()),
        "internal_node_hash" => is(compute_internal_node_hash(&a.data(0)).hex()),
        "hmac" => is(a.hash(0).hmac(a.hash(1)).hex()),
        "random_from_seed" => is(DataHash::random_from_seed(a.number(0)).hex()),
        "hash_to_bytes" => is(hex_of(a.hash(0).as_bytes())),
        "hash_from_bytes" => is(DataHash::from(a.bytes(0)).hex()),
        "compare" => is(a.hash(0).cmp(&a.hash(1)) as i8),
        "remainder" => is(a.hash(0) % a.number(1)),
        "hex" => is(a.hash(0).hex()),
        "from_hex" => is(DataHash::from_hex(a.text(0)).map_err(|_| CoreError::InvalidText)?.hex()),
        "base64" => is(a.hash(0).base64()),
        "from_base64" => is(DataHash::from_base64(a.text(0))
            .map_err(|_| CoreError::InvalidText)?
            .hex()),
        "hasher_begin_data" => made(Hasher::new_data()),
        "hasher_begin_internal" => made(Hasher::new_internal_node()),
        "hasher_begin_keyed" => made(Hasher::new_keyed(&a.bytes(0))),
        "hasher_count" => is(a.of::<Hasher>(0).borrow().count()),
        "hasher_update" => nothing(a.of::<Hasher>(0).borrow_mut().update(&a.data(1))),
        "hasher_finalize" => is(a.of::<Hasher>(0).borrow().finalize().hex()),
        "chunks" => made(a.chunks(0)),
        "xorb_hash" => is(try_xorb_hash(&a.chunks(0))?.hex()),
        "file_hash" => is(try_file_hash(&a.chunks(0))?.hex()),
        "file_hash_with_salt" => is(try_file_hash_with_salt(&a.chunks(0), &a.bytes(1))?.hex()),
        "find_stable_start" => is(find_stable_start(&a.chunks(0)).ok_or(NONE)?),
        "find_stable_end" => is(find_stable_end(&a.chunks(0)).ok_or(NONE)?),
        _ => match name.split('_').next() {
            Some("subtree") => subtree_call(name, a),
            Some("session") => session_call(name, a),
            Some("chunker" | "file") => file_call(name, a),
            _ if name.starts_with("hash_index_") => index_call(name, a),
            _ => proof_call(name, a),
        },
    }
}

fn subtree_call(name: &str, a: &Arguments) -> Answer {
    let whole = |name| a.named::<MerkleHashSubtree>(name).borrow().clone();
    match name {
        "subtree_from_chunks" => {
            let (at_start, at_end) = (a.truth(0), a.truth(2));
            return made(MerkleHashSubtree::try_from_chunks(at_start, &a.chunks(1), at_end)?);
        }
        "subtree_from_json" => return made(MerkleHashSubtree::from_json(a.text(0))?),
        "subtree_merge" => return made(MerkleHashSubtree::merge(&a.names(0).map(whole).collect::<Vec<_>>())?),
        _ => (),
    }
    let subtree = a.of::<MerkleHashSubtree>(0);
    let other = || a.of::<MerkleHashSubtree>(1).borrow();
    match name {
        "subtree_merge_into" => return nothing(subtree.borrow_mut().merge_into(&other())?),
        "subtree_merge_into_counted" => return is(subtree.borrow_mut().merge_into_counted(&other())?),
        _ => (),
    }
    let subtree = subtree.borrow();
    match name {
        "subtree_clone" => made(subtree.clone()),
        "subtree_equal" => is(*subtree == *other()),
        "subtree_marks" => is(json!([subtree.at_start(), subtree.at_end()])),
        "subtree_num_nodes" => is(subtree.num_nodes()),
        "subtree_levels" => is(serde_json::from_str::<Value>(&subtree.to_json()?).unwrap()["levels"].take()),
        "subtree_num_levels" => is(subtree.num_levels()),
        "subtree_total_size" => is(subtree.total_size()),
        "subtree_final_hash" => is(subtree.final_hash().ok_or(NONE)?.hex()),
        "subtree_file_hash" => is(subtree.file_hash_with_salt(&a.bytes(1)).ok_or(NONE)?.hex()),
        "subtree_to_json" => is(subtree.to_json()?),
        _ => panic!("the call {name}"),
    }
}

fn session_call(name: &str, a: &Arguments) -> Answer {
    match name {
        "session_new" => return made(Session::new()),
        "session_new_without_hashes" => return made(Session::without_hashes()),
        "session_from_json" => return made(read(a.text(0), Session::from_json(a.text(0)))?),
        _ => (),
    }
    let session = a.of::<Session>(0);
    match name {
        "session_put" => return is(session.borrow_mut().put(a.number(1), &a.chunks(2))?),
        "session_put_range" => {
            let range = a.of::<MerkleHashSubtree>(3).borrow();
            return nothing(session.borrow_mut().put_range(a.number(1), a.number(2), &range)?);
        }
        "session_join" => {
            let other = a.of::<Session>(1).borrow();
            return is(session.borrow_mut().join(&other)?);
        }
        "session_push_run" => {
            let range = a.of::<MerkleHashSubtree>(3).borrow();
            return nothing(session.borrow_mut().push_run(a.number(1)..a.number(2), &range)?);
        }
        "session_keep_hashes" => return nothing(session.borrow_mut().keep_hashes(&a.hashes(1))?),
        _ => (),
    }
    let session = session.borrow();
    match name {
        "session_keeps_hashes" => is(session.keeps_hashes()),
        "session_taken" => is(session.taken(a.number(1))),
        "session_num_chunks" => is(session.num_chunks()),
        "session_total_size" => is(session.total_size()),
        "session_num_runs" => is(session.num_runs()),
        "session_run" => {
            let (first, range) = session.range(a.count(1)).ok_or(NONE)?;
            both(first, range)
        }
        "session_run_from" => {
            let (positions, range) = session.run_from(a.number(1)).ok_or(NONE)?;
            both(ends(positions), range)
        }
        "session_gaps" => is(session.gaps(a.number(1))?.into_iter().map(ends).collect::<Value>()),
        "session_root" => is(session.root(a.number(1))?.hex()),
        "session_finish" => is(session.finish(a.number(1))?.hex()),
        "session_finish_with_salt" => is(session.finish_with_salt(a.number(1), &a.bytes(2))?.hex()),
        "session_copy" => made(session.clone()),
        "session_num_known_hashes" => is(session.known_hashes()?.len()),
        "session_known_hashes" => is(hexes(&sorted(session.known_hashes()?))),
        "session_knows" => is(session.knows(&a.hash(1))),
        "session_knows_each" => is(a.hashes(1).iter().map(|hash| session.knows(hash)).collect::<Value>()),
        "session_to_json" => is(written(&session, session.to_json()?)),
        _ => panic!("the call {name}"),
    }
}

fn proof_call(name: &str, a: &Arguments) -> Answer {
    let (tree, proof, range) = (
        || a.of::<HashTree>(0).borrow(),
        || a.of::<RangeProof>(0).borrow(),
        || a.of::<OpenedRange>(0).borrow(),
    );
    match name {
        "hash_tree_from_chunks" => made(HashTree::from_chunks(&a.chunks(0))?),
        "hash_tree_root" => is(tree().root().hex()),
        "hash_tree_file_hash" => is(tree().file_hash_with_salt(&a.bytes(1)).hex()),
        "hash_tree_num_chunks" => is(tree().num_chunks()),
        "hash_tree_total_size" => is(tree().total_size()),
        "hash_tree_chunks_at" => is(ends(tree().chunks_at(a.number(1)..a.number(2)).ok_or(NONE)?)),
        "hash_tree_bytes_of" => is(ends(tree().bytes_of(a.count(1)..a.count(2)).ok_or(NONE)?)),
        "hash_tree_proof" => made(tree().proof(a.count(1)..a.count(2))?),
        "hash_tree_diff" => {
            let difference = tree().diff(&a.of::<HashTree>(1).borrow());
            is(difference.map_or(Value::Null, |it| {
                json!([it.first, it.end, it.other_end, it.start, it.stop, it.other_stop])
            }))
        }
        "range_proof_from_chunks" => made(RangeProof::from_chunks(&a.chunks(0), a.count(1)..a.count(2))?),
        "range_proof_levels" => is(levels(&proof())),
        "range_proof_nodes" => is(lines(&proof())),
        "range_proof_to_json" => is(proof().to_json()?),
        "range_proof_from_json" => made(RangeProof::from_json(a.text(0))?),
        "range_proof_to_bytes" => is(hex_of(&proof().to_bytes()?)),
        "range_proof_from_bytes" => made(RangeProof::from_bytes(&a.data(0))?),
        "range_proof_from_flat" => made(from_flat(&a.levels(0), &a.chunks(1))?),
        "range_proof_open" => opened(&proof(), |proof| proof.open_with_salt(&a.hash(1), &a.bytes(2))),
        "range_proof_open_root" => opened(&proof(), |proof| proof.open_root(&a.hash(1))),
        "opened_range_file_size" => is(range().file_size()),
        "opened_range_num_chunks" => is(range().num_chunks()),
        "opened_range_bytes_of" => {
            let places = [range().begins(a.count(1)), range().ends(a.count(1))];
            assert_eq!(places[0].is_none(), places[1].is_none());
            is(places
                .map(|place| place.ok_or(NONE))
                .into_iter()
                .collect::<Result<Value, _>>()?)
        }
        "opened_range_check" => is(range().check(a.count(1), &a.data(2)).ok_or(NONE)?),
        "opened_range_read" => is(hex_of(range().read(a.number(1)..a.number(2), &a.data(3)).ok_or(NONE)?)),
        _ => panic!("the call {name}"),
    }
}

fn index_call(name: &str, a: &Arguments) -> Answer {
    let index = || a.of::<HashIndex>(0);
    match name {
        "hash_index_new" => made(HashIndex::new()),
        "hash_index_insert" => is(index().borrow_mut().insert(pairs(a.hashes(1), a.numbers(2))?)?),
        "hash_index_find" => is(a
            .hashes(1)
            .iter()
            .map(|hash| index().borrow().get(hash))
            .collect::<Value>()),
        "hash_index_entries" => is(sorted(index().borrow().entries()?)
            .into_iter()
            .map(|(hash, number)| json!([hash.hex(), number]))
            .collect::<Value>()),
        "hash_index_len" => is(index().borrow().len()),
        _ => panic!("the call {name}"),
    }
}

fn file_call(name: &str, a: &Arguments) -> Answer {
    let chunker = || a.of::<Chunker>(0);
    let hasher = || a.of::<FileHasher>(0);
    match name {
        "chunker_begin" => made(Chunker::new()),
        "chunker_next_boundary" => is(chunker().borrow_mut().next_boundary(&a.data(1))),
        "chunker_taken" => is(chunker().borrow().taken()),
        "file_hasher_new" => made(FileHasher::try_new()?),
        "file_hasher_update" => nothing(hasher().borrow_mut().update(&a.data(1))?),
        "file_hasher_size" => is(hasher().borrow().size()),
        "file_hasher_root" => is(hasher().borrow().root()?.hex()),
        "file_hasher_finish" => is(hasher().borrow().file_hash()?.hex()),
        "file_hasher_finish_with_salt" => is(hasher().borrow().file_hash_with_salt(&a.bytes(1))?.hex()),
        _ => panic!("the call {name}"),
    }
}

// The crate takes pairs, and no two lists.
fn pairs(hashes: Vec<DataHash>, numbers: Vec<u64>) -> Result<Vec<(DataHash, u64)>, Refused> {
    if hashes.len() != numbers.len() {
        return Err(Refused("ARGUMENTS", None));
    }
    Ok(hashes.into_iter().zip(numbers).collect())
}

// Calls of the library that the crate doesn't have.
const ABSENT: &[&str] = &[
    "data_hashes",
    "subtree_nodes",
    "subtree_from_flat",
    "session_next_gap",
    "hash_tree_common_prefix",
    "hash_tree_common_suffix",
];

fn is_absent(name: &str) -> bool {
    ABSENT.contains(&name)
}

// A refusal does nothing to the proof, which the error has.
fn opened(proof: &RangeProof, open: impl Fn(RangeProof) -> Result<OpenedRange, OpenError>) -> Answer {
    let range = open(proof.clone()).map_err(|error| {
        assert_eq!(error.proof, *proof);
        Refused("MISMATCH", None)
    })?;
    made(range)
}

fn levels(proof: &RangeProof) -> Value {
    let counts = |level| json!([proof.left(level).len(), proof.right(level).len()]);
    (0..proof.num_levels()).map(counts).collect()
}

// The lines of all nodes: the left ones from the chunks up, the range, and the right ones from the top down.
fn lines(proof: &RangeProof) -> String {
    let levels = 0..proof.num_levels();
    let lefts = levels.clone().flat_map(|level| proof.left(level));
    let rights = levels.rev().flat_map(|level| proof.right(level));
    let nodes = lefts.chain(proof.chunks()).chain(rights);
    nodes.map(|(hash, size)| format!("{hash} : {size}\n")).collect()
}

// The crate has no flat form. JSON and the bytes of bincode say the same, but not that there are more counts than nodes.
fn from_flat(counts: &[[u64; 2]], nodes: &[Node]) -> Result<RangeProof, Refused> {
    if counts.iter().flatten().map(|&count| u128::from(count)).sum::<u128>() > nodes.len() as u128 {
        return Err(Refused("PROOF_RULE", Some(5)));
    }
    let (mut rest, mut levels) = (nodes, Vec::new());
    for &[left, right] in counts {
        let (lefts, after) = rest.split_at(left as usize);
        let (inner, rights) = after.split_at(after.len() - right as usize);
        levels.push((lefts, rights));
        rest = inner;
    }
    let objects = |nodes: &[Node]| {
        nodes
            .iter()
            .map(|(hash, size)| json!({"hash": hash.hex(), "size": size}))
            .collect::<Value>()
    };
    let sides: Value = levels
        .iter()
        .map(|(left, right)| json!({"left": objects(left), "right": objects(right)}))
        .collect();
    let found = RangeProof::from_json(&json!({"chunks": objects(rest), "levels": sides}).to_string());
    #[cfg(feature = "serde")]
    {
        let bytes = bincode::serialize(&(rest, levels)).unwrap();
        assert_eq!(
            bincode::deserialize::<RangeProof>(&bytes).ok(),
            found.as_ref().ok().cloned()
        );
    }
    Ok(found?)
}

fn sorted<T: Ord>(mut list: Vec<T>) -> Vec<T> {
    list.sort_unstable();
    list
}

// The JSON of a session, which serde writes, too, with the members in another order.
fn written(_session: &Session, text: String) -> String {
    #[cfg(feature = "serde")]
    assert_eq!(forms::session_to_json(_session), text);
    text
}

// A session that was read from JSON. Serde reads the same. Where several things are wrong, its errors are of another one.
fn read(_text: &str, found: Result<Session, CoreError>) -> Result<Session, Refused> {
    #[cfg(feature = "serde")]
    assert_eq!(forms::session_from_json(_text).ok(), found.as_ref().ok().cloned());
    found.map_err(|error| match error {
        CoreError::InvalidSession(6) => Refused("ARGUMENTS", None),
        CoreError::InvalidSession(7) => Refused("SIZES", None),
        CoreError::InvalidSession(_) => Refused("TEXT", None),
        error => error.into(),
    })
}

// The JSON of a session by serde, whose errors are texts.
#[cfg(feature = "serde")]
mod forms {
    use super::{Refused, Session, Value};

    pub fn session_to_json(session: &Session) -> String {
        let value = serde_json::to_value(session).unwrap();
        let run = |it: &Value| {
            format!(
                r#"{{"first":{},"end":{},"chunks":{}}}"#,
                it["first"], it["end"], it["chunks"]
            )
        };
        let runs: Vec<String> = value["runs"].as_array().unwrap().iter().map(run).collect();
        format!(
            r#"{{"runs":[{}],"known_hashes":{}}}"#,
            runs.join(","),
            value["known_hashes"]
        )
    }

    pub fn session_from_json(text: &str) -> Result<Session, Refused> {
        serde_json::from_str(text).map_err(|error| {
            let (told, is_json) = (error.to_string(), serde_json::from_str::<Value>(text).is_ok());
            assert!(is_json || !error.is_data(), "{told}");
            let names =
                |rule| told.contains(&format!("(rule {rule})")) || told.contains(&format!("subtree: rule {rule}: "));
            if let Some(rule) = (1..=13).find(|&rule| names(rule)) {
                Refused("RULE", Some(rule))
            } else if told.contains("has no position, is marked at an end, or leaves no gap after the runs before it") {
                Refused("ARGUMENTS", None)
            } else if told.contains("size overflow") {
                Refused("SIZES", None)
            } else {
                Refused("TEXT", None)
            }
        })
    }
}

// ---- Answers: what a call gives or makes, or the status of its refusal with a rule

enum Done {
    Gives(Value),
    Makes(Value, Box<dyn Any>),
}

#[derive(Debug)]
struct Refused(&'static str, Option<u8>);
// Where the crate has `None`, the library has one of two statuses.
const NONE: Refused = Refused("ARGUMENTS or MISMATCH", None);
type Answer = Result<Done, Refused>;

fn is(value: impl Into<Value>) -> Answer {
    Ok(Done::Gives(said(value.into())))
}

fn ends<T: Into<Value>>(range: Range<T>) -> Value {
    json!([range.start.into(), range.end.into()])
}

fn nothing<T>(_: T) -> Answer {
    is(Value::Null)
}

fn made<T: 'static>(object: T) -> Answer {
    both(Value::Null, object)
}

fn both<T: 'static>(value: impl Into<Value>, object: T) -> Answer {
    Ok(Done::Makes(said(value.into()), Box::new(RefCell::new(object))))
}

impl From<CoreError> for Refused {
    fn from(error: CoreError) -> Self {
        match error {
            CoreError::InvalidArguments => Refused("ARGUMENTS", None),
            CoreError::SizeOverflow => Refused("SIZES", None),
            CoreError::InvalidText => Refused("TEXT", None),
            CoreError::InvalidJson(rule) => Refused("RULE", Some(rule)),
            CoreError::InvalidProof(rule) => Refused("PROOF_RULE", Some(rule)),
            other => panic!("{other}"),
        }
    }
}

impl From<SessionFault> for Refused {
    fn from(fault: SessionFault) -> Self {
        match fault {
            SessionFault::InvalidArguments => Refused("ARGUMENTS", None),
            SessionFault::Overlap => Refused("SESSION_OVERLAP", None),
            SessionFault::Positions => Refused("SESSION_POSITIONS", None),
            SessionFault::Sizes => Refused("SIZES", None),
            SessionFault::Gap => Refused("SESSION_GAP", None),
            other => panic!("{other}"),
        }
    }
}

// ---- Values: what a script says, and how it would say what the crate returns; tests/vectors/README.md has the rules

// A returned value as a script says it: a number that a double can't have is a text.
fn said(value: Value) -> Value {
    match value {
        Value::Number(number) if number.as_u64() >= Some(1 << 53) => number.to_string().into(),
        Value::Array(values) => values.into_iter().map(said).collect(),
        other => other,
    }
}

fn hexes(hashes: &[DataHash]) -> Vec<String> {
    hashes.iter().map(DataHash::hex).collect()
}

fn hex_of(bytes: &[u8]) -> String {
    bytes.iter().map(|byte| format!("{byte:02x}")).collect()
}

type Objects = HashMap<String, Box<dyn Any>>;

struct Arguments<'s> {
    objects: &'s Objects,
    given: &'s [Value],
}

impl Arguments<'_> {
    fn of<T: 'static>(&self, k: usize) -> &RefCell<T> {
        self.named(self.text(k))
    }

    fn named<T: 'static>(&self, name: &str) -> &RefCell<T> {
        self.objects[name].downcast_ref().unwrap()
    }

    fn names(&self, k: usize) -> impl Iterator<Item = &str> {
        array(&self.given[k]).map(text)
    }

    fn text(&self, k: usize) -> &str {
        text(&self.given[k])
    }

    fn truth(&self, k: usize) -> bool {
        self.given[k].as_bool().unwrap()
    }

    fn number(&self, k: usize) -> u64 {
        number(&self.given[k])
    }

    fn numbers(&self, k: usize) -> Vec<u64> {
        array(&self.given[k]).map(number).collect()
    }

    fn count(&self, k: usize) -> usize {
        self.number(k).try_into().unwrap()
    }

    fn hash(&self, k: usize) -> DataHash {
        DataHash::from_hex(self.text(k)).unwrap()
    }

    fn hashes(&self, k: usize) -> Vec<DataHash> {
        self.names(k).map(|hex| DataHash::from_hex(hex).unwrap()).collect()
    }

    fn levels(&self, k: usize) -> Vec<[u64; 2]> {
        array(&self.given[k])
            .map(|level| [number(&level[0]), number(&level[1])])
            .collect()
    }

    fn bytes(&self, k: usize) -> [u8; 32] {
        unhex(self.text(k)).try_into().unwrap()
    }

    fn data(&self, k: usize) -> Vec<u8> {
        let told = &self.given[k];
        if let Some(text) = told.as_str() {
            return unhex(text);
        }
        if let Some(repeated) = told["repeated"].as_str().map(unhex) {
            return part_of(&told["part"]).map(|i| repeated[i % repeated.len()]).collect();
        }
        match told["mixed"].is_array() {
            true => mixed_bytes(part_of(&told["mixed"])),
            false => part_of(&told["message"]).map(|i| (i % 251) as u8).collect(),
        }
    }

    fn chunks(&self, k: usize) -> Vec<Node> {
        match self.given[k].as_str() {
            Some(name) => self.named::<Vec<Node>>(name).borrow().clone(),
            None => chunks(&self.given[k]),
        }
    }
}

fn part_of(ends: &Value) -> Range<usize> {
    number(&ends[0]) as usize..number(&ends[1]) as usize
}

// A part of the numbers of SplitMix64 from the seed 0 on, each with its lowest byte first.
fn mixed_bytes(part: Range<usize>) -> Vec<u8> {
    let mut state = 0u64;
    let mut made = Vec::new();
    while made.len() < part.end {
        state = state.wrapping_add(0x9E37_79B9_7F4A_7C15);
        let number = (state ^ (state >> 30)).wrapping_mul(0xBF58_476D_1CE4_E5B9);
        let number = (number ^ (number >> 27)).wrapping_mul(0x94D0_49BB_1331_11EB);
        made.extend_from_slice(&(number ^ (number >> 31)).to_le_bytes());
    }
    made[part].to_vec()
}

fn text(it: &Value) -> &str {
    it.as_str().unwrap_or_else(|| panic!("no text: {it}"))
}

fn array(it: &Value) -> impl Iterator<Item = &Value> {
    it.as_array().unwrap_or_else(|| panic!("no array: {it}")).iter()
}

fn number(it: &Value) -> u64 {
    it.as_u64().unwrap_or_else(|| text(it).parse().unwrap())
}

fn unhex(digits: &str) -> Vec<u8> {
    let pair = |at| u8::from_str_radix(&digits[at..at + 2], 16).unwrap();
    (0..digits.len()).step_by(2).map(pair).collect()
}

// The chunks that a rule tells, or a part of them.
fn chunks(told: &Value) -> Vec<Node> {
    let (rule, it) = told
        .as_object()
        .unwrap()
        .iter()
        .find(|(rule, _)| *rule != "part")
        .unwrap();
    let count = || 0..number(&it["count"]);
    let all: Vec<Node> = match rule.as_str() {
        "pattern" => (1..)
            .zip(text(it).chars())
            .map(|(i, letter)| of_pattern(i, letter))
            .collect(),
        "drawn" => count()
            .map(|i| of_draw(number(&it["firstSeed"]).wrapping_add(i), i))
            .collect(),
        "seeds" => array(it).map(|seed| of_seed(number(seed))).collect(),
        "nodes" => array(it)
            .map(|node| (DataHash::from_hex(text(&node["hash"])).unwrap(), number(&node["size"])))
            .collect(),
        "counted" => count().map(|i| of_count(i, number(&it["cutEvery"]))).collect(),
        "numbers" => count().map(|i| of_data(&numbered(it, i))).collect(),
        "chunkBytes" => array(it).map(|digits| of_data(&unhex(text(digits)))).collect(),
        other => panic!("the rule {other}"),
    };
    match told["part"].as_array() {
        Some(part) => all[number(&part[0]) as usize..number(&part[1]) as usize].to_vec(),
        None => all,
    }
}

fn of_pattern(i: u64, letter: char) -> Node {
    (
        DataHash::from([i, 2 * i, 3 * i, 4 * i + u64::from(letter != '|')]),
        100 * i - 93,
    )
}

fn of_draw(seed: u64, i: u64) -> Node {
    (DataHash::random_from_seed(seed), 100 + 977 * i % 9901)
}

fn of_seed(seed: u64) -> Node {
    match seed {
        0 => (DataHash::default(), 0),
        _ => (DataHash::random_from_seed(seed), 100 * seed),
    }
}

fn of_count(i: u64, every: u64) -> Node {
    let is_cut = every > 0 && i % every == every - 1;
    (DataHash::from([i, 0, 0, u64::from(!is_cut)]), 1)
}

fn of_data(data: &[u8]) -> Node {
    (compute_data_hash(data), data.len() as u64)
}

fn numbered(rule: &Value, i: u64) -> Vec<u8> {
    let lengths: Vec<u64> = array(&rule["lengths"]).map(number).collect();
    let text = format!("{} ", number(&rule["first"]) + i);
    let length = lengths[i as usize % lengths.len()];
    text.bytes().cycle().take(length as usize).collect()
}

// ---- Steps

// All that an object says of itself.
fn state(object: &dyn Any) -> String {
    if let Some(it) = object.downcast_ref::<RefCell<MerkleHashSubtree>>() {
        it.borrow().to_json().unwrap()
    } else if let Some(it) = object.downcast_ref::<RefCell<Session>>() {
        let session = it.borrow();
        let runs: Vec<_> = session
            .runs()
            .map(|(first, range)| (first, range.to_json().unwrap()))
            .collect();
        format!("{runs:?} {:?}", sorted(session.known_hashes().unwrap()))
    } else if let Some(it) = object.downcast_ref::<RefCell<RangeProof>>() {
        it.borrow().to_json().unwrap()
    } else if let Some(it) = object.downcast_ref::<RefCell<OpenedRange>>() {
        format!("{:?}", it.borrow())
    } else if let Some(it) = object.downcast_ref::<RefCell<HashTree>>() {
        it.borrow().root().hex()
    } else if let Some(it) = object.downcast_ref::<RefCell<HashIndex>>() {
        format!("{:?}", sorted(it.borrow().entries().unwrap()))
    } else if let Some(it) = object.downcast_ref::<RefCell<Hasher>>() {
        it.borrow().finalize().hex()
    } else {
        String::new()
    }
}

fn states(objects: &Objects) -> HashMap<&str, String> {
    objects
        .iter()
        .map(|(name, it)| (name.as_str(), state(it.as_ref())))
        .collect()
}

// Whether a refusal is that of a script, as far as the crate tells it.
fn check_refusal(found: Answer, wanted: &Value) {
    let Err(Refused(status, rule)) = found else {
        panic!("it isn't refused: {wanted}")
    };
    assert!(
        status.split(" or ").any(|status| status == wanted["error"]),
        "{status}: {wanted}"
    );
    assert_eq!(json!(rule), wanted["rule"]);
}

// Makes a call, and compares its answer. A refused call may change nothing.
fn run_step(objects: &mut Objects, step: &[Value]) {
    let (name, given) = (text(&step[0]), step[1].as_array().unwrap());
    let answer = step.get(2).unwrap_or(&Value::Null);
    let arguments = Arguments { objects, given };
    if answer["error"].is_string() {
        let before = states(objects);
        check_refusal(call(name, &arguments), answer);
        assert_eq!(before, states(objects));
        return;
    }
    let found = match call(name, &arguments).unwrap() {
        Done::Gives(value) => value,
        Done::Makes(value, object) => {
            objects.insert(text(&answer["as"]).to_owned(), object);
            value
        }
    };
    match answer["hash"].as_str() {
        Some(hash) => assert_eq!(compute_data_hash(text(&found).as_bytes()).hex(), hash, "{found}"),
        None => assert_eq!(found, answer["is"]),
    }
}

// Runs the steps of a test, except calls that the crate lacks, and calls on what these would have made.
fn run_test(test: &Value) {
    let (mut objects, mut lacking) = (Objects::new(), Vec::new());
    for step in array(&test["steps"]).map(|step| step.as_array().unwrap()) {
        if is_absent(text(&step[0])) || array(&step[1]).any(|it| lacking.contains(&it)) {
            lacking.extend(step.get(2).and_then(|answer| answer.get("as")));
        } else {
            run_step(&mut objects, step);
        }
    }
}

// The folder of the scripts, which are made if they aren't there.
fn folder() -> PathBuf {
    static MADE: OnceLock<bool> = OnceLock::new();
    let vectors = Path::new(env!("CARGO_MANIFEST_DIR")).join("tests/vectors");
    let mut command = Command::new("python3");
    command.arg(vectors.join("make_vectors")).arg("--scripts");
    let made = MADE.get_or_init(|| command.status().is_ok_and(|status| status.success()));
    assert!(
        made,
        "python3 tests/vectors/make_vectors --scripts makes the scripts, and failed"
    );
    vectors.join("out/scripts")
}

// All tests of a script. Where one fails, it is named before.
fn run_script(name: &str) {
    let lines = fs::read_to_string(folder().join(name)).unwrap();
    let mut values = lines.lines().map(|line| serde_json::from_str::<Value>(line).unwrap());
    let head = values.next().unwrap();
    let tests: Vec<Value> = values.collect();
    for test in &tests {
        println!("{name}: {}", test["test"]);
        run_test(test);
    }
    assert_eq!(json!(tests.len()), head["numberOfTests"]);
}

macro_rules! scripts {
    ($($test:ident $name:literal)*) => {
        $(
            #[test]
            fn $test() {
                run_script($name);
            }
        )*

        #[test]
        fn each_script_is_run() {
            let files = fs::read_dir(folder()).unwrap().map(|file| file.unwrap().file_name());
            let there: BTreeSet<_> = files.map(|name| name.into_string().unwrap()).collect();
            assert_eq!(there, BTreeSet::from([$($name.to_owned()),*]));
        }
    };
}

scripts! {
    hashes "hashes.jsonl"
    texts_of_hashes "texts.jsonl"
    roots "roots.jsonl"
    canonical_subtrees "subtrees.jsonl"
    merges "merges.jsonl"
    texts_of_subtrees "subtree_json.jsonl"
    sessions "sessions.jsonl"
    json_of_sessions "session_json.jsonl"
    proofs_of_parts_of_files "range_proofs.jsonl"
    numbers_of_hashes "hash_indexes.jsonl"
    files "files.jsonl"
    lists_of_the_upstream "upstream.jsonl"
}

// A call of the tables above isn't left out, and scripts make it.
#[test]
fn each_call_that_the_crate_has_is_made() {
    let (tables, _) = include_str!("vectors.rs").split_once("// ---- Answers").unwrap();
    let arms = tables
        .lines()
        .filter_map(|line| line.trim().strip_prefix('"')?.split_once("\" =>"));
    let mut here: Vec<&str> = arms.map(|(name, _)| name).chain(ABSENT.iter().copied()).collect();
    here.sort_unstable();
    let heads = fs::read_dir(folder()).unwrap().map(|file| {
        let lines = fs::read_to_string(file.unwrap().path()).unwrap();
        serde_json::from_str::<Value>(lines.lines().next().unwrap()).unwrap()
    });
    let names = |head: Value| head["calls"].as_object().unwrap().keys().cloned().collect::<Vec<_>>();
    let called: BTreeSet<String> = heads.flat_map(names).collect();
    assert_eq!(here, called.iter().collect::<Vec<_>>());
}

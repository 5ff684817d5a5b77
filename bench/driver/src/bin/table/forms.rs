//! What a Rust client does with hashes and subtrees without the library, or by serde: beside plain structs with derives,
//! and texts by `format!`, `from_str_radix` and a table of symbols.

use driver::drawn::Cuts;
use driver::plain::{self, Hash};
use driver::rows::{Row, Task, HEAD};
use serde::{Deserialize, Serialize};
use std::collections::HashMap;
use std::hash::{BuildHasherDefault, Hasher};
use std::hint::black_box;
use yurewha::merklehash::{MerkleHash, MerkleHashSubtree, PassThroughHashMap};

#[derive(Clone, Serialize, Deserialize)]
struct PlainNode {
    #[serde(with = "formatted")]
    hash: Hash,
    size: u64,
}

#[derive(Clone, Serialize, Deserialize)]
struct PlainSubtree {
    nodes: Vec<PlainNode>,
    levels: Vec<(usize, usize)>,
    at_start: bool,
    at_end: bool,
}

mod formatted {
    use driver::plain::{self, Hash};
    use serde::de::{Deserialize, Deserializer, Error};
    use serde::Serializer;

    pub fn serialize<S: Serializer>(hash: &Hash, serializer: S) -> Result<S::Ok, S::Error> {
        let mut text = String::with_capacity(64);
        plain::write_formatted(&mut text, hash);
        serializer.serialize_str(&text)
    }

    pub fn deserialize<'de, D: Deserializer<'de>>(deserializer: D) -> Result<Hash, D::Error> {
        let text = <&str>::deserialize(deserializer)?;
        plain::parsed(text).ok_or_else(|| D::Error::custom("no hex text of a hash"))
    }
}

/// A hasher that hands on the first word of a key.
#[derive(Default)]
struct FirstWord(u64);

impl Hasher for FirstWord {
    fn finish(&self) -> u64 {
        self.0
    }

    fn write(&mut self, _: &[u8]) {
        unreachable!("a key is hashed by its first word");
    }

    fn write_u64(&mut self, word: u64) {
        self.0 = word;
    }
}

type PlainMap = HashMap<MerkleHash, u64, BuildHasherDefault<FirstWord>>;

/// Order, base64, copies of subtrees, a subtree's JSON by serde, and a map's bytes.
pub fn print() {
    println!("{HEAD}");
    sorting();
    base64();
    for count in [10, 100, 1000, 10_000] {
        cloning(count);
    }
    subtree(357);
    map(3_000_000);
}

fn sorting() {
    let hashes: Vec<MerkleHash> = crate::chunks(1, Cuts::Drawn, 1_000_000).into_iter().map(|(hash, _)| hash).collect();
    let words: Vec<Hash> = hashes.iter().map(|hash| **hash).collect();
    let row = Row {
        name: "sorting 10^6 hashes".into(),
        ours: Task::call_on(|| hashes.clone(), |hashes| hashes.sort()),
        peers: vec![("their words", Task::call_on(|| words.clone(), |words| words.sort()))],
        tenfold: None,
    };
    row.print();
}

fn base64() {
    let hashes: Vec<MerkleHash> = crate::chunks(1, Cuts::Drawn, 1000).into_iter().map(|(hash, _)| hash).collect();
    assert!(hashes.iter().all(|hash| hash.base64() == plain::base64_text(hash)));
    let writing = |text: fn(&MerkleHash) -> String| {
        let hashes = &hashes;
        Task::call(move || hashes.iter().for_each(|hash| drop(black_box(text(black_box(hash))))))
    };
    let row = Row {
        name: "`base64` of 1000 hashes".into(),
        ours: writing(MerkleHash::base64),
        peers: vec![("a table of symbols", writing(|hash| plain::base64_text(hash)))],
        tenfold: None,
    };
    row.print();
}

fn plain_subtree(subtree: &MerkleHashSubtree) -> PlainSubtree {
    let text = serde_json::to_string(subtree).expect("a text");
    serde_json::from_str(&text).expect("the text of a subtree")
}

fn cloning(count: usize) {
    let subtree = MerkleHashSubtree::from_chunks(false, &crate::chunks(3, Cuts::Nowhere, count), false);
    let theirs = plain_subtree(&subtree);
    assert_eq!(theirs.nodes.len(), count);
    let row = Row {
        name: format!("`clone` of a subtree, {count} nodes"),
        ours: Task::call(|| black_box(&subtree).clone()),
        peers: vec![("plain structs", Task::call(|| black_box(&theirs).clone()))],
        tenfold: None,
    };
    row.print();
}

// A range that keeps all its chunks.
fn subtree(count: usize) {
    let subtree = MerkleHashSubtree::from_chunks(false, &crate::chunks(3, Cuts::Nowhere, count), false);
    let text = serde_json::to_string(&subtree).expect("a text");
    let read = |text: &str| -> PlainSubtree { serde_json::from_str(text).expect("the text of a subtree") };
    let theirs = plain_subtree(&subtree);
    assert_eq!((theirs.nodes.len(), serde_json::to_string(&theirs).expect("a text")), (count, text.clone()));
    let row = Row {
        name: format!("`serde_json::to_string` of a subtree, {count} nodes"),
        ours: Task::call(|| serde_json::to_string(black_box(&subtree))),
        peers: vec![("plain structs", Task::call(|| serde_json::to_string(black_box(&theirs))))],
        tenfold: None,
    };
    row.print();
    let row = Row {
        name: "`serde_json::from_str` of that text".into(),
        ours: Task::call(|| serde_json::from_str::<MerkleHashSubtree>(black_box(&text))),
        peers: vec![("plain structs", Task::call(|| read(black_box(&text))))],
        tenfold: None,
    };
    row.print();
}

fn map(count: usize) {
    let map: PassThroughHashMap<MerkleHash, u64> = crate::chunks(1, Cuts::Drawn, count).into_iter().collect();
    let bytes = bincode::serialize(&map).expect("bytes");
    let pairs: Vec<(MerkleHash, u64)> = map.iter().map(|(hash, size)| (*hash, *size)).collect();
    let read = |bytes: &[u8]| -> PassThroughHashMap<MerkleHash, u64> { bincode::deserialize(bytes).expect("a map") };
    assert_eq!(*read(&bytes), *map);
    let fill = || {
        let mut map = PlainMap::with_capacity_and_hasher(count, Default::default());
        map.extend(pairs.iter().copied());
        map
    };
    let row = Row {
        name: format!("a map of {} million pairs, read from its bytes", count / 1_000_000),
        ours: Task::call(|| read(black_box(&bytes))),
        peers: vec![("a map with room, filled", Task::call(fill))],
        tenfold: None,
    };
    row.print();
}

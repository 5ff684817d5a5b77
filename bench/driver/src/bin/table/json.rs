//! The JSON texts of subtrees, beside `serde_json` on a plain struct.

use driver::drawn::{self, Cuts};
use driver::plain::{self, Hash};
use driver::rows::{Row, Task};
use serde::{Deserialize, Serialize};
use std::hint::black_box;
use yurewha::merklehash::MerkleHashSubtree;

#[derive(PartialEq, Serialize, Deserialize)]
struct PlainNode {
    #[serde(with = "hex_text")]
    hash: Hash,
    size: u64,
}

// Its members in the order of our texts.
#[derive(PartialEq, Serialize, Deserialize)]
struct PlainSubtree {
    at_end: bool,
    at_start: bool,
    levels: Vec<(u64, u64)>,
    nodes: Vec<PlainNode>,
}

mod hex_text {
    use driver::plain::{self, Hash};
    use serde::de::{Deserialize, Deserializer, Error};
    use serde::Serializer;

    pub fn serialize<S: Serializer>(hash: &Hash, serializer: S) -> Result<S::Ok, S::Error> {
        serializer.serialize_str(std::str::from_utf8(&plain::hex_digits(hash)).expect("hex digits are ASCII"))
    }

    pub fn deserialize<'de, D: Deserializer<'de>>(deserializer: D) -> Result<Hash, D::Error> {
        let text = <&str>::deserialize(deserializer)?;
        plain::parsed(text).ok_or_else(|| D::Error::custom("no hex text of a hash"))
    }
}

/// The text of a range that keeps all its chunks, both ways.
pub fn print_rows() {
    let plain_chunks: Vec<plain::Node> = drawn::chunks(3, Cuts::Nowhere).take(100_000).collect();
    let subtree = |count: usize| {
        let chunks: Vec<_> = plain_chunks[..count].iter().copied().map(crate::node_of).collect();
        MerkleHashSubtree::from_chunks(false, &chunks, false)
    };
    let write = |it: &MerkleHashSubtree| it.to_json().expect("memory for the text");
    let read = |text: &str| MerkleHashSubtree::from_json(text).expect("the text of a subtree");
    let [subtree, more] = [10_000, 100_000].map(subtree);
    let [text, more_text] = [&subtree, &more].map(write);
    let plain_read = |text: &str| -> PlainSubtree { serde_json::from_str(text).expect("the text of a subtree") };
    let theirs = plain_read(&text);
    let plain_write = || serde_json::to_string(black_box(&theirs)).expect("a text");
    assert_eq!(plain_write(), text);
    assert_eq!(read(&text), subtree);
    let row = Row {
        name: "`to_json`, 10^4 chunks without cuts".into(),
        ours: Task::call(|| write(black_box(&subtree))),
        peers: vec![("`serde_json`, a struct", Task::call(plain_write))],
        tenfold: Some(Task::call(|| write(black_box(&more)))),
    };
    row.print();
    let row = Row {
        name: "`from_json` of that text".into(),
        ours: Task::call(|| read(black_box(&text))),
        peers: vec![("`serde_json`, a struct", Task::call(|| plain_read(black_box(&text))))],
        tenfold: Some(Task::call(|| read(black_box(&more_text)))),
    };
    row.print();
}

//! Prints what calls of the crate `yurewha` take beside the same calls of xet-core's own crate; `bench/table upstream` runs it.

use driver::drawn::{self, Cuts};
use driver::rows::{Row, Task, HEAD};

const SIZES: [(&str, usize); 4] = [("30", 30), ("10^3", 1_000), ("10^4", 10_000), ("10^6", 1_000_000)];

/// A chunk's hash, as its words, and its size.
type Chunk = ([u64; 4], u64);

// The calls of one crate. Both crates have the same names, but other types.
macro_rules! calls_of {
    ($name:ident, $library:ident) => {
        mod $name {
            use super::Chunk;
            use driver::rows::Task;
            use std::hint::black_box;
            use $library::merklehash::{xorb_hash, MerkleHash, MerkleHashSubtree};

            pub type Node = (MerkleHash, u64);

            pub fn nodes(chunks: &[Chunk]) -> Vec<Node> {
                chunks.iter().map(|(words, size)| (MerkleHash::from(*words), *size)).collect()
            }

            pub fn root_of(nodes: &[Node]) -> String {
                xorb_hash(nodes).hex()
            }

            pub fn root(nodes: &[Node]) -> Task<'_> {
                Task::call(|| xorb_hash(black_box(nodes)))
            }

            pub fn subtree(nodes: &[Node]) -> Task<'_> {
                Task::call(|| MerkleHashSubtree::from_chunks(false, black_box(nodes), false))
            }

            /// Merges the ranges of both halves.
            pub fn merging(nodes: &[Node]) -> Task<'_> {
                let (front, back) = nodes.split_at(nodes.len() / 2);
                let front = MerkleHashSubtree::from_chunks(false, front, false);
                let back = MerkleHashSubtree::from_chunks(false, back, false);
                Task::call_on(
                    move || (front.clone(), back.clone()),
                    |(whole, back)| whole.merge_into(back).expect("no mark stands between"),
                )
            }

            pub fn hex(nodes: &[Node]) -> Task<'_> {
                Task::call(|| nodes.iter().for_each(|(hash, _)| drop(black_box(black_box(hash).hex()))))
            }
        }
    };
}

calls_of!(ours, yurewha);
calls_of!(theirs, xet_core_structures);

fn print(name: String, ours: Task, theirs: Task) {
    Row { name, ours, peers: vec![("xet-core", theirs)], tenfold: None }.print();
}

fn main() {
    let longest = SIZES[SIZES.len() - 1].1;
    let chunks: Vec<Chunk> = drawn::chunks(1, Cuts::Drawn).take(longest).collect();
    let (our_nodes, their_nodes) = (ours::nodes(&chunks), theirs::nodes(&chunks));
    println!("{HEAD}");
    for (name, count) in SIZES {
        let (our_nodes, their_nodes) = (&our_nodes[..count], &their_nodes[..count]);
        assert_eq!(ours::root_of(our_nodes), theirs::root_of(their_nodes));
        print(format!("`xorb_hash`, {name} chunks"), ours::root(our_nodes), theirs::root(their_nodes));
        print(
            format!("`from_chunks`, {name} chunks, both ends open"),
            ours::subtree(our_nodes),
            theirs::subtree(their_nodes),
        );
        print(
            format!("`merge_into` of the halves of {name} chunks"),
            ours::merging(our_nodes),
            theirs::merging(their_nodes),
        );
    }
    print("`hex` of 1000 hashes".into(), ours::hex(&our_nodes[..1000]), theirs::hex(&their_nodes[..1000]));
}

//! What is kept of a range of drawn chunks whose ends are open.

use driver::drawn::{self, Cuts};
use yurewha::merklehash::MerkleHashSubtree;

// A longer range is merged from pieces of so many chunks.
const PIECE: usize = 1_000_000;

// A hash and a size.
const NODE_BYTES: usize = 40;

struct Kept {
    nodes: usize,
    levels: usize,
    json: usize,
}

/// The table, of many lists where they are short.
pub fn print() {
    println!(
        "| Chunks | lists | levels | nodes, mean | most | bytes of them, mean | most | bytes of JSON, mean | most |"
    );
    println!("|---|---|---|---|---|---|---|---|---|");
    for (name, count, lists) in [
        ("10^3", 1_000, 1000),
        ("10^4", 10_000, 1000),
        ("10^5", 100_000, 300),
        ("10^6", 1_000_000, 30),
        ("10^7", 10_000_000, 3),
        ("10^8", 100_000_000, 1),
    ] {
        let kept: Vec<Kept> = (0..lists).map(|list| kept_of(list, count)).collect();
        let levels = kept.iter().map(|it| it.levels);
        let (least, most) = (levels.clone().min().unwrap_or(0), levels.max().unwrap_or(0));
        let levels = if least == most { format!("{least}") } else { format!("{least} to {most}") };
        let [nodes, most_nodes] = mean_and_most(kept.iter().map(|it| it.nodes));
        let [bytes, most_bytes] = [nodes, most_nodes].map(|it| it * NODE_BYTES);
        let [json, most_json] = mean_and_most(kept.iter().map(|it| it.json));
        println!(
            "| {name} | {lists} | {levels} | {nodes} | {most_nodes} | {bytes} | {most_bytes} | {json} | {most_json} |"
        );
    }
}

fn mean_and_most(counts: impl Iterator<Item = usize> + Clone) -> [usize; 2] {
    let (sum, lists) = counts.clone().fold((0, 0), |(sum, lists), it| (sum + it, lists + 1));
    [(sum + lists / 2) / lists, counts.max().unwrap_or(0)]
}

fn kept_of(list: u64, count: usize) -> Kept {
    let mut chunks = drawn::chunks(list << 32 | count as u64, Cuts::Drawn).map(crate::node_of);
    let mut range = MerkleHashSubtree::from_chunks(false, &[], false);
    for first in (0..count).step_by(PIECE) {
        let piece: Vec<_> = chunks.by_ref().take(PIECE.min(count - first)).collect();
        let piece = MerkleHashSubtree::from_chunks(false, &piece, false);
        range.merge_into(&piece).expect("adjacent ranges");
    }
    Kept {
        nodes: range.num_nodes(),
        levels: range.num_levels(),
        json: range.to_json().expect("memory for the text").len(),
    }
}

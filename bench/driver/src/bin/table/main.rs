//! Prints one part of the tables; `bench/table` runs it.

mod forms;
mod hashes;
mod json;
mod kept;
mod merging;
mod programs;
mod roots;
mod sessions;
mod threads;

use driver::drawn::{self, Cuts};
use driver::plain;
use yurewha::merklehash::MerkleHash;
use yurewha::own::Node;

// Drawn chunks as the crate has them.
fn chunks(seed: u64, cuts: Cuts, count: usize) -> Vec<Node> {
    drawn::chunks(seed, cuts).take(count).map(node_of).collect()
}

fn node_of((hash, size): plain::Node) -> Node {
    (MerkleHash::from(hash), size)
}

fn main() {
    let part = std::env::args().nth(1).unwrap_or_default();
    match part.as_str() {
        "forms" => forms::print(),
        "hashes" => hashes::print_hashes(),
        "hex" => hashes::print_hex(),
        "roots" => roots::print(),
        "merging" => merging::print(),
        "sessions" => sessions::print(),
        "threads" => threads::print(),
        "programs" => programs::print(),
        "kept" => kept::print(),
        _ => panic!("no part of the tables: `{part}`"),
    }
}

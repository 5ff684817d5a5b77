//! Prints the processor time of calls of the crate `yurewha` and, after them, of the crate `blake3` in nanoseconds: the least of
//! some turns. `bench/packages/calls.c` does the same for C.

use driver::drawn::{self, Cuts};
use driver::plain;
use driver::rows::seconds_of;
use std::hint::black_box;
use yurewha::merklehash::{compute_data_hash, xorb_hash, MerkleHash};

const MESSAGE: usize = 64 << 10;
const MESSAGES: usize = 2048;
const CHUNKS: usize = 100_000;
const TURNS: usize = 7;

// The least time of a turn, for each of its calls.
fn print(name: &str, count: usize, mut calls: impl FnMut()) {
    let least = (0..TURNS).map(|_| seconds_of(&mut calls)).fold(f64::INFINITY, f64::min);
    println!("{name} {:.0}", least * 1e9 / count as f64);
}

fn main() {
    // More bytes than any cache holds.
    let messages: Vec<u8> = (0..MESSAGE * MESSAGES).map(|i| (i % 251) as u8).collect();
    let plain_chunks: Vec<plain::Node> = drawn::chunks(1, Cuts::Drawn).take(CHUNKS).collect();
    let chunks: Vec<(MerkleHash, u64)> =
        plain_chunks.iter().map(|&(hash, size)| (MerkleHash::from(hash), size)).collect();
    let hot = || std::iter::repeat(&messages[..MESSAGE]).take(MESSAGES);
    let cold = || messages.chunks(MESSAGE);
    let ours = |message: &[u8]| {
        black_box(compute_data_hash(black_box(message)));
    };
    let theirs = |message: &[u8]| {
        black_box(plain::data_hash(black_box(message)));
    };
    print("hot", MESSAGES, || hot().for_each(ours));
    print("cold", MESSAGES, || cold().for_each(ours));
    print("root", 1, || {
        black_box(xorb_hash(black_box(&chunks)));
    });
    print("peer_hot", MESSAGES, || hot().for_each(theirs));
    print("peer_cold", MESSAGES, || cold().for_each(theirs));
    print("peer_root", 1, || {
        black_box(plain::xorb_hash(black_box(&plain_chunks), plain::encoded_line));
    });
}

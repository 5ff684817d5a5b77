//! Times calls of the Rust crate `yurewha` beside the calls in C that they make, in one process and in turn, and prints the
//! tables.

use driver::drawn::{self, Cuts};
use driver::rows::seconds_of;
use std::hint::black_box;
use yurewha::merklehash::{xorb_hash, MerkleHash, MerkleHashSubtree};

const TURNS: usize = 25;

type Chunk = (MerkleHash, u64);

/// A chunk as `yurewha.h` declares it.
#[repr(C)]
struct ChunkOfC {
    hash: [u64; 4],
    size: u64,
}

// Of the library that the crate links.
extern "C" {
    fn yurewha_xorb_hash(chunks: *const ChunkOfC, count: usize, root: *mut [u64; 4]) -> u32;
    fn yurewha_subtree_from_chunks(
        at_start: bool,
        chunks: *const ChunkOfC,
        count: usize,
        at_end: bool,
        subtree: *mut *mut u8,
    ) -> u32;
    fn yurewha_subtree_free(subtree: *mut *mut u8);
}

fn xorb_hash_in_c(chunks: &[ChunkOfC]) -> [u64; 4] {
    let mut root = [0; 4];
    // SAFETY: chunks of their count, and four words to write to.
    assert_eq!(unsafe { yurewha_xorb_hash(chunks.as_ptr(), chunks.len(), &mut root) }, 0);
    root
}

fn make_open_subtree_in_c(chunks: &[ChunkOfC]) {
    let mut subtree = std::ptr::null_mut();
    // SAFETY: chunks of their count, and a handle to write to.
    let status = unsafe { yurewha_subtree_from_chunks(false, chunks.as_ptr(), chunks.len(), false, &mut subtree) };
    assert_eq!(status, 0);
    // SAFETY: the handle that the call above made.
    unsafe { yurewha_subtree_free(&mut subtree) };
}

fn drawn(seed: u64, count: usize) -> Vec<Chunk> {
    drawn::chunks(seed, Cuts::Drawn).take(count).map(|(hash, size)| (hash.into(), size)).collect()
}

// The best time of each task for one of `count` calls, in nanoseconds, the tasks taken in turn.
fn best<const N: usize>(count: usize, mut tasks: [&mut dyn FnMut(); N]) -> [f64; N] {
    let mut best = [f64::MAX; N];
    for _ in 0..TURNS {
        for (best, task) in best.iter_mut().zip(tasks.iter_mut()) {
            let seconds = seconds_of(|| (0..count).for_each(|_| task()));
            *best = best.min(seconds * 1e9 / count as f64);
        }
    }
    best
}

// Calls that take about as long as crossing does.
fn short_calls() {
    let chunks = drawn(1, 100_000);
    let closed = MerkleHashSubtree::from_chunks(true, &chunks, true);
    let open = MerkleHashSubtree::from_chunks(false, &chunks, false);
    let empty = MerkleHashSubtree::from_chunks(false, &[], false);
    let mut grown = open.clone();
    let mut read = || {
        black_box(black_box(&closed).final_hash());
    };
    let mut merge_nothing = || black_box(&mut grown).merge_into(black_box(&empty)).unwrap();
    let [root, merge] = best(100_000, [&mut read, &mut merge_nothing]);
    println!("| Call | ns |\n|---|---|");
    println!("| `final_hash` | {root:.1} |");
    println!("| `merge_into` of an empty range, {} nodes kept | {merge:.1} |", open.num_nodes());
}

fn long_calls() {
    println!("\n| Call | through the crate, µs | the call in C, µs | ratio |\n|---|---|---|---|");
    for count in [1000, 1_000_000] {
        let chunks = drawn(2, count);
        let of_c: Vec<ChunkOfC> = chunks.iter().map(|&(hash, size)| ChunkOfC { hash: *hash, size }).collect();
        let calls = 1_000_000 / count;
        let mut through = || drop(black_box(MerkleHashSubtree::from_chunks(false, black_box(&chunks), false)));
        let mut in_c = || make_open_subtree_in_c(black_box(&of_c));
        row(&format!("`from_chunks` of {count}, open"), best(calls, [&mut through, &mut in_c]));
        let mut through = || {
            black_box(xorb_hash(black_box(&chunks)));
        };
        let mut in_c = || {
            black_box(xorb_hash_in_c(black_box(&of_c)));
        };
        row(&format!("`xorb_hash` of {count}"), best(calls, [&mut through, &mut in_c]));
    }
}

fn row(name: &str, [through, in_c]: [f64; 2]) {
    println!("| {name} | {:.1} | {:.1} | {:.3} |", through / 1e3, in_c / 1e3, through / in_c);
}

// A copy with another range merged into it, and what a copy takes of that.
fn merging() {
    let chunks = drawn(3, 20_000);
    let (front, back) = chunks.split_at(12_000);
    let [front, back] = [front, back].map(|range| MerkleHashSubtree::from_chunks(false, range, false));
    let mut merge = || {
        let mut whole = black_box(&front).clone();
        whole.merge_into(black_box(&back)).unwrap();
        drop(black_box(whole));
    };
    let mut copy = || drop(black_box(black_box(&front).clone()));
    let [both, copy] = best(1000, [&mut merge, &mut copy]);
    println!("\n| Call | µs |\n|---|---|");
    let (front, back) = (front.num_nodes(), back.num_nodes());
    println!("| `clone` of {front} nodes | {:.2} |", copy / 1e3);
    println!("| `clone` and `merge_into`, {front} and {back} nodes | {:.2} |", both / 1e3);
}

fn main() {
    short_calls();
    long_calls();
    merging();
}

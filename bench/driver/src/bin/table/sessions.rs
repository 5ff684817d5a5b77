//! Sessions of chunks by position.

use driver::drawn::{Cuts, Draws};
use driver::rows::{Row, Task, HEAD};
use std::hint::black_box;
use yurewha::merklehash::{xorb_hash, MerkleHash};
use yurewha::own::{Node, Session};

// How many chunks a put has.
const LENGTH: usize = 1000;

/// All rows, and what a session keeps of its hashes.
pub fn print() {
    println!("{HEAD}");
    let chunks = crate::chunks(1, Cuts::Drawn, 10_000_000);
    for (name, order) in [
        ("in order", (|count| (0..count).collect()) as fn(u64) -> Vec<u64>),
        ("in reverse", |count| (0..count).rev().collect()),
        ("in random order", drawn_order),
    ] {
        puts(name, &chunks, order);
    }
    kept_hashes(&chunks);
}

fn drawn_order(count: u64) -> Vec<u64> {
    let mut order: Vec<u64> = (0..count).collect();
    Draws(7).shuffle(&mut order);
    order
}

fn put_all(chunks: &[Node], order: &[u64]) -> Session {
    let mut session = Session::new();
    for &number in order {
        let first = number as usize * LENGTH;
        session.put(first as u64, &chunks[first..first + LENGTH]).expect("positions that no put took");
    }
    session
}

fn root_of_session(chunks: &[Node], order: &[u64]) -> MerkleHash {
    put_all(black_box(chunks), order).root(chunks.len() as u64).expect("no gap")
}

fn puts(name: &str, chunks: &[Node], order: fn(u64) -> Vec<u64>) {
    let all = &chunks[..chunks.len() / 10];
    let [some, more] = [all, chunks].map(|list| order((list.len() / LENGTH) as u64));
    assert_eq!(root_of_session(all, &some), xorb_hash(all));
    let row = Row {
        name: format!("1000 puts of 1000 chunks {name}"),
        ours: Task::call(|| root_of_session(all, &some)),
        peers: vec![("`xorb_hash` of all", Task::call(|| xorb_hash(black_box(all))))],
        tenfold: Some(Task::call(|| root_of_session(chunks, &more))),
    };
    row.print();
}

// The bytes that are allocated, as the C library's allocator counts them.
fn allocated() -> usize {
    // SAFETY: a call that only reads.
    let info = unsafe { libc::mallinfo2() };
    info.uordblks + info.hblkhd
}

fn kept_hashes(chunks: &[Node]) {
    println!("\n| Hashes that a session keeps | bytes allocated for each |\n|---|---|");
    for count in [1_000_000, 2_000_000, 3_000_000, 10_000_000] {
        let order: Vec<u64> = (0..(count / LENGTH) as u64).collect();
        let before = allocated();
        let session = put_all(&chunks[..count], &order);
        let kept = allocated() - before;
        drop(session);
        println!("| {count} | {:.1} |", kept as f64 / count as f64);
    }
}

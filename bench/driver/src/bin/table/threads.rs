//! Chunks of a reader, hashed by one thread and by four, beside what hashes the same chunks where they are in memory.

use crate::hashes::{chunk_places, COLD_BYTES};
use driver::rows::{Row, Task, HEAD};
use rayon::prelude::*;
use std::fs::File;
use std::hint::black_box;
use std::io::Read;
use std::num::NonZeroUsize;
use std::ops::Range;
use std::time::Instant;
use yurewha::merklehash::{compute_data_hash, MerkleHash};
use yurewha::own::{hash_chunks, Node};

/// A call by the clock, since several threads work.
fn by_clock<'a, T>(mut call: impl FnMut() -> T + 'a) -> Task<'a> {
    Task::told(move || {
        let start = Instant::now();
        drop(black_box(call()));
        start.elapsed().as_secs_f64()
    })
}

/// Reads each chunk to one buffer and hashes it there.
fn in_a_loop(mut reader: impl Read, places: &[Range<usize>]) -> Vec<MerkleHash> {
    let mut buffer = vec![0; 128 << 10];
    let mut hash = |place: &Range<usize>| {
        let chunk = &mut buffer[..place.len()];
        reader.read_exact(chunk).expect("a chunk");
        compute_data_hash(chunk)
    };
    places.iter().map(&mut hash).collect()
}

/// `hash_chunks` of bytes in memory, and of a file that the system has in memory.
pub fn print() {
    println!("{HEAD}");
    let bytes: Vec<u8> = (0..COLD_BYTES).map(|i| (i % 251) as u8).collect();
    let path = std::env::temp_dir().join(format!("yurewha_bench_{}", std::process::id()));
    std::fs::write(&path, &bytes).expect("a file");
    let file = || File::open(&path).expect("the file");
    let places = chunk_places(COLD_BYTES);
    let hashed = |reader: &mut dyn Read, threads: usize| -> Vec<Node> {
        let threads = NonZeroUsize::new(threads).expect("some threads");
        hash_chunks(reader, places.iter().map(Range::len), threads).expect("hashes")
    };
    let in_memory =
        || -> Vec<MerkleHash> { places.par_iter().map(|place| compute_data_hash(&bytes[place.clone()])).collect() };
    rayon::ThreadPoolBuilder::new().num_threads(4).build_global().expect("four threads");
    assert!(hashed(&mut &bytes[..], 4).iter().map(|node| node.0).eq(in_memory()));
    let rows: [(&str, Task, &str, Task); 4] = [
        (
            "in memory, 1 thread",
            by_clock(|| hashed(&mut &bytes[..], 1)),
            "a loop over one buffer",
            by_clock(|| in_a_loop(&bytes[..], &places)),
        ),
        (
            "of a file, 1 thread",
            by_clock(|| hashed(&mut file(), 1)),
            "a loop over one buffer",
            by_clock(|| in_a_loop(file(), &places)),
        ),
        ("in memory, 4 threads", by_clock(|| hashed(&mut &bytes[..], 4)), "`rayon`, in memory", by_clock(in_memory)),
        ("of a file, 4 threads", by_clock(|| hashed(&mut file(), 4)), "`rayon`, in memory", by_clock(in_memory)),
    ];
    for (name, ours, peer, theirs) in rows {
        Row { name: format!("`hash_chunks` {name}"), ours, peers: vec![(peer, theirs)], tenfold: None }.print();
    }
    std::fs::remove_file(&path).expect("the file");
}

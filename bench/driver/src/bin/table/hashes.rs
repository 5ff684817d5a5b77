//! Hashes of chunks, and the hex texts of hashes.

use driver::drawn::{Cuts, Draws};
use driver::plain;
use driver::rows::{Row, Task, HEAD};
use std::hint::black_box;
use std::ops::Range;
use yurewha::merklehash::{compute_data_hash, MerkleHash};
use yurewha::own::Hasher;

const PEER: &str = if cfg!(feature = "portable") {
    "`blake3`, no SIMD"
} else if cfg!(feature = "sse2") {
    "`blake3`, SSE2"
} else if cfg!(feature = "sse41") {
    "`blake3`, SSE4.1"
} else if cfg!(feature = "avx2") {
    "`blake3`, AVX2"
} else {
    "`blake3`, SIMD"
};

const LENGTHS: [(&str, usize); 11] = [
    ("64 B", 64),
    ("1 KiB", 1 << 10),
    ("2 KiB", 2 << 10),
    ("4 KiB", 4 << 10),
    ("8 KiB", 8 << 10),
    ("16 KiB", 16 << 10),
    ("20 KiB", 20 << 10),
    ("24 KiB", 24 << 10),
    ("48 KiB", 48 << 10),
    ("64 KiB", 64 << 10),
    ("1 MiB", 1 << 20),
];

const PIECES: [(&str, usize); 7] = [
    ("1 B", 1),
    ("13 B", 13),
    ("100 B", 100),
    ("2 KiB", 2 << 10),
    ("4 KiB", 4 << 10),
    ("16 KiB", 16 << 10),
    ("64 KiB", 64 << 10),
];

/// More bytes than any cache holds. In them the chunks of an upload follow each other.
pub const COLD_BYTES: usize = 128 << 20;

/// Where chunks begin and end that follow each other in so many bytes. Their lengths are those of the store: 8 KiB and a random
/// number of bytes, 56 KiB on average and with exponential distribution, but at most 128 KiB in all.
pub fn chunk_places(bytes: usize) -> Vec<Range<usize>> {
    let mut draws = Draws(1);
    let mut places = Vec::new();
    let mut start = 0;
    loop {
        let unit = (draws.number() >> 11) as f64 / (1u64 << 53) as f64;
        let length = (8 << 10) + (-(1.0 - unit).ln() * (56 << 10) as f64) as usize;
        let end = start + length.min(128 << 10);
        if end > bytes {
            return places;
        }
        places.push(start..end);
        start = end;
    }
}

/// Hashes one message after another, and begins again after the last.
fn in_turn<'a, T: 'a>(bytes: &'a [u8], places: &'a [Range<usize>], hash: fn(&[u8]) -> T) -> Task<'a> {
    let mut turns = places.iter().cycle();
    Task::call(move || hash(black_box(&bytes[turns.next().expect("there are messages").clone()])))
}

/// Hashes of the messages at some places, beside the crate `blake3`.
fn print_in_turn(name: &str, bytes: &[u8], places: &[Range<usize>]) {
    let row = Row {
        name: format!("`compute_data_hash`, {name}"),
        ours: in_turn(bytes, places, compute_data_hash),
        peers: vec![(PEER, in_turn(bytes, places, plain::data_hash))],
        tenfold: None,
    };
    row.print();
}

fn in_pieces(chunk: &[u8], length: usize) -> MerkleHash {
    let mut hasher = Hasher::new_data();
    for piece in chunk.chunks(length) {
        hasher.update(piece);
    }
    hasher.finalize()
}

/// Hashes of one message, whole and in pieces, beside the crate `blake3`.
pub fn print_hashes() {
    let bytes: Vec<u8> = (0..1usize << 20).map(|i| (i % 251) as u8).collect();
    println!("{HEAD}");
    for (name, length) in LENGTHS {
        let message = &bytes[..length];
        assert_eq!(*compute_data_hash(message), plain::data_hash(message));
        let row = Row {
            name: format!("`compute_data_hash`, {name}"),
            ours: Task::call(|| compute_data_hash(black_box(message))),
            peers: vec![(PEER, Task::call(|| plain::data_hash(black_box(message))))],
            tenfold: None,
        };
        row.print();
    }
    let cold: Vec<u8> = (0..COLD_BYTES).map(|i| (i % 251) as u8).collect();
    let blocks: Vec<Range<usize>> = (0..COLD_BYTES).step_by(64 << 10).map(|start| start..start + (64 << 10)).collect();
    print_in_turn("64 KiB, cold", &cold, &blocks);
    print_in_turn("chunks, hot", &bytes, &chunk_places(bytes.len()));
    print_in_turn("chunks, cold", &cold, &chunk_places(cold.len()));
    let message = &bytes[..];
    for (name, length) in PIECES {
        assert_eq!(*in_pieces(message, length), plain::data_hash(message));
        let row = Row {
            name: format!("`update`, 1 MiB in pieces of {name}"),
            ours: Task::call(|| in_pieces(black_box(message), length)),
            peers: vec![(PEER, Task::call(|| plain::data_hash_in_pieces(black_box(message), length)))],
            tenfold: None,
        };
        row.print();
    }
}

fn formatted(hash: &MerkleHash) -> String {
    format!("{:016x}{:016x}{:016x}{:016x}", hash[0], hash[1], hash[2], hash[3])
}

fn encoded(hash: &MerkleHash) -> String {
    std::str::from_utf8(&plain::hex_digits(hash)).expect("hex digits are ASCII").to_owned()
}

fn from_table(hash: &MerkleHash) -> String {
    std::str::from_utf8(&plain::table_digits(hash)).expect("hex digits are ASCII").to_owned()
}

/// Hex texts of a thousand hashes both ways, each text a `String` of its own.
pub fn print_hex() {
    let hashes: Vec<MerkleHash> = crate::chunks(1, Cuts::Drawn, 10_000).into_iter().map(|(hash, _)| hash).collect();
    let texts: Vec<String> = hashes.iter().map(MerkleHash::hex).collect();
    assert!(hashes.iter().map(formatted).eq(texts.iter().cloned()));
    assert!(hashes.iter().map(encoded).eq(texts.iter().cloned()));
    assert!(hashes.iter().map(from_table).eq(texts.iter().cloned()));
    let is_read = |(text, hash): (&String, &MerkleHash)| {
        plain::decoded(text) == Some(**hash) && plain::parsed(text) == Some(**hash)
    };
    assert!(texts.iter().zip(&hashes).all(is_read));
    println!("{HEAD}");
    let writing = |count: usize, hex: fn(&MerkleHash) -> String| {
        let hashes = &hashes[..count];
        Task::call(move || hashes.iter().for_each(|hash| drop(black_box(hex(black_box(hash))))))
    };
    let row = Row {
        name: "`hex` of 1000 hashes".into(),
        ours: writing(1000, MerkleHash::hex),
        peers: vec![
            ("the crate `hex`", writing(1000, encoded)),
            ("a table of digits", writing(1000, from_table)),
            ("`format!`", writing(1000, formatted)),
        ],
        tenfold: Some(writing(10_000, MerkleHash::hex)),
    };
    row.print();
    let reading = |count: usize, read: fn(&str) -> Option<plain::Hash>| {
        let texts = &texts[..count];
        Task::call(move || {
            for text in texts {
                black_box(read(black_box(text)).expect("hex digits"));
            }
        })
    };
    let ours: fn(&str) -> Option<plain::Hash> = |text| Some(*MerkleHash::from_hex(text).ok()?);
    let row = Row {
        name: "`from_hex` of 1000 texts".into(),
        ours: reading(1000, ours),
        peers: vec![
            ("the crate `hex`", reading(1000, plain::decoded)),
            ("`from_str_radix`", reading(1000, plain::parsed)),
        ],
        tenfold: Some(reading(10_000, ours)),
    };
    row.print();
}

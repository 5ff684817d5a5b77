//! Roots and subtrees of whole lists.

use driver::drawn::{self, Cuts};
use driver::plain::{self, WriteLine};
use driver::rows::{Row, Task, HEAD};
use std::hint::black_box;
use yurewha::merklehash::{xorb_hash, MerkleHashSubtree};

const SIZES: [(&str, usize); 5] =
    [("10^3", 1_000), ("10^4", 10_000), ("10^5", 100_000), ("10^6", 1_000_000), ("10^7", 10_000_000)];

/// `xorb_hash` beside plain loops over the crate `blake3`, and `from_chunks` beside `xorb_hash`.
pub fn print() {
    let longest = SIZES[SIZES.len() - 1].1;
    let plain_chunks: Vec<plain::Node> = drawn::chunks(1, Cuts::Drawn).take(longest).collect();
    let chunks = crate::chunks(1, Cuts::Drawn, longest);
    println!("{HEAD}");
    for (name, count) in SIZES {
        let theirs = &plain_chunks[..count];
        let peer = |write_line: WriteLine| Task::call(move || plain::xorb_hash(black_box(theirs), write_line));
        let ours = |count: usize| {
            let chunks = chunks.get(..count)?;
            Some(Task::call(move || xorb_hash(black_box(chunks))))
        };
        let root = xorb_hash(&chunks[..count]);
        for write_line in [plain::formatted_line, plain::encoded_line, plain::table_line] {
            assert_eq!(*root, plain::xorb_hash(theirs, write_line));
        }
        let row = Row {
            name: format!("`xorb_hash`, {name} chunks"),
            ours: ours(count).expect("so many chunks"),
            peers: vec![
                ("a loop, `write!`", peer(plain::formatted_line)),
                ("a loop, the crate `hex`", peer(plain::encoded_line)),
                ("a loop, a table of digits and `itoa`", peer(plain::table_line)),
            ],
            tenfold: ours(10 * count),
        };
        row.print();
    }
    for (name, count) in SIZES {
        let list = &chunks[..count];
        let ours = |count: usize| {
            let chunks = chunks.get(..count)?;
            Some(Task::call(move || MerkleHashSubtree::from_chunks(false, black_box(chunks), false)))
        };
        assert_eq!(MerkleHashSubtree::from_chunks(true, list, true).final_hash(), Some(xorb_hash(list)));
        let row = Row {
            name: format!("`from_chunks`, {name} chunks, both ends open"),
            ours: ours(count).expect("so many chunks"),
            peers: vec![("`xorb_hash`", Task::call(|| xorb_hash(black_box(list))))],
            tenfold: ours(10 * count),
        };
        row.print();
    }
}

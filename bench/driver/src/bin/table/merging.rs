//! Subtrees of adjacent ranges: making them and merging them.

use driver::drawn::Cuts;
use driver::rows::{Row, Task, HEAD};
use std::hint::black_box;
use yurewha::merklehash::MerkleHashSubtree;
use yurewha::own::Node;

/// All rows.
pub fn print() {
    println!("{HEAD}");
    let chunks = crate::chunks(1, Cuts::Drawn, 10_000_000);
    two_ranges(&chunks);
    ranges_of(&chunks, "1000 ranges of 1000 chunks", 1000, 1000);
    ranges_of(&chunks, "1000 ranges of 100 chunks", 1000, 100);
    drop(chunks);
    for (name, cuts) in
        [("random chunks", Cuts::Drawn), ("chunks without cuts", Cuts::Nowhere), ("cuts everywhere", Cuts::Everywhere)]
    {
        one_by_one(name, &crate::chunks(2, cuts, 1_000_000));
    }
    crate::json::print_rows();
}

fn open(chunks: &[Node]) -> MerkleHashSubtree {
    MerkleHashSubtree::from_chunks(false, black_box(chunks), false)
}

// Adjacent open ranges of so many chunks each, at most 64 pairs of them, since a merge takes what the chunks where the ranges
// meet ask for.
fn pairs(chunks: &[Node], count: usize) -> Vec<[MerkleHashSubtree; 2]> {
    let both = chunks.chunks_exact(2 * count).take(64);
    both.map(|both| [open(&both[..count]), open(&both[count..])]).collect()
}

// Merging the pairs, each in its turn.
fn merging_pairs(pairs: &[[MerkleHashSubtree; 2]]) -> Task<'_> {
    let mut turns = pairs.iter().cycle();
    let make = move || {
        let [front, back] = turns.next().expect("a pair of ranges");
        (front.clone(), back)
    };
    Task::call_on(make, |(whole, back)| whole.merge_into(back).expect("adjacent ranges"))
}

// One merge of two open ranges, beside making the range of both.
fn two_ranges(chunks: &[Node]) {
    let sizes = [("10^3", 1_000), ("10^4", 10_000), ("10^5", 100_000), ("10^6", 1_000_000)];
    let pairs_of_sizes = sizes.map(|(_, count)| pairs(chunks, count));
    for (i, (name, count)) in sizes.into_iter().enumerate() {
        let (pairs, both) = (&pairs_of_sizes[i], &chunks[..2 * count]);
        let mut whole = pairs[0][0].clone();
        whole.merge_into(&pairs[0][1]).expect("adjacent ranges");
        assert_eq!(whole, open(both));
        let row = Row {
            name: format!("`merge_into`, {name} chunks each side"),
            ours: merging_pairs(pairs),
            peers: vec![("`from_chunks` of both", Task::call(|| open(both)))],
            tenfold: pairs_of_sizes.get(i + 1).map(|pairs| merging_pairs(pairs)),
        };
        row.print();
    }
}

// Subtrees of adjacent ranges, the first one marked at its start and the last one at its end.
fn ranges(chunks: &[Node], length: usize) -> Vec<MerkleHashSubtree> {
    let last = chunks.len().div_ceil(length) - 1;
    let make = |(i, range)| MerkleHashSubtree::from_chunks(i == 0, range, i == last);
    chunks.chunks(length).enumerate().map(make).collect()
}

fn merge_from_the_left(whole: &mut MerkleHashSubtree, others: &[MerkleHashSubtree]) {
    for range in others {
        whole.merge_into(range).expect("adjacent ranges");
    }
}

fn merging_from_the_left(ranges: &[MerkleHashSubtree]) -> Task<'_> {
    Task::call_on(|| ranges[0].clone(), |whole| merge_from_the_left(whole, &ranges[1..]))
}

fn merging_by_halves(ranges: &[MerkleHashSubtree]) -> Task<'_> {
    Task::call(|| MerkleHashSubtree::merge(black_box(ranges)).expect("adjacent ranges"))
}

// Making ranges beside making the range of all, merging them from the left beside that, and `merge` beside `merge_into`.
fn ranges_of(chunks: &[Node], name: &str, count: usize, length: usize) {
    let more = &chunks[..10 * count * length];
    let all = &chunks[..count * length];
    let (made, more_made) = (ranges(all, length), ranges(more, length));
    let whole = MerkleHashSubtree::from_chunks(true, all, true);
    assert_eq!(MerkleHashSubtree::merge(&made).expect("adjacent ranges"), whole);
    let mut from_the_left = made[0].clone();
    merge_from_the_left(&mut from_the_left, &made[1..]);
    assert_eq!(from_the_left, whole);
    let making = || Task::call(|| ranges(black_box(all), length));
    let row = Row {
        name: format!("{name}, making"),
        ours: making(),
        peers: vec![("`from_chunks` of all", Task::call(|| open(all)))],
        tenfold: Some(Task::call(|| ranges(black_box(more), length))),
    };
    row.print();
    let row = Row {
        name: format!("{name}, `merge_into` from the left"),
        ours: merging_from_the_left(&made),
        peers: vec![("making", making())],
        tenfold: Some(merging_from_the_left(&more_made)),
    };
    row.print();
    let row = Row {
        name: format!("{name}, `merge`"),
        ours: merging_by_halves(&made),
        peers: vec![("`merge_into` from the left", merging_from_the_left(&made))],
        tenfold: Some(merging_by_halves(&more_made)),
    };
    row.print();
}

// Ranges of one chunk merged from the left, beside the range of all.
fn one_by_one(name: &str, chunks: &[Node]) {
    let count = chunks.len() / 10;
    let more = ranges(chunks, 1);
    let mut made = ranges(&chunks[..count], 1);
    let row = Row {
        name: format!("10^5 ranges of one chunk, `merge_into` from the left, {name}"),
        ours: merging_from_the_left(&made),
        peers: vec![(
            "`from_chunks` of all",
            Task::call(|| MerkleHashSubtree::from_chunks(true, black_box(&chunks[..count]), true)),
        )],
        tenfold: Some(merging_from_the_left(&more)),
    };
    row.print();
    let whole = MerkleHashSubtree::from_chunks(true, &chunks[..count], true);
    let (first, others) = made.split_first_mut().expect("a range");
    merge_from_the_left(first, others);
    assert_eq!(*first, whole);
}

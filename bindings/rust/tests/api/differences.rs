//! Where two files differ.

use crate::draws::{reference, Draws};
use yurewha::merklehash::DataHash;
use yurewha::own::{Difference, HashTree, Node};

fn difference(first: &[Node], second: &[Node]) -> Option<Difference> {
    let [first, second] = [first, second].map(|chunks| HashTree::from_chunks(chunks).unwrap());
    first.diff(&second)
}

// The longest list that both begin with, and then the longest one that what is left of both ends with.
fn plain_difference(first: &[Node], second: &[Node]) -> Option<Difference> {
    let longest = |list: &mut dyn DoubleEndedIterator<Item = usize>, same: &dyn Fn(usize) -> bool| {
        list.rev().find(|&count| same(count)).unwrap()
    };
    let shorter = first.len().min(second.len());
    let front = longest(&mut (0..=shorter), &|count| first[..count] == second[..count]);
    let after = longest(&mut (0..=shorter - front), &|count| {
        first[first.len() - count..] == second[second.len() - count..]
    });
    let (end, other_end) = (first.len() - after, second.len() - after);
    let size = |list: &[Node]| list.iter().map(|chunk| chunk.1).sum();
    (first != second).then(|| Difference {
        first: front,
        end,
        other_end,
        start: size(&first[..front]),
        stop: size(&first[..end]),
        other_stop: size(&second[..other_end]),
    })
}

#[test]
fn a_difference_says_chunks_and_bytes_of_both_files() {
    // Chunk number `i` has 100 `i` bytes.
    let cases: [(&[u64], &[u64], _, _); 12] = [
        (&[1, 2, 3], &[1, 4, 3], (1, 2, 2), (100, 300, 500)),
        (&[1, 4, 5, 3], &[1, 2, 3], (1, 3, 2), (100, 1000, 300)),
        (&[1, 2, 3], &[1, 3], (1, 2, 1), (100, 300, 100)),
        (&[1, 3], &[1, 2, 3], (1, 1, 2), (100, 100, 300)),
        (&[1, 2], &[1, 2, 3], (2, 2, 3), (300, 300, 600)),
        (&[2, 3], &[1, 2, 3], (0, 0, 1), (0, 0, 100)),
        (&[], &[1, 2], (0, 0, 2), (0, 0, 300)),
        (&[1, 2], &[], (0, 2, 0), (0, 300, 0)),
        (&[1, 2], &[3], (0, 2, 1), (0, 300, 300)),
        // No chunk counts on both sides.
        (&[1, 1, 1], &[1], (1, 3, 1), (100, 300, 100)),
        (&[1, 2, 1], &[1, 2, 1, 2, 1], (3, 3, 5), (400, 400, 700)),
        // A chunk without bytes.
        (&[1, 0], &[1], (1, 2, 1), (100, 100, 100)),
    ];
    for (first, second, (front, end, other_end), (start, stop, other_stop)) in cases {
        let wanted = Difference {
            first: front,
            end,
            other_end,
            start,
            stop,
            other_stop,
        };
        assert_eq!(
            difference(&reference(first), &reference(second)),
            Some(wanted),
            "{first:?} {second:?}"
        );
    }
}

#[test]
fn files_of_the_same_chunks_do_not_differ() {
    for numbers in [&[][..], &[1], &[1, 1], &[1, 2, 3]] {
        let chunks = reference(numbers);
        let tree = HashTree::from_chunks(&chunks).unwrap();
        assert_eq!((tree.diff(&tree), tree.diff(&tree.clone())), (None, None));
        assert_eq!(tree.num_chunks(), numbers.len());
    }
}

#[test]
fn a_chunk_is_the_same_if_its_hash_and_its_size_are() {
    let [hash, other] = [1, 2].map(DataHash::random_from_seed);
    for changed in [(hash, 6), (other, 5)] {
        let found = difference(&[(hash, 5); 3], &[(hash, 5), changed, (hash, 5)]).unwrap();
        assert_eq!((found.first, found.end, found.other_end), (1, 2, 2));
        assert_eq!((found.start, found.stop, found.other_stop), (5, 10, 5 + changed.1));
    }
}

#[test]
fn places_in_a_difference_are_not_cut_to_32_bits() {
    let [a, b, c] = [1, 2, 3].map(|seed| (DataHash::random_from_seed(seed), 1 << (32 + seed)));
    let found = difference(&[a, b, c], &[a, c, c]).unwrap();
    assert_eq!(
        (found.start, found.stop, found.other_stop),
        (2 << 32, 6 << 32, 10 << 32)
    );
}

#[test]
fn drawn_lists_differ_where_plain_code_says() {
    let mut draws = Draws(61);
    for round in 0..3000 {
        let mut list = |most| -> Vec<Node> {
            let count = draws.below(most);
            (0..count)
                .map(|_| (DataHash::random_from_seed(draws.number() % 2), draws.number() % 2))
                .collect()
        };
        // Two lists that often begin and end with the same chunks.
        let [front, middle, other, end] = [4, 8, 8, 4].map(&mut list);
        let [first, second] = [middle, other].map(|middle| [&*front, &*middle, &*end].concat());
        for (one, two) in [(&first, &second), (&second, &first), (&first, &first)] {
            assert_eq!(difference(one, two), plain_difference(one, two), "{round}");
        }
    }
}

// Long enough for several levels of nodes, and for more than one piece of anything.
#[test]
fn long_lists_differ_where_one_was_edited() {
    let list = Draws(62).nodes(10_000);
    let edits: [(usize, usize, usize); 6] = [
        (0, 0, 3),
        (5000, 5001, 1),
        (5000, 5600, 0),
        (9999, 10_000, 7),
        (10_000, 10_000, 1),
        (0, 10_000, 5),
    ];
    for (first, end, count) in edits {
        let edited = [&list[..first], &Draws(63).nodes(count), &list[end..]].concat();
        let found = difference(&edited, &list).unwrap();
        assert_eq!((found.first, found.end, found.other_end), (first, first + count, end));
        assert_eq!(Some(found), plain_difference(&edited, &list));
    }
}

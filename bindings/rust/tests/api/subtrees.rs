//! Canonical subtrees and stable points.

use crate::definitions;
use crate::draws::{numbered, reference, with_cuts, Draws};
use std::collections::HashSet;
use std::hash::{BuildHasher, BuildHasherDefault, DefaultHasher};
use yurewha::error::CoreError;
use yurewha::merklehash::{file_hash, file_hash_with_salt, xorb_hash, MerkleHash, MerkleHashSubtree};
use yurewha::merklehash::{find_stable_end, find_stable_start};
use yurewha::own::{try_find_stable_end, try_find_stable_start};

const MARKS: [(bool, bool); 4] = [(false, false), (false, true), (true, false), (true, true)];

#[test]
fn stable_points_are_those_of_the_examples() {
    let examples = [
        (numbered(0..20), Some(8), Some(16)),
        (with_cuts(7, &[0, 3, 6]), Some(4), Some(4)),
        (with_cuts(15, &[0, 7, 14]), Some(8), Some(8)),
        (with_cuts(17, &[0, 8, 16]), None, None),
        (with_cuts(5, &[0, 2, 4]), None, None),
        (Vec::new(), None, None),
    ];
    for (nodes, start, end) in examples {
        assert_eq!((find_stable_start(&nodes), find_stable_end(&nodes)), (start, end));
    }
}

#[test]
fn stable_points_of_drawn_lists_are_those_of_the_definition() {
    let mut draws = Draws(3);
    for _ in 0..300 {
        let count = draws.below(60);
        let nodes = draws.nodes(count);
        let (start, end) = (definitions::stable_start(&nodes), definitions::stable_end(&nodes));
        assert_eq!((find_stable_start(&nodes), find_stable_end(&nodes)), (start, end));
        assert_eq!(try_find_stable_start(&nodes), Ok(start));
        assert_eq!(try_find_stable_end(&nodes), Ok(end));
    }
}

#[test]
fn subtrees_of_drawn_lists_are_those_of_the_definition() {
    let mut draws = Draws(4);
    for i in 0..400 {
        let (at_start, at_end) = MARKS[i % 4];
        let count = draws.below(100);
        let nodes = draws.nodes(count);
        let subtree = MerkleHashSubtree::from_chunks(at_start, &nodes, at_end);
        let levels = definitions::levels(at_start, &nodes, at_end);
        let kept: usize = levels.iter().map(|(left, right)| left.len() + right.len()).sum();
        assert_eq!(subtree.to_json().unwrap(), definitions::json(at_start, &nodes, at_end));
        assert_eq!((subtree.at_start(), subtree.at_end()), (at_start, at_end));
        assert_eq!(subtree.total_size(), nodes.iter().map(|node| node.1).sum::<u64>());
        assert_eq!((subtree.num_nodes(), subtree.num_levels()), (kept, levels.len()));
        assert_eq!(subtree.is_empty(), nodes.is_empty());
        assert_eq!(subtree.final_hash(), (at_start && at_end).then(|| xorb_hash(&nodes)));
    }
}

#[test]
fn an_empty_subtree_has_one_level_and_the_default_hash() {
    for (at_start, at_end) in MARKS {
        let empty = MerkleHashSubtree::from_chunks(at_start, &[], at_end);
        assert!(empty.is_empty());
        assert_eq!((empty.num_nodes(), empty.num_levels(), empty.total_size()), (0, 1, 0));
        let hash = (at_start && at_end).then(MerkleHash::default);
        assert_eq!(empty.final_hash(), hash);
    }
}

#[test]
fn equal_are_subtrees_with_the_same_marks_levels_and_nodes() {
    let mut all = Vec::new();
    for (at_start, at_end) in MARKS {
        for numbers in [&[][..], &[1], &[1, 2], &[2, 1]] {
            all.push(MerkleHashSubtree::from_chunks(at_start, &reference(numbers), at_end));
        }
    }
    for (i, first) in all.iter().enumerate() {
        for (j, second) in all.iter().enumerate() {
            assert_eq!(first == second, i == j);
            assert_eq!(first == &second.clone(), i == j);
        }
    }
}

#[test]
fn a_clone_is_a_value_of_its_own() {
    let first = MerkleHashSubtree::from_chunks(true, &numbered(0..20), false);
    let mut copy = first.clone();
    assert_eq!(first.try_clone(), Ok(copy.clone()));
    let end = MerkleHashSubtree::from_chunks(false, &[], true);
    copy.merge_into(&end).unwrap();
    assert_ne!(first, copy);
    drop(first);
    assert_eq!(copy.final_hash(), Some(xorb_hash(&numbered(0..20))));
}

#[test]
fn a_subtree_shows_its_nodes_levels_and_marks() {
    let subtree = MerkleHashSubtree::from_chunks(true, &[(MerkleHash::default(), 7)], false);
    let text = format!("{subtree:?}");
    let zeros = "0".repeat(64);
    assert_eq!(
        text,
        format!("MerkleHashSubtree {{ nodes: [({zeros}, 7)], levels: [(1, 0)], at_start: true, at_end: false }}")
    );
}

#[test]
fn sizes_that_do_not_fit_are_refused() {
    let fits = [(MerkleHash::default(), u64::MAX), (MerkleHash::default(), 0)];
    let subtree = MerkleHashSubtree::try_from_chunks(false, &fits, false).unwrap();
    assert_eq!(subtree.total_size(), u64::MAX);
    let passes = [(MerkleHash::default(), u64::MAX), (MerkleHash::default(), 1)];
    assert_eq!(
        MerkleHashSubtree::try_from_chunks(false, &passes, false),
        Err(CoreError::SizeOverflow)
    );
}

#[test]
#[should_panic(expected = "MerkleHashSubtree::from_chunks: size overflow")]
fn from_chunks_names_the_cause_in_a_panic() {
    let _ = MerkleHashSubtree::from_chunks(true, &[(MerkleHash::default(), u64::MAX); 2], true);
}

#[test]
fn subtrees_are_keys_by_their_value() {
    let nodes = Draws(31).nodes(300);
    let mut values = Vec::new();
    for (at_start, at_end) in MARKS {
        for chunks in [
            &nodes[..0],
            &nodes[..1],
            &nodes[1..2],
            &nodes[..40],
            &nodes[1..41],
            &nodes[..],
        ] {
            values.push(MerkleHashSubtree::from_chunks(at_start, chunks, at_end));
        }
    }
    // The same hashes with other sizes.
    let larger: Vec<_> = nodes[..40].iter().map(|(hash, size)| (*hash, size + 1)).collect();
    values.push(MerkleHashSubtree::from_chunks(false, &larger, false));
    let told = |it: &MerkleHashSubtree| BuildHasherDefault::<DefaultHasher>::default().hash_one(it);
    let hashes: HashSet<_> = values.iter().map(told).collect();
    assert_eq!(hashes.len(), values.len());
    let halves = [&nodes[..120], &nodes[120..]].map(|half| MerkleHashSubtree::from_chunks(false, half, false));
    let merged = MerkleHashSubtree::merge(&halves).unwrap();
    assert!(values.contains(&merged));
    assert_eq!(
        told(&merged),
        told(&MerkleHashSubtree::from_chunks(false, &nodes, false))
    );
    assert_eq!(told(&merged), told(&merged.clone()));
}

#[test]
fn the_default_changes_no_range_that_it_is_merged_with() {
    let nodes = Draws(32).nodes(100);
    for (at_start, at_end) in MARKS {
        let range = MerkleHashSubtree::from_chunks(at_start, &nodes, at_end);
        if !at_start {
            let mut before = MerkleHashSubtree::default();
            before.merge_into(&range).unwrap();
            assert_eq!(before, range);
        }
        if !at_end {
            let mut after = range.clone();
            after.merge_into(&MerkleHashSubtree::default()).unwrap();
            assert_eq!(after, range);
        }
    }
}

#[test]
fn a_subtree_that_is_no_whole_file_has_no_file_hash() {
    for numbers in [&[][..], &[1], &[1, 2, 3]] {
        let chunks = reference(numbers);
        for (at_start, at_end) in [(false, false), (true, false), (false, true)] {
            let part = MerkleHashSubtree::from_chunks(at_start, &chunks, at_end);
            assert_eq!(part.finish(), Err(CoreError::InvalidArguments));
            assert_eq!(part.finish_with_salt(&[7; 32]), Err(CoreError::InvalidArguments));
        }
        let whole = MerkleHashSubtree::from_chunks(true, &chunks, true);
        assert_eq!(whole.finish(), Ok(file_hash(&chunks)));
        assert_eq!(
            whole.finish_with_salt(&[7; 32]),
            Ok(file_hash_with_salt(&chunks, &[7; 32]))
        );
    }
}

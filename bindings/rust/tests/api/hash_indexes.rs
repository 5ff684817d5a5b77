//! Indexes of hashes: a number for each of some hashes.

use crate::draws::Draws;
use std::collections::HashMap;
use std::panic::{self, AssertUnwindSafe};
use yurewha::merklehash::MerkleHash;
use yurewha::own::HashIndex;

fn hashes<const N: usize>(seeds: [u64; N]) -> [MerkleHash; N] {
    seeds.map(MerkleHash::random_from_seed)
}

// An index of these entries.
fn index(entries: &[(MerkleHash, u64)]) -> HashIndex {
    let mut index = HashIndex::new();
    index.insert(entries.iter().copied()).unwrap();
    index
}

#[test]
fn the_number_that_came_first_stays() {
    let [one, two, three] = hashes([1, 2, 3]);
    let mut index = HashIndex::new();
    assert_eq!((index.len(), index.is_empty(), index.get(&one)), (0, true, None));
    assert_eq!(index.insert([(one, 0), (two, u64::MAX), (one, 5)]), Ok(2));
    assert_eq!(index.insert([(two, 6), (one, 7)]), Ok(0));
    assert_eq!(index.insert([]), Ok(0));
    assert_eq!(
        [one, two, three].map(|hash| index.get(&hash)),
        [Some(0), Some(u64::MAX), None]
    );
    assert_eq!([one, two, three].map(|hash| index.contains(&hash)), [true, true, false]);
    assert_eq!((index.len(), index.is_empty()), (2, false));
    assert_eq!(format!("{index:?}"), "HashIndex { len: 2, .. }");
}

#[test]
fn drawn_entries_are_found_as_in_a_map_of_the_standard_library() {
    let mut draws = Draws(64);
    // Hashes that have words in common, so that no single word tells them apart.
    let drawn_hash = |draws: &mut Draws| MerkleHash::from([0; 4].map(|_: u64| [0, 1, u64::MAX][draws.below(3)]));
    for _ in 0..200 {
        let (mut index, mut map) = (HashIndex::new(), HashMap::new());
        for _ in 0..draws.below(6) {
            let count = draws.below(40);
            let entries: Vec<_> = (0..count).map(|_| (drawn_hash(&mut draws), draws.number())).collect();
            let before = map.len();
            for &(hash, number) in &entries {
                map.entry(hash).or_insert(number);
            }
            assert_eq!(index.insert(entries), Ok(map.len() - before));
            assert_eq!(index.len(), map.len());
        }
        for _ in 0..100 {
            let hash = drawn_hash(&mut draws);
            assert_eq!(index.get(&hash), map.get(&hash).copied());
            assert_eq!(index.contains(&hash), map.contains_key(&hash));
        }
    }
}

#[test]
fn many_hashes_have_their_numbers() {
    let hash = |i: u64| MerkleHash::from([i, !i, 0, 7]);
    let mut index = HashIndex::default();
    assert_eq!(index.insert((0..100_000).map(|i| (hash(i), i << 32))), Ok(100_000));
    assert!((0..100_000).all(|i| index.get(&hash(i)) == Some(i << 32)));
    assert!((100_000..100_100).all(|i| !index.contains(&hash(i))));
}

#[test]
fn an_iterator_that_panics_adds_nothing() {
    let [one, two] = hashes([1, 2]);
    let mut index = index(&[(one, 7)]);
    let entries = (0..5).map(|i| if i < 3 { (two, i) } else { panic!("of the caller") });
    panic::catch_unwind(AssertUnwindSafe(|| index.insert(entries))).unwrap_err();
    assert_eq!((index.get(&one), index.get(&two), index.len()), (Some(7), None, 1));
}

#[test]
fn an_index_goes_to_another_place() {
    let [one, two] = hashes([1, 2]);
    let kept = index(&[(one, 7)]);
    let mut moved = Box::new(kept);
    assert_eq!(moved.insert([(two, 8)]), Ok(1));
    assert_eq!([one, two].map(|hash| moved.get(&hash)), [Some(7), Some(8)]);
}

#[test]
fn entries_are_the_hashes_with_their_numbers() {
    let mut draws = Draws(65);
    for count in [0, 1, 2, 7, 100, 5000] {
        let mut entries: Vec<_> = (0..count)
            .map(|i| (MerkleHash::random_from_seed(i), draws.number()))
            .collect();
        let mut index = index(&entries);
        index
            .insert(entries.iter().map(|&(hash, number)| (hash, !number)))
            .unwrap();
        let mut found = index.entries().unwrap();
        found.sort_unstable();
        entries.sort_unstable();
        assert_eq!(found, entries);
    }
}

#[test]
fn a_clone_is_an_index_of_its_own() {
    let [one, two, three] = hashes([1, 2, 3]);
    let mut kept = index(&[(one, 0), (two, u64::MAX)]);
    let mut clone = kept.clone();
    assert_eq!(kept.insert([(three, 3)]), Ok(1));
    assert_eq!(clone.insert([(three, 4), (two, 5)]), Ok(1));
    let numbers = |index: &HashIndex| [one, two, three].map(|hash| index.get(&hash));
    assert_eq!(numbers(&kept), [Some(0), Some(u64::MAX), Some(3)]);
    drop(kept);
    assert_eq!(numbers(&clone), [Some(0), Some(u64::MAX), Some(4)]);
    assert!(HashIndex::new().clone().is_empty());
}

#[test]
fn indexes_are_equal_by_their_entries() {
    let [one, two] = hashes([1, 2]);
    let others = [
        index(&[]),
        index(&[(one, 7)]),
        index(&[(two, 7)]),
        index(&[(one, 8)]),
        index(&[(one, 7), (two, 7)]),
        index(&[(one, 7), (two, 8)]),
    ];
    for (k, first) in others.iter().enumerate() {
        for (j, second) in others.iter().enumerate() {
            assert_eq!(first == second, k == j, "{k} {j}");
        }
    }
    assert_eq!(index(&[(two, 8), (one, 7), (one, 9)]), others[5]);
}

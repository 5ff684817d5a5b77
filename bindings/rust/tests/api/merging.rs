//! Merging adjacent ranges, in every order.

use crate::draws::{hash, numbered, Draws};
use yurewha::error::{CoreError, Result};
use yurewha::merklehash::{xorb_hash, MerkleHash, MerkleHashSubtree};

fn open(indices: std::ops::Range<u64>) -> MerkleHashSubtree {
    MerkleHashSubtree::from_chunks(false, &numbered(indices), false)
}

fn end() -> MerkleHashSubtree {
    MerkleHashSubtree::from_chunks(false, &[], true)
}

fn merged(mut first: MerkleHashSubtree, second: &MerkleHashSubtree) -> MerkleHashSubtree {
    first.merge_into(second).unwrap();
    first
}

#[test]
fn examples_hash_as_many_parents_as_they_should() {
    let mut first = open(0..20);
    assert_eq!((first.num_nodes(), first.num_levels()), (14, 2));
    assert_eq!(first.merge_into_counted(&open(20..24)), Ok(1));
    assert_eq!(first, open(0..24));
    assert_eq!(first.num_nodes(), 15);
    assert_eq!(merged(open(0..4), &open(4..24)), first);

    let mut file = MerkleHashSubtree::from_chunks(true, &numbered(0..4), false);
    assert_eq!(file.merge_into_counted(&merged(open(4..24), &open(24..28))), Ok(3));
    assert_eq!(file, MerkleHashSubtree::from_chunks(true, &numbered(0..28), false));
    assert_eq!(merged(file, &end()).final_hash(), Some(xorb_hash(&numbered(0..28))));
}

// The five bracketings of four ranges.
fn bracketings(ranges: &[MerkleHashSubtree; 4]) -> [MerkleHashSubtree; 5] {
    let [a, b, c, d] = ranges;
    let m = |first: &MerkleHashSubtree, second: &MerkleHashSubtree| merged(first.clone(), second);
    [
        m(&m(&m(a, b), c), d),
        m(&m(a, &m(b, c)), d),
        m(&m(a, b), &m(c, d)),
        m(a, &m(&m(b, c), d)),
        m(a, &m(b, &m(c, d))),
    ]
}

#[test]
fn ranges_that_the_rust_crate_merges_wrongly_have_one_root() {
    let ranges = [
        MerkleHashSubtree::from_chunks(true, &numbered(0..4), false),
        open(4..24),
        open(24..28),
        end(),
    ];
    let root = hash("b1026a806e25e14a5a9d00c9400b8b5b92e81027e1c574046edb37f500fcdeae");
    assert_eq!(xorb_hash(&numbered(0..28)), root);
    for subtree in bracketings(&ranges) {
        assert_eq!(subtree.final_hash(), Some(root));
    }
    assert_eq!(MerkleHashSubtree::merge(&ranges).unwrap().final_hash(), Some(root));
}

// Merges two neighbours at random places until one range is left.
fn merged_in_a_drawn_order(draws: &mut Draws, mut ranges: Vec<MerkleHashSubtree>) -> MerkleHashSubtree {
    while ranges.len() > 1 {
        let place = draws.below(ranges.len() - 1);
        let second = ranges.remove(place + 1);
        ranges[place].merge_into(&second).unwrap();
    }
    ranges.remove(0)
}

#[test]
fn drawn_bracketings_give_the_subtree_of_the_whole() {
    let mut draws = Draws(5);
    for _ in 0..400 {
        let count = draws.below(150);
        let nodes = draws.nodes(count);
        let (at_start, at_end) = (draws.truth(), draws.truth());
        let pieces = draws.pieces(&nodes);
        let last = pieces.len() - 1;
        let ranges: Vec<_> = pieces
            .iter()
            .enumerate()
            .map(|(i, piece)| MerkleHashSubtree::from_chunks(at_start && i == 0, piece, at_end && i == last))
            .collect();
        let whole = MerkleHashSubtree::from_chunks(at_start, &nodes, at_end);
        assert_eq!(MerkleHashSubtree::merge(&ranges), Ok(whole.clone()));
        let merged = merged_in_a_drawn_order(&mut draws, ranges);
        assert_eq!(merged, whole);
        assert_eq!(merged.to_json(), whole.to_json());
    }
}

#[test]
fn no_range_merges_to_the_closed_empty_one_and_one_to_itself() {
    let closed = MerkleHashSubtree::from_chunks(true, &[], true);
    assert_eq!(MerkleHashSubtree::merge(&[]), Ok(closed.clone()));
    for range in [closed, end(), open(0..20)] {
        assert_eq!(MerkleHashSubtree::merge(std::slice::from_ref(&range)), Ok(range));
    }
}

// That merging is refused with this error, by each call, and that nothing changes.
fn assert_refused(first: &MerkleHashSubtree, second: &MerkleHashSubtree, error: CoreError) {
    let mut left = first.clone();
    assert_eq!(left.merge_into(second), Err(error));
    assert_eq!(left.merge_into_counted(second), Err(error));
    assert_eq!(&left, first);
    let ranges = [first.clone(), second.clone()];
    assert_eq!(MerkleHashSubtree::merge(&ranges), Err(error));
    assert_eq!(ranges, [first.clone(), second.clone()]);
}

#[test]
fn marks_between_ranges_are_refused() {
    let start = MerkleHashSubtree::from_chunks(true, &[], false);
    assert_refused(&open(0..20), &start, CoreError::InvalidArguments);
    assert_refused(&end(), &open(0..20), CoreError::InvalidArguments);
    assert_refused(&end(), &start, CoreError::InvalidArguments);
}

#[test]
fn sizes_that_do_not_fit_are_refused() -> Result<()> {
    let [great, one] = [u64::MAX, 1].map(|size| (MerkleHash::default(), size));
    let ranges = [great, one].map(|chunk| MerkleHashSubtree::from_chunks(false, &[chunk], false));
    assert_refused(&ranges[0], &ranges[1], CoreError::SizeOverflow);
    // Marks are looked at before sizes.
    let closed = MerkleHashSubtree::try_from_chunks(false, &[great], true)?;
    assert_refused(&closed, &ranges[1], CoreError::InvalidArguments);
    Ok(())
}

//! Long lists, which no call cuts, refuses or leaves unchecked.

use crate::draws::{with_cuts, Draws};
use yurewha::error::CoreError;
use yurewha::merklehash::{find_stable_end, find_stable_start, xorb_hash, MerkleHash, MerkleHashSubtree};
use yurewha::own::{HashTree, Node, RangeProof, Session};

const MANY: usize = 100_000;

#[test]
fn a_long_list_has_the_root_of_its_merged_parts() {
    let nodes = Draws(31).nodes((1 << 20) + 100);
    let parts: Vec<_> = nodes
        .chunks(1000)
        .map(|part| MerkleHashSubtree::from_chunks(false, part, false))
        .collect();
    let whole = MerkleHashSubtree::merge(&parts).unwrap();
    assert_eq!(whole, MerkleHashSubtree::from_chunks(false, &nodes, false));
    let [start, end] =
        [(true, false), (false, true)].map(|(start, end)| MerkleHashSubtree::from_chunks(start, &[], end));
    let file = MerkleHashSubtree::merge(&[start, whole, end]).unwrap();
    assert_eq!(file.final_hash(), Some(xorb_hash(&nodes)));
}

#[test]
fn stable_points_are_found_far_from_both_ends() {
    for cuts in [[60, 64, 68], [50_000, 50_004, 50_008], [99_980, 99_984, 99_988]] {
        let nodes = with_cuts(MANY as u64, &cuts);
        let point = Some(cuts[1] as usize + 1);
        assert_eq!([find_stable_start(&nodes), find_stable_end(&nodes)], [point; 2]);
    }
}

#[test]
fn a_long_proof_goes_through_each_form() {
    let nodes = Draws(32).nodes(MANY);
    let tree = HashTree::from_chunks(&nodes).unwrap();
    let proof = tree.proof(1..MANY - 1).unwrap();
    assert_eq!(
        (proof.chunks(), proof.left(0), proof.right(0).last()),
        (&nodes[1..MANY - 1], &nodes[..1], nodes.last())
    );
    assert_eq!(RangeProof::from_json(&proof.to_json().unwrap()).as_ref(), Ok(&proof));
    assert_eq!(RangeProof::from_bytes(&proof.to_bytes().unwrap()).as_ref(), Ok(&proof));
    #[cfg(feature = "serde")]
    {
        let bytes = bincode::serialize(&proof).unwrap();
        assert_eq!(bincode::deserialize::<RangeProof>(&bytes).unwrap(), proof);
    }
    let opened = proof.clone().open_root(&tree.root()).unwrap();
    let bytes = opened.begins(0).zip(opened.ends(MANY - 3));
    assert_eq!(bytes, tree.bytes_of(1..MANY - 1).map(|bytes| (bytes.start, bytes.end)));
    assert_eq!(opened.proof(), &proof);
}

// The last of many nodes makes the sizes too great.
#[test]
fn a_long_proof_is_looked_at_to_its_end() {
    let mut nodes = vec![(MerkleHash::marker(), 1); MANY];
    nodes[MANY - 1].1 = u64::MAX;
    let node = |(hash, size): &Node| format!(r#"{{"hash":"{hash}","size":{size}}}"#);
    let chunks = nodes.iter().map(node).collect::<Vec<_>>().join(",");
    let text = format!(r#"{{"chunks":[{chunks}],"levels":[]}}"#);
    assert_eq!(RangeProof::from_json(&text), Err(CoreError::InvalidProof(8)));
    #[cfg(feature = "serde")]
    {
        let bytes = bincode::serialize(&(nodes, Vec::<u64>::new())).unwrap();
        let error = bincode::deserialize::<RangeProof>(&bytes).unwrap_err().to_string();
        assert!(error.contains("invalid range proof: rule 8: "), "{error}");
    }
}

// The pages of these zeros that no call reads take no memory there.
#[cfg(unix)]
#[test]
fn the_first_chunk_ends_in_a_piece_of_more_than_4_gib() {
    let zeros = vec![0; (1 << 32) + 1];
    assert_eq!(yurewha::own::Chunker::new().next_boundary(&zeros), Some(1 << 17));
}

#[test]
fn a_long_session_is_restored_with_all_its_hashes() {
    let nodes = Draws(33).nodes(MANY);
    let mut session = Session::new();
    assert_eq!(session.put(0, &nodes), Ok(MANY as u64));
    let mut hashes = session.known_hashes().unwrap();
    let mut restored = Session::new();
    restored.keep_hashes(&hashes).unwrap();
    assert_eq!(restored.put(0, &nodes), Ok(0));
    hashes.sort_unstable();
    let mut put: Vec<_> = nodes.iter().map(|node| node.0).collect();
    put.sort_unstable();
    assert_eq!((restored.num_chunks(), hashes), (MANY as u64, put));
}

//! Range proofs: how they are made, what opens them, and what data they accept.

use crate::draws::{hash, numbered, reference, with_cuts, Draws};
use std::ops::Range;
use yurewha::error::CoreError;
use yurewha::merklehash::{compute_data_hash, file_hash, file_hash_with_salt, xorb_hash, DataHash};
use yurewha::own::{HashTree, Node, OpenFault, OpenedRange, RangeProof};

// Every node is a natural cut.
fn with_cuts_everywhere(count: u64) -> Vec<Node> {
    with_cuts(count, &(0..count).collect::<Vec<_>>())
}

// A list, a range of it, the numbers of nodes on both sides of each level, the place of the range, and the file's size.
type Example = (Vec<Node>, Range<usize>, &'static [(usize, usize)], u64, u64);

// The model computed these values.
fn examples() -> Vec<Example> {
    let of_three = || reference(&[1, 2, 3]);
    let with_zeros = || reference(&[0, 1, 0, 1]);
    let greatest = vec![
        (DataHash::random_from_seed(1), u64::MAX),
        (DataHash::random_from_seed(2), 0),
    ];
    vec![
        (of_three(), 1..2, &[(1, 1)], 100, 600),
        (of_three(), 0..3, &[(0, 0)], 0, 600),
        (reference(&[1]), 0..1, &[], 0, 100),
        (numbered(0..28), 5..6, &[(1, 2), (1, 2), (0, 1)], 5, 28),
        (numbered(0..28), 10..22, &[(2, 2), (2, 1), (0, 0)], 10, 28),
        (numbered(0..28), 27..28, &[(3, 0), (2, 0), (1, 0)], 27, 28),
        (with_zeros(), 3..4, &[(0, 0), (1, 0)], 100, 200),
        (with_zeros(), 0..1, &[(0, 2), (0, 1)], 0, 200),
        (
            with_cuts(1000, &[]),
            500..501,
            &[(5, 3), (3, 0), (0, 8), (2, 1)],
            500,
            1000,
        ),
        (with_cuts_everywhere(10), 4..7, &[(1, 2), (1, 1)], 4, 10),
        (greatest, 0..1, &[(0, 1)], 0, u64::MAX),
    ]
}

fn sides_of(proof: &RangeProof) -> Vec<(usize, usize)> {
    (0..proof.num_levels())
        .map(|level| (proof.left(level).len(), proof.right(level).len()))
        .collect()
}

#[test]
fn proofs_are_those_of_the_examples() {
    for (list, range, sides, place, size) in examples() {
        let proof = RangeProof::from_chunks(&list, range.clone()).unwrap();
        assert_eq!((proof.chunks(), &*sides_of(&proof)), (&list[range.clone()], sides));
        let levels = proof.num_levels();
        assert!(proof.left(levels).is_empty() && proof.right(usize::MAX).is_empty());
        let tree = HashTree::from_chunks(&list).unwrap();
        assert_eq!(tree.proof(range.clone()), Ok(proof.clone()));
        assert_eq!((tree.root(), tree.file_hash()), (xorb_hash(&list), file_hash(&list)));
        let opened = proof.open(&file_hash(&list)).unwrap();
        assert_eq!((opened.begins(0), opened.file_size()), (Some(place), size));
        assert_eq!(opened.num_chunks(), range.len());
        assert_eq!(opened.ends(range.len() - 1), Some(tree.bytes_of(range).unwrap().end));
    }
    let name = "29b84dfd9faff157a311a63bd0c126a8c7bc1009973803ea0af95f05a66e3c4f";
    assert_eq!(HashTree::from_chunks(&numbered(0..28)).unwrap().file_hash(), hash(name));
}

const DATA: [&[u8]; 3] = [b"a chunk", b"another", b"and a third"];
const FILE_HASH: &str = "0497c2ffdb9b034977074a6a2fe7c2a9dcfc7cc0a4f98777ed580f0b8444090f";
const SALTED: &str = "5f5df6327d4bfe5fc6a4a47bab97d7457b550e0d38f3b44a43d6eaef6618f60e";

fn chunks() -> Vec<Node> {
    DATA.map(|data| (compute_data_hash(data), data.len() as u64)).to_vec()
}

fn opened(range: Range<usize>) -> OpenedRange {
    RangeProof::from_chunks(&chunks(), range)
        .unwrap()
        .open(&hash(FILE_HASH))
        .unwrap()
}

#[test]
fn a_proof_has_the_text_of_the_example() {
    let text = concat!(
        r#"{"chunks":[{"hash":"3481034b52254c2f1e0143ae20ce9e2459685799a774f5764bf5585211c865c1","size":7}],"#,
        r#""levels":[{"left":[{"hash":"fc2d9e764137e94a0c4d7bdc0b584e73a34945fbf4efeef155acc8927c1399ff","size":7}],"#,
        r#""right":[{"hash":"b5d2de3673ccda688a6ae4c470f097787aa87b128f134b1f5a7d33379b2f66e9","size":11}]}]}"#,
    );
    let proof = RangeProof::from_chunks(&chunks(), 1..2).unwrap();
    assert_eq!(proof.to_json().as_deref(), Ok(text));
    assert_eq!(RangeProof::from_json(text), Ok(proof.clone()));
    assert_eq!(
        RangeProof::from_json(&text.to_uppercase().replace("CHUNKS", "chunks")),
        Err(CoreError::InvalidProof(2))
    );
    let debug = format!("{proof:?}");
    assert!(
        debug.starts_with("RangeProof { chunks: [(") && debug.contains("], levels: [(["),
        "{debug}"
    );
}

#[test]
fn data_is_checked_chunk_by_chunk() {
    let range = opened(1..3);
    assert_eq!(range.check(0, DATA[1]), Some(7));
    assert_eq!(range.check(1, DATA[2]), Some(14));
    for (chunk, data) in [
        (0, DATA[0]),
        (1, DATA[1]),
        (0, b"anothe"),
        (0, b"another "),
        (0, b""),
        (2, DATA[2]),
        (usize::MAX, b""),
    ] {
        assert_eq!(range.check(chunk, data), None, "{chunk}");
    }
    assert_eq!(
        [0, 1, 2, usize::MAX].map(|chunk| range.begins(chunk)),
        [Some(7), Some(14), None, None]
    );
    assert_eq!(
        [0, 1, 2, usize::MAX].map(|chunk| range.ends(chunk)),
        [Some(14), Some(25), None, None]
    );
    assert_eq!(
        format!("{range:?}"),
        "OpenedRange { num_chunks: 2, begins: Some(7), file_size: 25, .. }"
    );
    assert_eq!(range.proof(), &RangeProof::from_chunks(&chunks(), 1..3).unwrap());
}

// What is wrong about some data: a byte at either end or between, or the length.
fn altered(data: &[u8]) -> Vec<Vec<u8>> {
    let bytes = [0, data.len() / 2, data.len() - 1].map(|place| {
        let mut wrong = data.to_vec();
        wrong[place] ^= 1;
        wrong
    });
    let lengths = [
        data[1..].to_vec(),
        data[..data.len() - 1].to_vec(),
        [data, b"!"].concat(),
    ];
    bytes.into_iter().chain(lengths).collect()
}

#[test]
fn data_of_any_length_is_checked_to_its_end() {
    let lengths = [1, 1023, 16 << 10, 64 << 10, (64 << 10) + 1, 1 << 20, 3 << 20];
    let data = lengths.map(|length| (0..length).map(|i| (i % 251) as u8).collect::<Vec<_>>());
    let list: Vec<_> = data
        .iter()
        .map(|data| (compute_data_hash(data), data.len() as u64))
        .collect();
    let tree = HashTree::from_chunks(&list).unwrap();
    let whole = tree.proof(0..list.len()).unwrap().open_root(&tree.root()).unwrap();
    let (mut place, file) = (0, data.concat());
    for (chunk, data) in data.iter().enumerate() {
        let one = tree.proof(chunk..chunk + 1).unwrap().open_root(&tree.root()).unwrap();
        let bytes = place as u64..(place + data.len()) as u64;
        assert_eq!(whole.check(chunk, data), Some(bytes.start));
        assert_eq!(one.read(bytes.clone(), data), Some(&data[..]));
        for wrong in altered(data) {
            assert_eq!((whole.check(chunk, &wrong), one.check(0, &wrong)), (None, None));
            assert_eq!(one.read(bytes.clone(), &wrong), None);
            let fetched = [&file[..place], &wrong, &file[place + data.len()..]].concat();
            assert_eq!(whole.read(0..1, &fetched), None);
        }
        place += data.len();
    }
}

// A node shows nothing by itself: a sender may give any node the size 0.
#[test]
fn an_empty_chunk_is_checked_too() {
    let (name, forged) = (compute_data_hash(b""), DataHash::random_from_seed(5));
    for (hash, accepted) in [(name, true), (forged, false)] {
        let one = RangeProof::from_chunks(&[(hash, 0)], 0..1).unwrap();
        let one = one.open_root(&hash).unwrap();
        assert_eq!(one.check(0, b""), accepted.then_some(0));
        assert_eq!(one.read(0..0, b""), accepted.then_some(&b""[..]));
        let list = [
            (compute_data_hash(b"a chunk"), 7),
            (hash, 0),
            (compute_data_hash(b"another"), 7),
        ];
        let all = RangeProof::from_chunks(&list, 0..3).unwrap();
        let all = all.open_root(&xorb_hash(&list)).unwrap();
        assert_eq!(all.check(1, b""), accepted.then_some(7));
        assert_eq!(all.read(8..10, b"a chunkanother"), accepted.then_some(&b"no"[..]));
    }
}

#[test]
fn bytes_are_read_only_from_the_data_of_the_range() {
    let range = opened(1..2);
    assert_eq!(range.read(8..10, b"another"), Some(&b"no"[..]));
    assert_eq!(range.read(7..14, b"another"), Some(&b"another"[..]));
    for place in 7..=14 {
        assert_eq!(range.read(place..place, b"another"), Some(&b""[..]));
    }
    let refused: [(u64, u64, &[u8]); 9] = [
        (0, 2, b"another"),
        (6, 10, b"another"),
        (8, 15, b"another"),
        (10, 8, b"another"),
        (8, u64::MAX, b"another"),
        (8, 10, b"anothes"),
        (8, 10, b"anothe"),
        (8, 10, b"another "),
        (8, 10, b""),
    ];
    for (start, end, data) in refused {
        assert_eq!(range.read(Range { start, end }, data), None, "{start} {end}");
    }
    let both = DATA[1..].concat();
    assert_eq!(opened(1..3).read(12..17, &both), Some(&b"erand"[..]));
    // A wrong byte is refused, also in a chunk that the bytes aren't from.
    for place in 0..both.len() {
        let mut wrong = both.clone();
        wrong[place] ^= 1;
        assert_eq!(opened(1..3).read(7..8, &wrong), None);
    }
}

#[test]
fn a_range_that_the_list_lacks_has_no_proof() {
    let list = reference(&[1, 2, 3]);
    let tree = HashTree::from_chunks(&list).unwrap();
    for (start, end) in [(0, 0), (2, 1), (0, 4), (3, 4), (3, 3), (0, usize::MAX), (usize::MAX, 0)] {
        let range = Range { start, end };
        assert_eq!(
            RangeProof::from_chunks(&list, range.clone()),
            Err(CoreError::InvalidArguments)
        );
        assert_eq!(tree.proof(range.clone()), Err(CoreError::InvalidArguments));
        assert_eq!(tree.bytes_of(range), None);
    }
    let great = [(DataHash::marker(), u64::MAX); 2];
    assert_eq!(HashTree::from_chunks(&great).unwrap_err(), CoreError::SizeOverflow);
    assert_eq!(RangeProof::from_chunks(&great, 0..1), Err(CoreError::SizeOverflow));
    assert_eq!(RangeProof::from_chunks(&great, 0..3), Err(CoreError::InvalidArguments));
}

#[test]
fn a_tree_finds_the_chunks_of_bytes() {
    let tree = HashTree::from_chunks(&chunks()).unwrap();
    let cases = [
        (7..14, Some(1..2)),
        (7..15, Some(1..3)),
        (6..14, Some(0..2)),
        (7..7, None),
        (Range { start: 14, end: 7 }, None),
        (0..25, Some(0..3)),
        (0..u64::MAX, Some(0..3)),
        (24..25, Some(2..3)),
        (25..u64::MAX, None),
    ];
    for (bytes, found) in cases {
        assert_eq!(tree.chunks_at(bytes), found);
    }
    assert_eq!(
        (tree.num_chunks(), tree.total_size(), tree.bytes_of(1..3)),
        (3, 25, Some(7..25))
    );
    assert_eq!(format!("{tree:?}"), "HashTree { num_chunks: 3, total_size: 25, .. }");
    // Empty chunks are never at an end of a least range.
    let sizes = [0, 7, 0, 0, 7, 0];
    let list: Vec<_> = (1..)
        .zip(sizes)
        .map(|(seed, size)| (DataHash::random_from_seed(seed), size))
        .collect();
    let tree = HashTree::from_chunks(&list).unwrap();
    assert_eq!(
        [0..7, 7..14, 6..8].map(|bytes| tree.chunks_at(bytes)),
        [Some(1..2), Some(4..5), Some(1..5)]
    );
    let empty = HashTree::from_chunks(&[]).unwrap();
    assert_eq!((empty.root(), empty.file_hash_with_salt(&[7; 32])), Default::default());
    assert_eq!((empty.chunks_at(0..u64::MAX), empty.total_size()), (None, 0));
}

#[test]
fn a_proof_is_opened_with_the_hash_of_its_list_alone() {
    let list = chunks();
    let salt = DataHash::random_from_seed(4).to_bytes();
    assert_eq!(file_hash_with_salt(&list, &salt), hash(SALTED));
    assert_eq!(
        HashTree::from_chunks(&list).unwrap().file_hash_with_salt(&salt),
        hash(SALTED)
    );
    let proof = RangeProof::from_chunks(&list, 1..2).unwrap();
    let wrong = [DataHash::default(), DataHash::marker(), xorb_hash(&list), hash(SALTED)];
    for wrong in wrong {
        let error = proof.clone().open(&wrong).unwrap_err();
        assert_eq!((error.fault, &error.proof), (OpenFault::ProofMismatch, &proof));
    }
    assert!(proof.clone().open_with_salt(&hash(FILE_HASH), &salt).is_err());
    assert!(proof.clone().open_root(&hash(FILE_HASH)).is_err());
    for opened in [
        proof.clone().open(&hash(FILE_HASH)),
        proof.clone().open_with_salt(&hash(FILE_HASH), &[0; 32]),
        proof.clone().open_with_salt(&hash(SALTED), &salt),
        proof.clone().open_root(&xorb_hash(&list)),
    ] {
        assert_eq!(opened.unwrap().check(0, DATA[1]), Some(7));
    }
    // A chunk may have the default hash, which no proof shows.
    let one = RangeProof::from_chunks(&[(DataHash::default(), 5)], 0..1).unwrap();
    let error = one.open_root(&DataHash::default()).unwrap_err();
    assert_eq!(error.to_string(), "the proof doesn't show this hash");
}

#[test]
fn an_altered_proof_is_not_opened() {
    let list = numbered(0..28);
    let text = RangeProof::from_chunks(&list, 5..7).unwrap().to_json().unwrap();
    let name = file_hash(&list);
    let altered = |from: &str, to: &str| {
        let altered = text.replacen(from, to, 1);
        assert_ne!(altered, text, "{from}");
        let proof = RangeProof::from_json(&altered).unwrap();
        assert_eq!(
            proof.open(&name).unwrap_err().fault,
            OpenFault::ProofMismatch,
            "{from} to {to}"
        );
    };
    let node = |at: usize| format!(r#"{{"hash":"{}","size":1}}"#, list[at].0);
    for at in [4, 5, 6, 7] {
        altered(&node(at), &node(at).replace(r#""size":1"#, r#""size":2"#));
        altered(&node(at), &node(at + 1));
        altered(&node(at), &node(20));
        altered(&node(at), &format!("{},{}", node(at), node(at)));
    }
    altered(&format!("{},{}", node(5), node(6)), &format!("{},{}", node(6), node(5)));
    altered(&format!("{},{}", node(5), node(6)), &node(5));
    altered(&node(4), "");
    altered(&node(7), "");
    altered(r#""levels":["#, r#""levels":[{"left":[],"right":[]},"#);
    altered(r#"}]}]}"#, r#"}]},{"left":[],"right":[]},{"left":[],"right":[]}]}"#);
    assert!(RangeProof::from_json(&text).unwrap().open(&name).is_ok());
}

/// Values that say no proof, each with the lowest rule that it breaks.
pub fn forged() -> Vec<(u8, String)> {
    let node = |size: &str| format!(r#"{{"hash":"{}","size":{size}}}"#, DataHash::marker());
    let nodes = |count: usize| format!("[{}]", vec![node("1"); count].join(","));
    let text = |chunks: &str, levels: &str| format!(r#"{{"chunks":{chunks},"levels":{levels}}}"#);
    let sides = |left: &str, right: &str| format!(r#"[{{"left":{left},"right":{right}}}]"#);
    let mut forged: Vec<_> = ["[]", "null", "0", "\"\"", "true"]
        .map(|value| (1, value.to_owned()))
        .into();
    // Arrays of what the members would be.
    forged.push((1, format!("[{},[]]", nodes(1))));
    forged.push((3, text(&nodes(1), &format!("[[{},[]]]", nodes(1)))));
    forged.push((2, "{}".to_owned()));
    forged.push((2, text("null", "[]")));
    forged.push((2, text("[]", "{}")));
    for member in ["chunks", "levels"] {
        forged.push((2, text(&nodes(1), "[]").replace(member, "other")));
    }
    for level in [
        "[]",
        "7",
        "null",
        "{}",
        r#"{"left":[]}"#,
        r#"{"left":[],"right":0}"#,
        r#"{"right":[]}"#,
    ] {
        forged.push((3, text(&nodes(1), &format!("[{level}]"))));
    }
    for size in ["-1", "-0", "1.0", "1e3", "18446744073709551616", "null", "\"1\""] {
        forged.push((4, text(&format!("[{}]", node(size)), "[]")));
        forged.push((4, text(&nodes(1), &sides(&format!("[{}]", node(size)), "[]"))));
    }
    forged.push((4, text("[[]]", "[]")));
    forged.push((4, text(r#"[{"size":1}]"#, "[]")));
    forged.push((4, text(&nodes(1).replace("ffff", "gfff"), "[]")));
    forged.push((4, text(&nodes(1), &sides("[]", r#"[{"hash":"00","size":1}]"#))));
    forged.push((5, text("[]", "[]")));
    forged.push((5, text("[]", &sides(&nodes(9), &nodes(1)))));
    let empty = vec![r#"{"left":[],"right":[]}"#; 65].join(",");
    forged.push((6, text(&nodes(1), &format!("[{empty}]"))));
    forged.push((7, text(&nodes(1), &sides(&nodes(9), "[]"))));
    forged.push((7, text(&nodes(1), &sides("[]", &nodes(9)))));
    let great = format!("[{}]", node("18446744073709551615"));
    forged.push((8, text(&great, &sides(&nodes(1), "[]"))));
    forged.push((
        8,
        text(&format!("[{},{}]", node("18446744073709551615"), node("1")), "[]"),
    ));
    forged
}

#[test]
fn each_rule_is_named() {
    let forged = forged();
    for (rule, text) in &forged {
        assert_eq!(
            RangeProof::from_json(text),
            Err(CoreError::InvalidProof(*rule)),
            "{text}"
        );
    }
    for rule in 1..=8 {
        assert!(forged.iter().any(|(broken, _)| *broken == rule), "{rule}");
    }
    let error = CoreError::InvalidProof(6).to_string();
    assert_eq!(error, "invalid range proof: rule 6: there are more than 64 levels");
}

#[test]
fn what_is_no_json_text_is_refused() {
    let text = RangeProof::from_chunks(&chunks(), 1..2).unwrap().to_json().unwrap();
    for length in 0..text.len() {
        assert_eq!(RangeProof::from_json(&text[..length]), Err(CoreError::InvalidText));
    }
    assert_eq!(
        RangeProof::from_json(&format!("{text}{text}")),
        Err(CoreError::InvalidText)
    );
}

#[test]
fn a_proof_that_keeps_the_rules_has_room() {
    let node = format!(r#"{{"hash":"{}","size":1}}"#, DataHash::marker());
    let side = [&*node; 8].join(",");
    let level = format!(r#"{{"left":[{side}],"right":[{side}]}}"#);
    let text = format!(r#"{{"chunks":[{node}],"levels":[{}]}}"#, [&*level; 64].join(","));
    let proof = RangeProof::from_json(&text).unwrap();
    assert_eq!(
        (proof.num_levels(), proof.left(63).len(), proof.right(0).len()),
        (64, 8, 8)
    );
    assert_eq!(proof.to_json().as_ref(), Ok(&text));
    let great = RangeProof::from_json(&text.replacen(r#""size":1"#, r#""size":18446744073709550591"#, 1)).unwrap();
    assert!(great.to_json().unwrap().contains("18446744073709550591"));
    assert_ne!(great, proof);
}

// A file of random chunks, and the data of each.
fn drawn_file(draws: &mut Draws) -> (Vec<Node>, Vec<Vec<u8>>) {
    let count = 1 + draws.below(120);
    let data: Vec<Vec<u8>> = (0..count)
        .map(|_| (0..draws.below(9)).map(|_| draws.number() as u8).collect())
        .collect();
    let chunks = data
        .iter()
        .map(|data| (compute_data_hash(data), data.len() as u64))
        .collect();
    (chunks, data)
}

#[test]
fn drawn_ranges_are_read_as_the_file_has_them() {
    let mut draws = Draws(21);
    for _ in 0..200 {
        let (chunks, data) = drawn_file(&mut draws);
        let tree = HashTree::from_chunks(&chunks).unwrap();
        let file = data.concat();
        let mut places = [0; 2].map(|_: usize| draws.below(file.len() + 1));
        places.sort_unstable();
        let [start, end] = places;
        let Some(range) = tree.chunks_at(start as u64..end as u64) else {
            assert_eq!(start, end);
            continue;
        };
        let proof = RangeProof::from_json(&tree.proof(range.clone()).unwrap().to_json().unwrap()).unwrap();
        let salt = [draws.number() as u8; 32];
        let opened = proof.open_with_salt(&tree.file_hash_with_salt(&salt), &salt).unwrap();
        let fetched = data[range.clone()].concat();
        assert_eq!(opened.read(start as u64..end as u64, &fetched), Some(&file[start..end]));
        assert_eq!(opened.file_size(), file.len() as u64);
        for (k, chunk) in range.enumerate() {
            let place: usize = data[..chunk].iter().map(Vec::len).sum();
            assert_eq!(opened.check(k, &data[chunk]), Some(place as u64));
        }
    }
}

#[test]
fn a_clone_is_the_same_proof() {
    let list = numbered(0..28);
    let proofs: Vec<_> = [5..6, 5..7, 0..28]
        .map(|range| RangeProof::from_chunks(&list, range).unwrap())
        .into();
    for (k, proof) in proofs.iter().enumerate() {
        assert_eq!(proof.try_clone().as_ref(), Ok(&proof.clone()));
        for other in &proofs[k + 1..] {
            assert_ne!(proof, other);
        }
    }
}

// A range of one chunk after a node, and of one before it: the nodes are the same in the same order. Then one node is another.
#[test]
fn proofs_with_other_sides_or_other_nodes_differ() {
    let list = reference(&[1, 2]);
    let [first, second] = [0..1, 1..2].map(|range| RangeProof::from_chunks(&list, range).unwrap());
    assert_eq!(
        (first.chunks(), first.left(0), first.right(0)),
        (&list[..1], &[][..], &list[1..])
    );
    assert_eq!(
        (second.chunks(), second.left(0), second.right(0)),
        (&list[1..], &list[..1], &[][..])
    );
    assert_ne!(first, second);
    let other = RangeProof::from_chunks(&reference(&[1, 3]), 0..1).unwrap();
    assert_ne!(first, other);
}

#[test]
fn a_clone_of_a_tree_is_the_tree_of_its_chunks() {
    for count in [0, 1, 2, 9, 300, 5000] {
        let nodes = Draws(51).nodes(count);
        let tree = HashTree::from_chunks(&nodes).unwrap();
        let clone = tree.clone();
        assert_eq!(tree, clone);
        drop(tree);
        let told = (clone.root(), clone.file_hash(), clone.num_chunks());
        assert_eq!(told, (xorb_hash(&nodes), file_hash(&nodes), count));
        if count > 0 {
            assert_eq!(
                clone.proof(count / 2..count),
                RangeProof::from_chunks(&nodes, count / 2..count)
            );
        }
    }
}

#[test]
fn trees_are_equal_by_their_chunks() {
    let nodes = Draws(52).nodes(60);
    let tree = |nodes: &[Node]| HashTree::from_chunks(nodes).unwrap();
    let mut others = vec![tree(&[]), tree(&nodes[..59]), tree(&nodes[..1])];
    // A tree of a root has the same root and the same size.
    let sum = nodes.iter().map(|node| node.1).sum();
    others.push(tree(&[(xorb_hash(&nodes), sum)]));
    // The hash of a single chunk is the root, whatever its size.
    others.push(tree(&[(nodes[0].0, nodes[0].1 + 1)]));
    let mut swapped = nodes.clone();
    swapped.swap(3, 4);
    others.push(tree(&swapped));
    others.push(tree(&nodes));
    for (k, first) in others.iter().enumerate() {
        for (j, second) in others.iter().enumerate() {
            assert_eq!(first == second, k == j, "{k} {j}");
        }
    }
    assert_eq!(tree(&nodes), tree(&nodes));
}

#[test]
fn a_clone_of_an_opened_range_checks_the_same() {
    let data: Vec<_> = (0..100_u32).map(|i| i.to_le_bytes()).collect();
    let chunks: Vec<_> = data.iter().map(|data| (compute_data_hash(data), 4)).collect();
    let proof = RangeProof::from_chunks(&chunks, 20..30).unwrap();
    let opened = [
        proof.clone().open(&file_hash(&chunks)),
        proof
            .clone()
            .open_with_salt(&file_hash_with_salt(&chunks, &[7; 32]), &[7; 32]),
        proof.clone().open_root(&xorb_hash(&chunks)),
    ];
    for range in opened {
        let range = range.unwrap();
        let clone = range.clone().clone();
        drop(range);
        assert_eq!(
            (clone.proof(), clone.begins(0), clone.file_size()),
            (&proof, Some(80), 400)
        );
        assert_eq!((clone.check(3, &data[23]), clone.check(3, &data[24])), (Some(92), None));
        assert_eq!(clone.read(81..85, &data[20..30].concat()), Some(&data.concat()[81..85]));
    }
}

#[test]
fn an_error_of_opening_shows_no_proof() {
    let proof = RangeProof::from_chunks(&numbered(0..5000), 0..4000).unwrap();
    let error = proof.open(&DataHash::marker()).unwrap_err();
    assert_eq!(
        format!("{error:?}"),
        "OpenError { fault: ProofMismatch, num_chunks: 4000, .. }"
    );
}

#[test]
fn no_number_is_cut_to_32_bits() {
    let data = [&b"a chunk"[..], b"another"];
    let chunks = data.map(|data| (compute_data_hash(data), data.len() as u64));
    let tree = HashTree::from_chunks(&chunks).unwrap();
    let proof = tree.proof(0..2).unwrap();
    let range = proof.clone().open(&tree.file_hash()).unwrap();
    for past in [1 << 32, 1 << 40, usize::MAX << 32] {
        for (chunk, data) in data.iter().enumerate() {
            assert!(range.check(chunk, data).is_some() && range.check(past + chunk, data).is_none());
            assert_eq!((range.begins(past + chunk), range.ends(past + chunk)), (None, None));
        }
        assert!(proof.left(past).is_empty() && proof.right(past).is_empty());
        let bytes = past as u64;
        assert!(range.read(bytes..bytes + 7, b"a chunkanother").is_none());
        assert_eq!(tree.chunks_at(bytes..bytes + 7), None);
        assert_eq!(tree.chunks_at(0..bytes + 7), Some(0..2));
        assert_eq!(
            (tree.bytes_of(past..past + 1), tree.bytes_of(0..past + 1)),
            (None, None)
        );
        assert_eq!(tree.proof(past..past + 1), Err(CoreError::InvalidArguments));
        assert_eq!(tree.proof(0..past + 1), Err(CoreError::InvalidArguments));
        assert_eq!(
            RangeProof::from_chunks(&chunks, past..past + 1),
            Err(CoreError::InvalidArguments)
        );
    }
}

#[test]
fn bytes_of_no_proof_are_refused_by_the_lowest_rule() {
    let proof = RangeProof::from_chunks(&reference(&[1, 2, 3]), 1..2).unwrap();
    let bytes = proof.to_bytes().unwrap();
    assert_eq!((bytes.len(), &bytes[..3]), (1 + 2 + 3 * 40, &[1, 1, 1][..]));
    assert_eq!(RangeProof::from_bytes(&bytes).as_ref(), Ok(&proof));
    let nodes = |count: usize| vec![0; 40 * count];
    for (rule, refused) in [
        (1, vec![]),
        (3, bytes[..2].to_vec()),
        (4, bytes[..bytes.len() - 1].to_vec()),
        (5, vec![0]),
        (5, [&[1, 1, 0][..], &nodes(1)].concat()),
        (6, [&[65][..], &[0; 130], &nodes(1)].concat()),
        (7, [&[1, 9, 0][..], &nodes(10)].concat()),
        (8, [&[0][..], &[255; 80]].concat()),
    ] {
        assert_eq!(
            RangeProof::from_bytes(&refused),
            Err(CoreError::InvalidProof(rule)),
            "{rule}"
        );
    }
}

//! Sessions: chunks by position, in any order.

use crate::draws::{hash, reference, Draws};
use std::collections::HashSet;
use std::mem::size_of;
use yurewha::error::CoreError;
use yurewha::merklehash::{file_hash, file_hash_with_salt, xorb_hash, MerkleHash, MerkleHashSubtree};
use yurewha::own::{Node, Session, SessionFault};

#[test]
fn the_example_is_answered() {
    let mut session = Session::new();
    assert_eq!(session.put(2, &reference(&[1, 2])), Ok(2));
    assert_eq!(session.put(0, &reference(&[1, 2])), Ok(0));
    let file = hash("284ea045e5a579e99c21ec597c20de1fc0c09e7168162aac00db8f61b3d82dbb");
    assert_eq!(session.finish(4), Ok(file));
    assert_eq!(session.root(4), Ok(xorb_hash(&reference(&[1, 2, 1, 2]))));
    assert_eq!(session.finish(3), Err(SessionFault::Gap));
    assert_eq!(session.put(3, &reference(&[3])), Err(SessionFault::Overlap));
    assert_eq!(session.finish(4), Ok(file));
}

#[test]
fn a_session_takes_the_chunks_of_an_iterator_in_order() {
    for count in [0, 1, 4095, 4096, 4097, 10_000] {
        let chunks: Vec<Node> = (0..count)
            .map(|seed| (MerkleHash::random_from_seed(seed), seed))
            .collect();
        let session = Session::from_chunks(chunks.iter().copied()).unwrap();
        assert_eq!((session.num_chunks(), session.keeps_hashes()), (count, false));
        assert_eq!(session.finish(count), Ok(file_hash(&chunks)));
    }
    let huge = (MerkleHash::default(), u64::MAX);
    assert_eq!(Session::from_chunks([huge; 2]).unwrap_err(), SessionFault::Sizes);
}

#[test]
fn a_session_counts_its_chunks() {
    let mut session = Session::new();
    session.put(7, &reference(&[1, 2])).unwrap();
    assert!(session.put(8, &reference(&[1])).is_err());
    session.put(0, &reference(&[1, 2, 3])).unwrap();
    assert_eq!((session.num_chunks(), session.total_size()), (5, 900));
    let range = MerkleHashSubtree::from_chunks(false, &reference(&[1, 2]), false);
    session.push_run(20..22, &range).unwrap();
    assert_eq!(session.push_run(20..22, &range), Err(CoreError::InvalidArguments));
    for session in [session.clone(), session] {
        assert_eq!((session.num_chunks(), session.total_size()), (7, 1200));
    }
}

#[test]
fn a_session_knows_the_hashes_of_its_chunks_and_those_that_were_kept() {
    let [put, kept, other] = [1, 2, 3].map(MerkleHash::random_from_seed);
    let mut session = Session::new();
    let known = |session: &Session| [put, kept, other].map(|hash| session.knows(&hash));
    assert_eq!(known(&session), [false; 3]);
    session.put(7, &[(put, 100)]).unwrap();
    assert!(session.put(7, &[(other, 100)]).is_err());
    assert_eq!(known(&session), [true, false, false]);
    session.keep_hashes(&[kept]).unwrap();
    assert_eq!(known(&session), [true, true, false]);
    assert_eq!(known(&session.clone()), [true, true, false]);
}

#[test]
fn a_session_without_hashes_knows_none() {
    let chunk = (MerkleHash::random_from_seed(1), 100);
    let mut session = Session::without_hashes();
    assert_eq!(session.put(7, &[chunk; 3]), Ok(1));
    for mut session in [session.clone(), session] {
        assert_eq!(session.put(0, &[chunk]), Ok(1));
        assert!(!session.knows(&chunk.0) && !session.keeps_hashes());
        assert_eq!(session.known_hashes(), Ok(vec![]));
        assert_eq!(session.keep_hashes(&[]), Ok(()));
        assert_eq!(session.keep_hashes(&[chunk.0]), Err(CoreError::InvalidArguments));
        assert_eq!((session.num_chunks(), session.total_size()), (4, 400));
    }
    assert!(Session::new().keeps_hashes());
}

#[test]
fn a_file_hash_under_a_salt_is_that_of_the_list() {
    let empty = (MerkleHash::default(), 0);
    let salts = [[0; 32], [7; 32]];
    for chunks in [
        vec![],
        vec![empty],
        vec![empty; 2],
        reference(&[1]),
        reference(&[1, 2, 3]),
    ] {
        let whole = MerkleHashSubtree::from_chunks(true, &chunks, true);
        let mut session = Session::new();
        session.put(0, &chunks).unwrap();
        let count = chunks.len() as u64;
        assert_eq!(
            (whole.file_hash(), session.finish(count)),
            (Some(file_hash(&chunks)), Ok(file_hash(&chunks)))
        );
        for salt in salts {
            let wanted = file_hash_with_salt(&chunks, &salt);
            assert_eq!(whole.file_hash_with_salt(&salt), Some(wanted));
            assert_eq!(session.finish_with_salt(count, &salt), Ok(wanted));
        }
        assert_eq!(session.finish_with_salt(count + 1, &salts[1]), Err(SessionFault::Gap));
        for (at_start, at_end) in [(false, true), (true, false), (false, false)] {
            let range = MerkleHashSubtree::from_chunks(at_start, &chunks, at_end);
            assert_eq!((range.file_hash(), range.file_hash_with_salt(&salts[1])), (None, None));
        }
    }
}

#[test]
fn a_new_session_is_empty() {
    for session in [Session::new(), Session::default(), Session::try_new().unwrap()] {
        assert_eq!(session.finish(0), Ok(MerkleHash::default()));
        assert_eq!(session.root(0), Ok(MerkleHash::default()));
        assert_eq!(session.root(1), Err(SessionFault::Gap));
        assert_eq!((session.num_runs(), session.runs().len()), (0, 0));
        assert!(!session.taken(0) && !session.taken(u64::MAX));
        assert_eq!(session.range(0), None);
    }
}

#[test]
fn each_fault_is_told_and_changes_nothing() {
    let [one, great] = [1, u64::MAX].map(|size| (MerkleHash::random_from_seed(size), size));
    let mut session = Session::new();
    assert_eq!(session.put(5, &[one]), Ok(1));
    let faults = [
        (session.put(5, &[one]), SessionFault::Overlap),
        (session.put(3, &[one; 3]), SessionFault::Overlap),
        (session.put(u64::MAX, &[one]), SessionFault::Positions),
        (session.put(u64::MAX - 1, &[one; 2]), SessionFault::Positions),
        (session.put(0, &[great]), SessionFault::Sizes),
        // Of several faults, the least one is returned.
        (session.put(5, &[great]), SessionFault::Overlap),
        (session.put(u64::MAX, &[great]), SessionFault::Positions),
    ];
    for (answer, fault) in faults {
        assert_eq!(answer, Err(fault));
    }
    assert_eq!(session.finish(6), Err(SessionFault::Gap));
    assert_eq!(session.num_runs(), 1);
    // The hash of the refused chunk is still new.
    let small = (great.0, 1);
    assert_eq!(session.put(0, &[small]), Ok(1));
}

#[test]
fn a_put_of_no_chunk_changes_nothing() {
    let mut session = Session::new();
    for first in [0, 7, u64::MAX] {
        assert_eq!(session.put(first, &[]), Ok(0));
    }
    assert_eq!((session.num_runs(), session.finish(0)), (0, Ok(MerkleHash::default())));
}

#[test]
fn runs_are_told_by_rising_position() {
    let chunks = reference(&[1, 2, 3, 4]);
    let mut session = Session::new();
    session.put(10, &chunks[2..]).unwrap();
    session.put(0, &chunks[..1]).unwrap();
    session.put(1, &chunks[1..2]).unwrap();
    let open = |range: &[Node]| MerkleHashSubtree::from_chunks(false, range, false);
    let runs = [(0, open(&chunks[..2])), (10, open(&chunks[2..]))];
    assert_eq!(session.runs().collect::<Vec<_>>(), runs);
    assert_eq!(session.num_runs(), 2);
    assert_eq!(session.try_range(1), Ok(Some(runs[1].clone())));
    assert_eq!(session.try_range(2), Ok(None));
    let from = |position| {
        session
            .run_from(position)
            .map(|(positions, range)| (positions.start, positions.end, range))
    };
    for position in 0..10 {
        let (end, it) = if position < 2 { (2, 0) } else { (12, 1) };
        assert_eq!(from(position), Some((runs[it].0, end, runs[it].1.clone())));
    }
    assert_eq!([10, 11].map(|position| from(position).unwrap().1), [12; 2]);
    assert_eq!([12, u64::MAX].map(from), [None, None]);
    assert_eq!(
        [0, 1, 2, 9, 10, 11, 12].map(|i| session.taken(i)),
        [true, true, false, false, true, true, false]
    );
    assert_eq!(format!("{session:?}"), "Session { num_runs: 2, .. }");
    drop(session);
    assert_eq!(runs[0].1.total_size(), 300);
}

// The hashes of some chunks that weren't seen before.
fn new_hashes(seen: &mut HashSet<MerkleHash>, chunks: &[Node]) -> u64 {
    chunks.iter().filter(|chunk| seen.insert(chunk.0)).count() as u64
}

#[test]
fn drawn_orders_give_the_file_hash_of_the_whole() {
    let mut draws = Draws(8);
    for _ in 0..200 {
        let numbers: Vec<_> = (0..draws.below(40)).map(|_| draws.number() % 12).collect();
        let chunks = reference(&numbers);
        let mut pieces: Vec<_> = draws.pieces(&chunks);
        let (mut session, mut seen) = (Session::new(), HashSet::new());
        while !pieces.is_empty() {
            let piece = pieces.swap_remove(draws.below(pieces.len()));
            let first = piece.as_ptr() as usize - chunks.as_ptr() as usize;
            let first = (first / size_of::<Node>()) as u64;
            assert_eq!(session.put(first, piece), Ok(new_hashes(&mut seen, piece)));
            if let Some(last) = piece.len().checked_sub(1) {
                assert!(session.taken(first) && session.taken(first + last as u64));
            }
        }
        let total = chunks.len() as u64;
        assert_eq!(session.finish(total), Ok(file_hash(&chunks)));
        assert_eq!(session.root(total), Ok(xorb_hash(&chunks)));
        assert_eq!(session.finish(total + 1), Err(SessionFault::Gap));
        assert_eq!(session.num_runs(), usize::from(!chunks.is_empty()));
    }
}

#[test]
fn a_clone_is_a_session_of_its_own() {
    let chunks = reference(&[1, 2, 3, 4]);
    let mut session = Session::new();
    session.put(2, &chunks[2..]).unwrap();
    session.put(7, &chunks[..1]).unwrap();
    let mut copy = session.clone();
    assert_eq!(copy.runs().collect::<Vec<_>>(), session.runs().collect::<Vec<_>>());
    assert_eq!(copy.total_size(), session.total_size());
    // The copy knows the first hash and not the second.
    assert_eq!(copy.put(0, &chunks[..2]), Ok(1));
    assert_eq!((copy.num_runs(), session.num_runs(), session.taken(0)), (2, 2, false));
    assert_eq!(session.put(0, &chunks[..2]), Ok(1));
    drop(session);
    assert_eq!(copy.put(4, &chunks[..3]), Ok(0));
    assert_eq!(copy.finish(8), Ok(file_hash(&reference(&[1, 2, 3, 4, 1, 2, 3, 1]))));
}

#[test]
fn gaps_are_the_positions_that_are_not_taken() {
    let chunk = (MerkleHash::default(), 1);
    let mut session = Session::new();
    let gaps = |session: &Session, total| format!("{:?}", session.gaps(total).unwrap());
    assert_eq!([0, 3].map(|total| gaps(&session, total)), ["[]", "[0..3]"]);
    session.put(u64::MAX - 1, &[chunk]).unwrap();
    session.put(5, &[chunk; 3]).unwrap();
    session.put(9, &[chunk]).unwrap();
    let last = u64::MAX - 1;
    assert_eq!(gaps(&session, u64::MAX), format!("[0..5, 8..9, 10..{last}]"));
    assert_eq!(session.runs().map(|(first, _)| first).collect::<Vec<_>>(), [5, 9, last]);
    for (total, text) in [
        (last, &*format!("[0..5, 8..9, 10..{last}]")),
        (20, "[0..5, 8..9, 10..20]"),
        (10, "[0..5, 8..9]"),
        (9, "[0..5, 8..9]"),
        (8, "[0..5]"),
        (6, "[0..5]"),
        (5, "[0..5]"),
        (3, "[0..3]"),
        (0, "[]"),
    ] {
        assert_eq!(gaps(&session, total), text);
    }
}

#[test]
fn drawn_sessions_have_the_gaps_and_the_size_of_what_was_placed() {
    let mut draws = Draws(14);
    for _ in 0..100 {
        let (mut session, mut taken, mut size) = (Session::new(), [false; 60], 0);
        for _ in 0..draws.below(12) {
            let (first, count) = (draws.below(40), draws.below(8));
            let chunks = draws.nodes(count);
            let free = !taken[first..first + count].contains(&true);
            assert_eq!(session.put(first as u64, &chunks).is_ok(), free);
            if free {
                taken[first..first + count].fill(true);
                size += chunks.iter().map(|chunk| chunk.1).sum::<u64>();
            }
            assert_eq!(session.total_size(), size);
        }
        let total = draws.below(60);
        let gaps = session.gaps(total as u64).unwrap();
        let of_gaps: Vec<u64> = gaps.iter().cloned().flatten().collect();
        let free: Vec<u64> = (0..total).filter(|&at| !taken[at]).map(|at| at as u64).collect();
        assert_eq!(of_gaps, free);
        assert!(gaps.windows(2).all(|pair| pair[0].end < pair[1].start));
    }
}

#[test]
fn faults_have_their_texts() {
    let texts = [
        (
            SessionFault::InvalidArguments,
            "a range has no chunk, or is marked at an end",
        ),
        (SessionFault::Overlap, "a position is taken"),
        (SessionFault::Positions, "positions past 2^64 - 1"),
        (SessionFault::Sizes, "sizes past 2^64 - 1"),
        (SessionFault::OutOfMemory, "out of memory"),
        (SessionFault::Gap, "a position isn't taken, or one is past the total"),
    ];
    for (fault, text) in texts {
        assert_eq!(fault.to_string(), text);
    }
    assert_eq!(
        SessionFault::OutOfMemory.to_string(),
        CoreError::OutOfMemory.to_string()
    );
}

// A session with these runs of a list, put in this order.
fn session_of(nodes: &[Node], runs: &[(usize, usize)]) -> Session {
    let mut session = Session::new();
    for &(first, end) in runs {
        session.put(first as u64, &nodes[first..end]).unwrap();
    }
    session
}

#[test]
fn sessions_are_equal_by_their_runs_and_known_hashes() {
    let nodes = Draws(41).nodes(2000);
    let session = session_of(&nodes, &[(0, 1000), (1500, 2000)]);
    assert_eq!(session, session);
    assert_eq!(session, session.clone());
    assert_eq!(
        session,
        session_of(&nodes, &[(1700, 2000), (400, 1000), (0, 400), (1500, 1700)])
    );
    assert_eq!(Session::new(), Session::default());
    let mut restored = Session::new();
    restored.keep_hashes(&session.known_hashes().unwrap()).unwrap();
    for position in [0, 1000] {
        let (positions, range) = session.run_from(position).unwrap();
        restored.push_run(positions, &range).unwrap();
    }
    assert_eq!(session, restored);

    let mut others = vec![
        Session::new(),
        session_of(&nodes, &[(0, 1000)]),
        session_of(&nodes, &[(0, 1001), (1501, 2000)]),
        session_of(&nodes, &[(0, 1500)]),
    ];
    let changed = |change: &dyn Fn(&mut Vec<Node>)| {
        let mut other = nodes.clone();
        change(&mut other);
        session_of(&other, &[(0, 1000), (1500, 2000)])
    };
    others.push(changed(&|nodes| nodes.swap(1, 2)));
    others.push(changed(&|nodes| nodes.swap(1998, 1999)));
    others.push(changed(&|nodes| {
        nodes[3].1 += 1;
        nodes[1700].1 -= 1;
    }));
    let mut knowing = session.clone();
    knowing.keep_hashes(&[MerkleHash::marker()]).unwrap();
    others.push(knowing);
    let mut knowing_another = session.clone();
    knowing_another.keep_hashes(&[MerkleHash::default()]).unwrap();
    others.push(knowing_another);
    for (k, other) in others.iter().enumerate() {
        assert_ne!(&session, other, "{k}");
        for (j, another) in others.iter().enumerate() {
            assert_eq!(other == another, k == j, "{k} {j}");
        }
    }
    // Runs of other positions, with the same chunks.
    let mut moved = session_of(&nodes, &[(0, 1000)]);
    moved.put(1501, &nodes[1500..2000]).unwrap();
    assert_ne!(session, moved);
}

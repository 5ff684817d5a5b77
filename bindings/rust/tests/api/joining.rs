//! Parts of a file that others hashed: ranges at their positions, and sessions that are joined.

use crate::draws::{reference, Draws};
use std::collections::HashSet;
use std::thread;
use yurewha::merklehash::{file_hash, xorb_hash, MerkleHash, MerkleHashSubtree};
use yurewha::own::{Node, Session, SessionFault};

fn open(chunks: &[Node]) -> MerkleHashSubtree {
    MerkleHashSubtree::from_chunks(false, chunks, false)
}

// The hashes that a session knows.
fn known(session: &Session) -> HashSet<MerkleHash> {
    session.known_hashes().unwrap().into_iter().collect()
}

// The pieces of a list that have a chunk, in drawn order, each with its first position.
fn parts<'a>(draws: &mut Draws, chunks: &'a [Node]) -> Vec<(u64, &'a [Node])> {
    let (mut first, mut left) = (0, Vec::new());
    for piece in draws.pieces(chunks).into_iter().filter(|piece| !piece.is_empty()) {
        left.push((first, piece));
        first += piece.len() as u64;
    }
    let mut parts = Vec::new();
    while !left.is_empty() {
        parts.push(left.swap_remove(draws.below(left.len())));
    }
    parts
}

#[test]
fn a_range_is_put_at_any_position() {
    let chunks = reference(&[1, 2, 3, 4, 5, 6]);
    let mut session = Session::new();
    session.put(5, &chunks[5..]).unwrap();
    let range = open(&chunks[..2]);
    assert_eq!(session.put_range(0, 2, &range), Ok(()));
    assert_eq!(range, open(&chunks[..2]));
    assert_eq!(
        (session.num_chunks(), session.total_size(), session.num_runs()),
        (3, 900, 2)
    );
    assert_eq!([1, 2, 4, 5].map(|at| session.taken(at)), [true, false, false, true]);
    assert!(!session.knows(&chunks[0].0));
    assert_eq!(session.put_range(2, 3, &open(&chunks[2..5])), Ok(()));
    assert_eq!((session.num_runs(), session.finish(6)), (1, Ok(file_hash(&chunks))));
    // Only now their hashes are seen.
    assert_eq!(session.put(6, &chunks), Ok(5));
    // A range may be said to have more chunks than it has, and end with the last position.
    assert_eq!(session.put_range(u64::MAX - 3, 3, &open(&chunks[..1])), Ok(()));
    assert_eq!(session.run_from(100).unwrap().0, u64::MAX - 3..u64::MAX);
}

#[test]
fn a_range_that_does_not_fit_is_refused_and_changes_nothing() {
    let one = reference(&[1]);
    let great = open(&[(MerkleHash::default(), u64::MAX)]);
    let marked = |at_start, at_end| MerkleHashSubtree::from_chunks(at_start, &reference(&[1]), at_end);
    let mut session = Session::new();
    session.put(5, &reference(&[1, 2, 3])).unwrap();
    let before = session.clone();
    for (first, count, range, fault) in [
        (9, 0, open(&one), SessionFault::InvalidArguments),
        (9, 1, marked(true, false), SessionFault::InvalidArguments),
        (9, 1, marked(false, true), SessionFault::InvalidArguments),
        (9, 1, marked(true, true), SessionFault::InvalidArguments),
        (5, 1, open(&one), SessionFault::Overlap),
        (7, 1, open(&one), SessionFault::Overlap),
        (3, 3, open(&one), SessionFault::Overlap),
        (0, 20, open(&one), SessionFault::Overlap),
        (u64::MAX, 1, open(&one), SessionFault::Positions),
        (u64::MAX - 2, 3, open(&one), SessionFault::Positions),
        (10, u64::MAX, open(&one), SessionFault::Positions),
        (9, 1, great.clone(), SessionFault::Sizes),
        // Of several faults, the first one is returned.
        (5, 0, great.clone(), SessionFault::InvalidArguments),
        (5, u64::MAX, marked(true, false), SessionFault::InvalidArguments),
        (0, u64::MAX, great.clone(), SessionFault::Overlap),
        (1, u64::MAX, open(&one), SessionFault::Overlap),
        (u64::MAX, 1, great, SessionFault::Positions),
    ] {
        assert_eq!(session.put_range(first, count, &range), Err(fault), "{first} {count}");
        assert_eq!(session, before);
    }
    assert_eq!(session.put_range(8, 1, &open(&one)), Ok(()));
    assert_eq!(session.put_range(3, 2, &open(&one)), Ok(()));
    assert_eq!((session.num_runs(), session.num_chunks()), (1, 6));
}

#[test]
fn drawn_ranges_give_the_file_hash_of_the_whole() {
    let mut draws = Draws(51);
    for _ in 0..200 {
        let count = draws.below(150);
        let chunks = draws.nodes(count);
        let mut session = Session::new();
        for (first, part) in parts(&mut draws, &chunks) {
            let (count, range) = (part.len() as u64, open(part));
            assert_eq!(session.put_range(first, count, &range), Ok(()));
            // A part that comes again is refused.
            let before = session.clone();
            assert_eq!(session.put_range(first, count, &range), Err(SessionFault::Overlap));
            assert_eq!(session.put(first, part), Err(SessionFault::Overlap));
            assert_eq!(session, before);
        }
        let total = chunks.len() as u64;
        assert_eq!(session.finish(total), Ok(file_hash(&chunks)));
        assert_eq!(session.root(total), Ok(xorb_hash(&chunks)));
        assert!(known(&session).is_empty());
    }
}

#[test]
fn sessions_that_are_joined_in_a_drawn_tree_give_the_file_hash_of_the_whole() {
    let mut draws = Draws(52);
    for _ in 0..200 {
        let numbers: Vec<_> = (0..draws.below(60)).map(|_| draws.number() % 20).collect();
        let chunks = reference(&numbers);
        let mut sessions = vec![Session::new()];
        for (first, part) in parts(&mut draws, &chunks) {
            let mut session = Session::new();
            if draws.truth() {
                session.put(first, part).unwrap();
            } else {
                session.put_range(first, part.len() as u64, &open(part)).unwrap();
            }
            sessions.push(session);
        }
        while sessions.len() > 1 {
            let other = sessions.swap_remove(draws.below(sessions.len()));
            let place = draws.below(sessions.len());
            let (one, kept) = (&mut sessions[place], other.clone());
            let wanted = known(&other).difference(&known(one)).count() as u64;
            let size = one.total_size() + other.total_size();
            assert_eq!(one.join(&other), Ok(wanted));
            assert_eq!((one.total_size(), &other), (size, &kept));
            assert!(known(&other).is_subset(&known(one)));
            // A part that comes again is refused.
            let before = one.clone();
            let again = if other.num_runs() > 0 {
                Err(SessionFault::Overlap)
            } else {
                Ok(0)
            };
            assert_eq!(one.join(&other), again);
            assert_eq!(*one, before);
        }
        let total = chunks.len() as u64;
        assert_eq!(sessions[0].finish(total), Ok(file_hash(&chunks)));
        assert_eq!(sessions[0].root(total), Ok(xorb_hash(&chunks)));
    }
}

#[test]
fn sessions_that_cannot_be_joined_are_unchanged() {
    let great = (MerkleHash::default(), u64::MAX);
    let session_of = |runs: &[(u64, &[Node])]| {
        let mut session = Session::new();
        for &(first, chunks) in runs {
            session.put(first, chunks).unwrap();
        }
        session
    };
    let chunks = reference(&[1, 2, 3]);
    let mut session = session_of(&[(2, &chunks), (10, &chunks)]);
    let before = session.clone();
    for (other, fault) in [
        (session_of(&[(4, &chunks)]), SessionFault::Overlap),
        (session_of(&[(0, &chunks[..2]), (12, &chunks)]), SessionFault::Overlap),
        (session_of(&[(5, &[great])]), SessionFault::Sizes),
        // Of two faults, the first one is returned.
        (session_of(&[(12, &[great])]), SessionFault::Overlap),
    ] {
        let kept = other.clone();
        assert_eq!(session.join(&other), Err(fault), "{other:?}");
        assert_eq!((&session, &other), (&before, &kept));
    }
    let copy = session.clone();
    assert_eq!(session.join(&copy), Err(SessionFault::Overlap));
    // Positions between those of the other.
    let between = session_of(&[(0, &chunks[..2]), (5, &chunks), (13, &chunks)]);
    assert_eq!(session.join(&between), Ok(0));
    assert_eq!((session.num_runs(), session.num_chunks()), (2, 14));
}

#[test]
fn a_session_without_hashes_keeps_none_of_those_that_are_joined() {
    let chunks = reference(&[1, 2, 1, 3]);
    let (mut keeping, mut without) = (Session::new(), Session::without_hashes());
    keeping.put(0, &chunks).unwrap();
    keeping.keep_hashes(&[MerkleHash::marker()]).unwrap();
    without.put(4, &chunks).unwrap();
    let mut one = without.clone();
    assert_eq!(one.join(&keeping), Ok(4)); // all of them are new
    assert!(!one.keeps_hashes() && known(&one).is_empty());
    let mut other = keeping.clone();
    assert_eq!(other.join(&without), Ok(0)); // there are none
    assert_eq!(known(&other), known(&keeping));
    for joined in [one, other] {
        assert_eq!(joined.finish(8), Ok(file_hash(&[&*chunks, &*chunks].concat())));
    }
}

#[test]
fn threads_put_the_same_range_and_join_the_same_session() {
    let chunks = Draws(53).nodes(3000);
    let range = open(&chunks[..1500]);
    let mut other = Session::new();
    for first in (1500..3000).step_by(50).rev() {
        other.put(first as u64, &chunks[first..first + 40]).unwrap();
    }
    let mut whole = Session::new();
    whole.put_range(0, 1500, &range).unwrap();
    whole.join(&other).unwrap();
    thread::scope(|scope| {
        for _ in 0..8 {
            scope.spawn(|| {
                for _ in 0..200 {
                    let mut session = Session::new();
                    assert_eq!(session.put_range(0, 1500, &range), Ok(()));
                    assert_eq!(session.join(&other), Ok(1200));
                    assert_eq!(session.total_size(), whole.total_size());
                }
            });
        }
    });
}

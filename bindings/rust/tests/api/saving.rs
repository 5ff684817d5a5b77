//! Sessions that are saved and restored by their runs and the hashes that they know.

use crate::draws::{reference, with_cuts, Draws};
use std::collections::HashSet;
use std::ops::Range;
use yurewha::error::CoreError;
use yurewha::merklehash::{MerkleHash, MerkleHashSubtree};
use yurewha::own::Session;

fn open(numbers: &[u64]) -> MerkleHashSubtree {
    MerkleHashSubtree::from_chunks(false, &reference(numbers), false)
}

/// A session of random puts. Positions are below 120, and hashes are repeated.
pub fn drawn_session(draws: &mut Draws) -> Session {
    let mut session = Session::new();
    for _ in 0..draws.below(12) {
        let numbers: Vec<_> = (0..draws.below(20)).map(|_| draws.number() % 30).collect();
        // A put at a taken position changes nothing.
        let _ = session.put(draws.number() % 100, &reference(&numbers));
    }
    session
}

fn known(session: &Session) -> HashSet<MerkleHash> {
    let hashes = session.known_hashes().unwrap();
    let count = hashes.len();
    let known = HashSet::from_iter(hashes);
    assert_eq!(known.len(), count, "each once");
    known
}

/// That a session has the runs, the size and the hashes of another one, and so do both after the same puts.
pub fn assert_restored(session: &Session, mut restored: Session, draws: &mut Draws) {
    let mut session = session.clone();
    for _ in 0..4 {
        assert!(restored.runs().eq(session.runs()));
        assert_eq!(restored.total_size(), session.total_size());
        assert_eq!(known(&restored), known(&session));
        for total in [0, 20, 120] {
            assert_eq!(restored.gaps(total), session.gaps(total));
            assert_eq!(restored.root(total), session.root(total));
        }
        let numbers: Vec<_> = (0..draws.below(20)).map(|_| draws.number() % 30).collect();
        let first = draws.number() % 120;
        assert_eq!(
            restored.put(first, &reference(&numbers)),
            session.put(first, &reference(&numbers))
        );
    }
    for gap in session.gaps(120).unwrap() {
        let numbers: Vec<_> = gap.clone().map(|at| at % 40).collect();
        for each in [&mut restored, &mut session] {
            each.put(gap.start, &reference(&numbers)).unwrap();
        }
    }
    let total = session.run_from(0).unwrap().0.end;
    assert_eq!(restored.finish(total), session.finish(total));
    assert!(restored.finish(total).is_ok());
}

#[test]
fn drawn_sessions_are_read_back_from_json() {
    let mut draws = Draws(19);
    for _ in 0..60 {
        let session = drawn_session(&mut draws);
        let text = session.to_json().unwrap();
        let restored = Session::from_json(&text).unwrap();
        assert_eq!(restored.to_json().as_deref(), Ok(&*text));
        assert_restored(&session, restored, &mut draws);
        let without = Session::from_json_without_hashes(&text).unwrap();
        assert!(!without.keeps_hashes() && known(&without).is_empty());
        assert!(without.runs().eq(session.runs()));
    }
}

// Its text has more room than a run has by default.
#[test]
fn a_run_of_many_nodes_is_read_back_from_json() {
    let mut session = Session::new();
    session
        .push_run(
            3..4003,
            &MerkleHashSubtree::from_chunks(false, &with_cuts(4000, &[]), false),
        )
        .unwrap();
    let text = session.to_json().unwrap();
    assert!(text.len() > 100_000 && Session::from_json(&text).unwrap() == session);
}

#[test]
fn json_of_no_session_is_refused_by_the_lowest_rule() {
    let of = |runs: &str| format!(r#"{{"runs":[{runs}],"known_hashes":[]}}"#);
    let run = |first: u64, end: u64, chunks: &str| format!(r#"{{"first":{first},"end":{end},"chunks":{chunks}}}"#);
    let [range, marked] = [false, true].map(|mark| {
        let subtree = MerkleHashSubtree::from_chunks(mark, &reference(&[1]), false);
        subtree.to_json().unwrap()
    });
    let great = MerkleHashSubtree::from_chunks(false, &[(MerkleHash::default(), u64::MAX)], false);
    let great = great.to_json().unwrap();
    for (text, error) in [
        ("nope".to_owned(), CoreError::InvalidText),
        (
            r#"{"runs":[],"known_hashes":[],"known_hashes":[]}"#.to_owned(),
            CoreError::InvalidText,
        ),
        ("[]".to_owned(), CoreError::InvalidSession(1)),
        (r#"{"runs":[]}"#.to_owned(), CoreError::InvalidSession(2)),
        (of("{}"), CoreError::InvalidSession(3)),
        (
            r#"{"runs":[],"known_hashes":[[1,2,3]]}"#.to_owned(),
            CoreError::InvalidSession(4),
        ),
        (of(&run(0, 1, "[]")), CoreError::InvalidJson(1)),
        (of(&run(0, 1, &marked)), CoreError::InvalidSession(6)),
        (
            of(&[run(0, 1, &range), run(2, 3, &great)].join(",")),
            CoreError::InvalidSession(7),
        ),
        (
            of(&[run(0, 0, &range), run(2, 3, "[]")].join(",")),
            CoreError::InvalidJson(1),
        ),
        (
            of(&[run(0, 0, &range), run(2, 3, "[]"), "7".to_owned()].join(",")),
            CoreError::InvalidSession(3),
        ),
    ] {
        assert_eq!(Session::from_json(&text), Err(error), "{text}");
        assert_eq!(Session::from_json_without_hashes(&text), Err(error), "{text}");
    }
}

#[test]
fn the_rule_of_a_session_is_told() {
    let refused = Session::from_json(r#"{"runs":[],"known_hashes":7}"#).unwrap_err();
    let text = "invalid session: rule 2: the runs or known hashes aren't an array";
    assert_eq!(refused.to_string(), text);
}

#[test]
fn drawn_sessions_are_restored() {
    let mut draws = Draws(16);
    for _ in 0..100 {
        let session = drawn_session(&mut draws);
        let mut restored = Session::new();
        let mut end = 0;
        while let Some((positions, range)) = session.run_from(end) {
            end = positions.end;
            restored.push_run(positions, &range).unwrap();
        }
        assert!(known(&restored).is_empty());
        restored.keep_hashes(&session.known_hashes().unwrap()).unwrap();
        assert_restored(&session, restored, &mut draws);
    }
}

#[test]
fn a_run_that_does_not_fit_is_refused_and_changes_nothing() {
    let great = MerkleHashSubtree::from_chunks(false, &[(MerkleHash::default(), u64::MAX)], false);
    let marked = |at_start, at_end| MerkleHashSubtree::from_chunks(at_start, &reference(&[1]), at_end);
    let mut session = Session::new();
    session.push_run(5..8, &open(&[1, 2, 3])).unwrap();
    let refused: [(Range<u64>, MerkleHashSubtree, CoreError); 14] = [
        (9..9, open(&[1]), CoreError::InvalidArguments),
        (Range { start: 9, end: 8 }, open(&[1]), CoreError::InvalidArguments),
        (
            Range {
                start: u64::MAX,
                end: 0,
            },
            open(&[1]),
            CoreError::InvalidArguments,
        ),
        (9..10, marked(true, false), CoreError::InvalidArguments),
        (9..10, marked(false, true), CoreError::InvalidArguments),
        (9..10, marked(true, true), CoreError::InvalidArguments),
        (0..2, open(&[1, 2]), CoreError::InvalidArguments),
        (5..8, open(&[1, 2, 3]), CoreError::InvalidArguments),
        (6..7, open(&[1]), CoreError::InvalidArguments),
        (8..9, open(&[1]), CoreError::InvalidArguments),
        (4..10, open(&[1]), CoreError::InvalidArguments),
        (9..10, great.clone(), CoreError::SizeOverflow),
        // Two errors are possible, and this one is returned.
        (8..9, great, CoreError::InvalidArguments),
        (0..u64::MAX, open(&[1]), CoreError::InvalidArguments),
    ];
    for (positions, range, error) in refused {
        assert_eq!(session.push_run(positions.clone(), &range), Err(error), "{positions:?}");
        assert!(session.runs().eq([(5, open(&[1, 2, 3]))]));
        assert_eq!(session.total_size(), 600);
    }
    session.push_run(9..10, &open(&[4])).unwrap();
    session.push_run(u64::MAX - 1..u64::MAX, &open(&[0])).unwrap();
    assert_eq!((session.num_runs(), session.total_size()), (3, 1000));
    assert_eq!(session.run_from(9), Some((9..10, open(&[4]))));
    // The hash of the pushed chunk is new.
    assert_eq!(session.put(8, &reference(&[4])), Ok(1));
}

#[test]
fn known_hashes_are_those_of_puts_and_those_that_were_kept() {
    let chunks = reference(&[1, 2, 1, 3]);
    let hashes = |numbers: &[u64]| reference(numbers).iter().map(|chunk| chunk.0).collect::<HashSet<_>>();
    let mut session = Session::new();
    assert!(known(&session).is_empty());
    session.put(3, &chunks).unwrap();
    assert_eq!(known(&session), hashes(&[1, 2, 3]));
    session.keep_hashes(&[]).unwrap();
    session
        .keep_hashes(&[chunks[0].0, MerkleHash::default(), MerkleHash::default()])
        .unwrap();
    assert_eq!(known(&session), hashes(&[0, 1, 2, 3]));
    assert_eq!((session.num_runs(), session.total_size()), (1, 700));
    assert_eq!(session.put(0, &reference(&[0, 4])), Ok(1));
    // A put that is refused keeps no hash, and a copy knows what the session knew.
    assert!(session.put(3, &reference(&[5])).is_err());
    assert_eq!(known(&session.clone()), hashes(&[0, 1, 2, 3, 4]));
}

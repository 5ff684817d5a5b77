//! What goes to other threads, and what they share.

use crate::draws::Draws;
use std::future::Future;
use std::io::{self, Write};
use std::panic::{RefUnwindSafe, UnwindSafe};
use std::rc::Rc;
use std::sync::{Arc, OnceLock};
use std::thread;
use yurewha::error::CoreError;
use yurewha::merklehash::{
    compute_data_hash, file_hash, xorb_hash, DataHash, DataHashBytesParseError, DataHashHexParseError, HashedWrite,
    MerkleHashSubtree, PassThroughHashMap, U64DirectHasher,
};
use yurewha::own::{
    self, Chunker, FileHasher, HashIndex, HashTree, OpenedRange, RangeProof, Session, SessionFault, VerifiedReader,
    WantedPart,
};

const fn assert_send_and_sync<T: Send + Sync>() {}

const fn assert_unwind_safe<T: UnwindSafe + RefUnwindSafe>() {}

const _: () = {
    assert_send_and_sync::<MerkleHashSubtree>();
    assert_send_and_sync::<Session>();
    assert_send_and_sync::<HashTree>();
    assert_send_and_sync::<HashIndex>();
    assert_send_and_sync::<RangeProof>();
    assert_send_and_sync::<OpenedRange>();
    assert_send_and_sync::<VerifiedReader>();
    assert_send_and_sync::<WantedPart>();
    assert_send_and_sync::<DataHash>();
    assert_send_and_sync::<own::Hasher>();
    assert_send_and_sync::<Chunker>();
    assert_send_and_sync::<FileHasher>();
    assert_send_and_sync::<HashedWrite<Vec<u8>>>();
    assert_send_and_sync::<PassThroughHashMap<DataHash, String>>();
    assert_send_and_sync::<U64DirectHasher<DataHash>>();
    assert_send_and_sync::<CoreError>();
    assert_send_and_sync::<DataHashBytesParseError>();
    assert_send_and_sync::<DataHashHexParseError>();
    assert_send_and_sync::<own::HashTextError>();
    assert_send_and_sync::<own::HexError>();
    assert_send_and_sync::<own::Difference>();
    assert_send_and_sync::<own::OpenError>();
    assert_send_and_sync::<own::OpenFault>();
    assert_send_and_sync::<own::OtherFile>();
    assert_send_and_sync::<own::PartFault>();
    assert_send_and_sync::<SessionFault>();
    assert_unwind_safe::<MerkleHashSubtree>();
    assert_unwind_safe::<Session>();
    assert_unwind_safe::<HashTree>();
    assert_unwind_safe::<HashIndex>();
    assert_unwind_safe::<RangeProof>();
    assert_unwind_safe::<OpenedRange>();
    assert_unwind_safe::<VerifiedReader>();
    assert_unwind_safe::<WantedPart>();
    assert_unwind_safe::<Chunker>();
    assert_unwind_safe::<FileHasher>();
};

// Ambiguous, and so no program, for a type that is `Send`.
trait IsSent<Marker> {
    const NO: () = ();
}

impl<T: ?Sized> IsSent<()> for T {}

impl<T: ?Sized + Send> IsSent<u8> for T {}

// What holds a caller's value goes to another thread only if that value does.
const _: () = {
    let () = <HashedWrite<OfOneThread>>::NO;
    let () = <PassThroughHashMap<u64, Rc<u8>>>::NO;
};

// A writer that is bound to its thread.
struct OfOneThread {
    _count: Rc<u8>,
}

impl Write for OfOneThread {
    fn write(&mut self, slice: &[u8]) -> io::Result<usize> {
        Ok(slice.len())
    }

    fn flush(&mut self) -> io::Result<()> {
        Ok(())
    }
}

#[test]
fn subtrees_are_made_on_threads_and_merged_on_another() {
    let nodes = Draws(9).nodes(4000);
    let ranges: Vec<_> = thread::scope(|scope| {
        let makers: Vec<_> = nodes
            .chunks(500)
            .map(|range| scope.spawn(move || MerkleHashSubtree::from_chunks(false, range, false)))
            .collect();
        makers.into_iter().map(|maker| maker.join().unwrap()).collect()
    });
    let merging = thread::spawn(move || {
        let mut file = MerkleHashSubtree::from_chunks(true, &[], false);
        file.merge_into(&MerkleHashSubtree::merge(&ranges).unwrap()).unwrap();
        file.merge_into(&MerkleHashSubtree::from_chunks(false, &[], true))
            .unwrap();
        file
    });
    assert_eq!(merging.join().unwrap().final_hash(), Some(xorb_hash(&nodes)));
}

#[test]
fn a_session_moves_from_thread_to_thread() {
    let nodes = Draws(10).nodes(1000);
    let session = nodes
        .chunks(100)
        .enumerate()
        .rev()
        .fold(Session::new(), |mut session, (i, range)| {
            thread::scope(|scope| {
                let putting = scope.spawn(move || {
                    session.put(i as u64 * 100, range).unwrap();
                    session
                });
                putting.join().unwrap()
            })
        });
    assert_eq!(session.finish(1000), Ok(file_hash(&nodes)));
}

#[test]
fn threads_work_on_values_of_their_own() {
    let nodes = Draws(11).nodes(500);
    let root = xorb_hash(&nodes);
    thread::scope(|scope| {
        for _ in 0..8 {
            scope.spawn(|| {
                for cut in (0..500).step_by(25) {
                    let mut first = MerkleHashSubtree::from_chunks(true, &nodes[..cut], false);
                    first
                        .merge_into(&MerkleHashSubtree::from_chunks(false, &nodes[cut..], true))
                        .unwrap();
                    assert_eq!(first.clone().final_hash(), Some(root));
                }
            });
        }
    });
}

// How many threads look at the same values at once.
const THREADS: usize = 8;

#[test]
fn threads_look_at_the_same_subtrees() {
    let nodes = Draws(16).nodes(600);
    let ranges: Vec<_> = nodes
        .chunks(100)
        .map(|range| MerkleHashSubtree::from_chunks(false, range, false))
        .collect();
    let whole = MerkleHashSubtree::from_chunks(false, &nodes, false);
    let closed = Arc::new(MerkleHashSubtree::from_chunks(true, &nodes, true));
    let (root, text) = (xorb_hash(&nodes), whole.to_json().unwrap());
    thread::scope(|scope| {
        for _ in 0..THREADS {
            let closed = Arc::clone(&closed);
            scope.spawn(|| {
                let closed = closed;
                for _ in 0..100 {
                    assert_eq!(closed.final_hash(), Some(root));
                    assert_eq!(MerkleHashSubtree::merge(&ranges).as_ref(), Ok(&whole));
                    let mut merged = ranges[0].clone();
                    ranges[1..].iter().for_each(|range| merged.merge_into(range).unwrap());
                    assert_eq!(merged, whole);
                    // Two handles at once, in both orders.
                    assert_ne!(whole, *closed);
                    assert_ne!(*closed, whole);
                    assert_eq!(whole.to_json().as_ref(), Ok(&text));
                    assert_eq!(format!("{whole:?}").len(), format!("{merged:?}").len());
                }
            });
        }
    });
    assert_eq!(closed.total_size(), whole.total_size());
}

#[test]
fn threads_look_at_the_same_session() {
    let nodes = Draws(17).nodes(300);
    let mut session = Session::new();
    for (first, range) in nodes.chunks(10).enumerate().rev() {
        session.put(first as u64 * 10, range).unwrap();
    }
    session.put(310, &nodes[..1]).unwrap();
    thread::scope(|scope| {
        for _ in 0..THREADS {
            scope.spawn(|| {
                for _ in 0..100 {
                    assert!(session.taken(299) && !session.taken(300));
                    assert_eq!((session.runs().count(), session.root(300)), (2, Err(SessionFault::Gap)));
                    assert_eq!(session.gaps(311).unwrap().len(), 1);
                }
            });
        }
    });
}

#[test]
fn threads_look_at_the_same_tree_and_the_same_range() {
    let data: Vec<_> = (0..300_u32).map(|i| i.to_le_bytes()).collect();
    let chunks: Vec<_> = data.iter().map(|data| (compute_data_hash(data), 4)).collect();
    let tree = HashTree::from_chunks(&chunks).unwrap();
    let range = tree.proof(100..200).unwrap().open(&file_hash(&chunks)).unwrap();
    let (whole, fetched) = (data.concat(), data[100..200].concat());
    thread::scope(|scope| {
        for _ in 0..THREADS {
            scope.spawn(|| {
                for k in 0..100 {
                    let proof = tree.proof(k..k + 2).unwrap();
                    let opened = proof.open_root(&tree.root()).unwrap();
                    assert_eq!(opened.begins(1), Some(4 * (k as u64 + 1)));
                    assert_eq!(range.check(k, &data[100 + k]), Some(4 * (100 + k as u64)));
                    assert_eq!(range.read(500..510, &fetched), Some(&whole[500..510]));
                    assert_eq!(tree.chunks_at(0..5), Some(0..2));
                }
            });
        }
    });
}

#[test]
fn threads_find_where_the_same_trees_differ() {
    let chunks = Draws(18).nodes(300);
    let tree = HashTree::from_chunks(&chunks).unwrap();
    let shorter = HashTree::from_chunks(&[&chunks[..100], &chunks[110..]].concat()).unwrap();
    thread::scope(|scope| {
        for _ in 0..THREADS {
            scope.spawn(|| {
                for _ in 0..1000 {
                    let [one, other] = [tree.diff(&shorter), shorter.diff(&tree)].map(Option::unwrap);
                    assert_eq!((one.first, one.end, one.other_end), (100, 110, 100));
                    assert_eq!((other.first, other.end, other.other_end), (100, 100, 110));
                    assert_eq!(tree.diff(&tree), None);
                }
            });
        }
    });
}

#[test]
fn threads_look_at_the_same_index() {
    let hashes: Vec<_> = Draws(19).nodes(300).into_iter().map(|node| node.0).collect();
    let mut index = HashIndex::new();
    index.insert(hashes[..200].iter().copied().zip(0..)).unwrap();
    thread::scope(|scope| {
        for _ in 0..THREADS {
            scope.spawn(|| {
                for _ in 0..100 {
                    for (number, hash) in (0..).zip(&hashes) {
                        assert_eq!(index.get(hash), Some(number).filter(|&number| number < 200));
                    }
                    assert_eq!((index.len(), index.contains(&hashes[200])), (200, false));
                    assert_eq!(index.entries().unwrap().len(), 200);
                }
            });
        }
    });
    assert_eq!(index.insert([(hashes[200], 7)]), Ok(1));
}

#[test]
fn threads_compare_the_same_subtrees_in_both_orders() {
    let [open, closed] = [false, true].map(|mark| MerkleHashSubtree::from_chunks(mark, &[], mark));
    thread::scope(|scope| {
        for (first, second) in [(&open, &closed), (&closed, &open)].repeat(THREADS / 2) {
            scope.spawn(move || assert!((0..20_000).all(|_| first != second)));
        }
    });
}

// Each check takes so long that others come while it runs.
#[test]
fn threads_check_long_data_with_the_same_range() {
    let data = vec![7; 4 << 20];
    let chunk = (compute_data_hash(&data), data.len() as u64);
    let range = RangeProof::from_chunks(&[chunk], 0..1).unwrap();
    let range = range.open_root(&chunk.0).unwrap();
    thread::scope(|scope| {
        for _ in 0..THREADS {
            scope.spawn(|| {
                for _ in 0..8 {
                    assert_eq!((range.check(0, &data), range.begins(0)), (Some(0), Some(0)));
                    assert_eq!(range.read(1..2, &data), Some(&data[1..2]));
                }
            });
        }
    });
}

#[test]
fn a_subtree_stands_in_a_static_and_in_a_future_that_is_sent() {
    static EMPTY: OnceLock<MerkleHashSubtree> = OnceLock::new();
    let empty = EMPTY.get_or_init(|| MerkleHashSubtree::from_chunks(true, &[], true));
    assert!(empty.is_empty());
    fn sent<T: Future + Send>(_: T) {}
    sent(async {
        let held: &MerkleHashSubtree = empty;
        std::future::ready(()).await;
        held.num_nodes()
    });
}

#[test]
fn a_file_hasher_and_chunks_go_to_another_thread() {
    let mut hasher = FileHasher::new();
    hasher.update(b"a short ").unwrap();
    let chunks = own::chunks_of(&b"a short file"[..]);
    let (hasher, chunks) = thread::spawn(move || {
        hasher.update(b"file").unwrap();
        (hasher, chunks.map(Result::unwrap).collect::<Vec<_>>())
    })
    .join()
    .unwrap();
    thread::scope(|scope| {
        for _ in 0..THREADS {
            scope.spawn(|| assert!((0..1000).all(|_| (hasher.size(), hasher.root()) == (12, Ok(chunks[0].0)))));
        }
    });
    assert_eq!(hasher.file_hash(), Ok(file_hash(&chunks)));
}

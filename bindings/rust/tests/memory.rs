//! What calls answer where memory is refused, at each of their requests in turn.
//!
//! This program has a `malloc`, a `realloc` and a `free` of its own, which the library and Rust's allocator call.

#![cfg(all(target_os = "linux", target_env = "gnu"))]

use std::cell::Cell;
use std::env;
use std::ffi::{c_int, c_void};
use std::fmt::Debug;
use std::fs::{self, File};
use std::io::{self, ErrorKind, Read, Write};
use std::num::NonZeroUsize;
use std::panic::{self, catch_unwind, AssertUnwindSafe};
use std::process;
use std::ptr;
use std::sync::atomic::{AtomicBool, AtomicUsize, Ordering};
use std::sync::Once;
use std::thread;
use std::time::{Duration, Instant};
use yurewha::error::CoreError;
use yurewha::merklehash::{
    compute_data_hash, compute_internal_node_hash, file_hash, find_stable_end, find_stable_start, xorb_hash, DataHash,
    MerkleHashSubtree, PassThroughHashMap,
};
use yurewha::own::{
    self, try_file_hash, try_file_hash_with_salt, try_find_stable_end, try_find_stable_start, try_xorb_hash, Chunker,
    FileHasher, HashIndex, HashTextError, HashTree, Node, OpenError, OpenFault, OpenedRange, PartFault, RangeProof,
    Session, SessionFault, VerifiedReader,
};

extern "C" {
    fn __libc_malloc(size: usize) -> *mut c_void;
    fn __libc_realloc(block: *mut c_void, size: usize) -> *mut c_void;
    fn __libc_free(block: *mut c_void);
    fn prctl(option: c_int, name: *mut u8) -> c_int;
}

thread_local! {
    // How many requests of this thread come before the one that is refused. By default none is refused.
    static BEFORE: Cell<Option<u64>> = const { Cell::new(None) };
    // How many requests of this thread were counted.
    static REQUESTS: Cell<u64> = const { Cell::new(0) };
    // The size of the greatest request of this thread that was counted.
    static GREATEST: Cell<usize> = const { Cell::new(0) };
    // How many requests of this thread were as great as a buffer of a file.
    static OF_FILES: Cell<usize> = const { Cell::new(0) };
    // How many more blocks this thread took by `malloc` than it freed.
    static BLOCKS: Cell<i64> = const { Cell::new(0) };
    // How many requests of this thread come before the one in which it waits for another thread. By default it
    // never waits.
    static BEFORE_MEETING: Cell<Option<u64>> = const { Cell::new(None) };
    // Whether another thread waited as well, or had waited, while this one did.
    static HAS_MET: Cell<bool> = const { Cell::new(false) };
    // The file of the last panic of this thread.
    static PLACE: Cell<Option<String>> = const { Cell::new(None) };
}

// How many threads wait in a request, or did.
static MEETING: AtomicUsize = AtomicUsize::new(0);

// Waits until another thread waits as well, for at most ten seconds.
fn meet() {
    MEETING.fetch_add(1, Ordering::SeqCst);
    let begun = Instant::now();
    while MEETING.load(Ordering::SeqCst) < 2 && begun.elapsed() < Duration::from_secs(10) {
        thread::yield_now();
    }
    HAS_MET.set(MEETING.load(Ordering::SeqCst) == 2);
}

// Whether threads of `hash_chunks` and `hash_reader` are held up in their requests.
static ARE_HELD_UP: AtomicBool = AtomicBool::new(false);
// How many bytes a chunk has meanwhile, and how many buffers of that length there were.
const HELD_LENGTH: usize = 4321;
static BUFFERS: AtomicUsize = AtomicUsize::new(0);

// How many bytes of a file a buffer has.
const OF_A_FILE: usize = 1 << 20;

// Whether this is a thread of `hash_chunks` or `hash_reader`, by its name.
fn hashes_chunks() -> bool {
    const PR_GET_NAME: c_int = 16;
    let mut name = [0; 16];
    // SAFETY: room for a name.
    unsafe { prctl(PR_GET_NAME, name.as_mut_ptr()) };
    name.starts_with(b"yurewha\0")
}

// Holds a thread up until half a second has passed.
fn hold_up() {
    thread::sleep(Duration::from_millis(500));
    ARE_HELD_UP.store(false, Ordering::SeqCst);
}

// Counts a request of this size, and returns whether it is refused.
fn is_refused(size: usize) -> bool {
    if ARE_HELD_UP.load(Ordering::SeqCst) && hashes_chunks() {
        hold_up();
    }
    BUFFERS.fetch_add(usize::from(size == HELD_LENGTH), Ordering::SeqCst);
    let before = BEFORE_MEETING.get();
    BEFORE_MEETING.set(before.and_then(|before| before.checked_sub(1)));
    if before == Some(0) {
        meet();
    }
    REQUESTS.set(REQUESTS.get() + 1);
    GREATEST.set(GREATEST.get().max(size));
    OF_FILES.set(OF_FILES.get() + usize::from(size == OF_A_FILE));
    let before = BEFORE.get();
    BEFORE.set(before.and_then(|before| before.checked_sub(1)));
    before == Some(0)
}

/// # Safety
///
/// As the C library's.
#[no_mangle]
pub unsafe extern "C" fn malloc(size: usize) -> *mut c_void {
    if is_refused(size) {
        return ptr::null_mut();
    }
    BLOCKS.set(BLOCKS.get() + 1);
    // SAFETY: as the caller's.
    unsafe { __libc_malloc(size) }
}

/// # Safety
///
/// As the C library's.
#[no_mangle]
pub unsafe extern "C" fn realloc(block: *mut c_void, size: usize) -> *mut c_void {
    if is_refused(size) {
        return ptr::null_mut();
    }
    BLOCKS.set(BLOCKS.get() + i64::from(block.is_null()));
    // SAFETY: as the caller's.
    unsafe { __libc_realloc(block, size) }
}

/// # Safety
///
/// As the C library's.
#[no_mangle]
pub unsafe extern "C" fn free(block: *mut c_void) {
    BLOCKS.set(BLOCKS.get() - i64::from(!block.is_null()));
    // SAFETY: as the caller's.
    unsafe { __libc_free(block) }
}

// What a call returns if the request after this many is refused, and whether one was.
fn with_refusal<T>(before: u64, call: impl FnOnce() -> T) -> (T, bool) {
    BEFORE.set(Some(before));
    let answer = call();
    let refused = BEFORE.replace(None).is_none();
    (answer, refused)
}

// How many requests a call makes.
fn requests(call: impl FnOnce()) -> u64 {
    REQUESTS.set(0);
    call();
    REQUESTS.get()
}

// The size of the greatest request that a call makes.
fn greatest_request(call: impl FnOnce()) -> usize {
    GREATEST.set(0);
    call();
    GREATEST.get()
}

// That a call answers this error exactly where one of its requests is refused. It has to make one.
fn assert_each_refusal<T: Debug, E: Debug + PartialEq>(error: E, call: impl Fn() -> Result<T, E>) {
    for before in 0.. {
        match with_refusal(before, &call) {
            (Ok(_), false) => {
                assert!(before > 0, "no request was made");
                return;
            }
            (Err(told), true) => assert_eq!(told, error),
            (answer, refused) => panic!("{answer:?} at request {before}, refused: {refused}"),
        }
    }
}

// That a call that changes a value is refused with each of its requests in turn. It has to make one.
fn refuse_each(mut call: impl FnMut() -> Result<(), CoreError>) {
    for before in 0.. {
        let (answer, refused) = with_refusal(before, &mut call);
        assert_eq!(answer, if refused { Err(NO_MEMORY) } else { Ok(()) });
        if !refused {
            assert!(before > 0, "no request was made");
            return;
        }
    }
}

// How many blocks a call takes and doesn't free.
fn blocks_left(call: impl FnOnce()) -> i64 {
    let before = BLOCKS.get();
    call();
    BLOCKS.get() - before
}

// Nodes with natural cuts at each fourth place.
fn nodes(count: u64) -> Vec<Node> {
    (0..count)
        .map(|i| (DataHash::from([i, 0, 0, u64::from(i % 4 != 3)]), 1))
        .collect()
}

const NO_MEMORY: CoreError = CoreError::OutOfMemory;

#[test]
fn roots_and_subtrees_are_refused() {
    let nodes = nodes(60);
    assert_each_refusal(NO_MEMORY, || try_xorb_hash(&nodes));
    assert_each_refusal(NO_MEMORY, || try_file_hash(&nodes));
    assert_each_refusal(NO_MEMORY, || try_file_hash_with_salt(&nodes, &[7; 32]));
    assert_each_refusal(NO_MEMORY, || MerkleHashSubtree::try_from_chunks(false, &nodes, false));
    let subtree = MerkleHashSubtree::from_chunks(false, &nodes, false);
    assert_each_refusal(NO_MEMORY, || subtree.try_clone());
    assert_each_refusal(NO_MEMORY, || subtree.to_json());
    let text = subtree.to_json().unwrap();
    assert_each_refusal(NO_MEMORY, || MerkleHashSubtree::from_json(&text));
    assert_eq!(MerkleHashSubtree::from_json(&text), Ok(subtree));
}

// A place for text that takes no memory.
struct Nowhere;

impl std::fmt::Write for Nowhere {
    fn write_str(&mut self, _: &str) -> std::fmt::Result {
        Ok(())
    }
}

#[test]
fn debug_output_is_refused() {
    let subtree = MerkleHashSubtree::from_chunks(false, &nodes(60), false);
    assert_each_refusal(std::fmt::Error, || {
        std::fmt::Write::write_fmt(&mut Nowhere, format_args!("{subtree:?}"))
    });
}

#[test]
fn range_proofs_are_refused() {
    let nodes = nodes(60);
    assert_each_refusal(NO_MEMORY, || RangeProof::from_chunks(&nodes, 20..30));
    assert_each_refusal(NO_MEMORY, || HashTree::from_chunks(&nodes));
    let tree = HashTree::from_chunks(&nodes).unwrap();
    assert_each_refusal(NO_MEMORY, || tree.proof(20..30));
    let proof = tree.proof(20..30).unwrap();
    assert_each_refusal(NO_MEMORY, || proof.try_clone());
    assert_each_refusal(NO_MEMORY, || tree.try_clone());
    let opened = proof.clone().open_root(&tree.root()).unwrap();
    assert_each_refusal(NO_MEMORY, || opened.try_clone());
    assert_each_refusal(NO_MEMORY, || proof.to_json());
    let text = proof.to_json().unwrap();
    assert_each_refusal(NO_MEMORY, || RangeProof::from_json(&text));
    assert_eq!(RangeProof::from_json(&text).as_ref(), Ok(&proof));
    assert_each_refusal(NO_MEMORY, || proof.to_bytes());
    let bytes = proof.to_bytes().unwrap();
    assert_each_refusal(NO_MEMORY, || RangeProof::from_bytes(&bytes));
    // The proof comes back, so that it can be tried again.
    type Open = fn(RangeProof, &DataHash) -> Result<OpenedRange, OpenError>;
    let calls: [(Open, DataHash); 2] = [
        (RangeProof::open, tree.file_hash()),
        (RangeProof::open_root, tree.root()),
    ];
    for (open, hash) in calls {
        let mut kept = proof.clone();
        for before in 0.. {
            match with_refusal(before, || open(kept, &hash)) {
                (Err(OpenError { proof, fault }), true) => {
                    assert_eq!(fault, OpenFault::OutOfMemory);
                    kept = proof;
                }
                (answer, refused) => {
                    assert_eq!(
                        (answer.unwrap().begins(0), refused, before > 0),
                        (Some(20), false, true)
                    );
                    break;
                }
            }
        }
    }
}

// Where there is no memory, a chunk isn't kept. That is no error, since the reader is asked again.
#[test]
fn readers_are_refused() {
    let data = [&b"a chunk"[..], b"another", b"and a third"];
    let tree = HashTree::from_chunks(&data.map(|data| (compute_data_hash(data), data.len() as u64))).unwrap();
    let (hash, proof) = (tree.file_hash(), tree.proof(1..3).unwrap());
    assert_each_refusal(NO_MEMORY, || VerifiedReader::new(&hash, 1 << 20));
    let reader = VerifiedReader::new(&hash, 1 << 20).unwrap();
    assert_each_refusal(PartFault::OutOfMemory, || reader.open(&proof, 8..16, 1 << 20));
    let mut sums = Vec::new();
    for before in 0.. {
        let reader = VerifiedReader::new(&hash, 1 << 20).unwrap();
        let mut part = reader.open(&proof, 8..16, 1 << 20).unwrap();
        let (kept, refused) = with_refusal(before, || {
            assert_eq!(part.check(b"anotherand a third"), Some(&b"notheran"[..]));
            reader.take(part).unwrap();
            reader.counted()
        });
        sums.push(kept);
        if !refused {
            break;
        }
    }
    assert_eq!(sums.pop(), Some(18 + 2 * 128));
    // Each refusal loses one chunk.
    assert!(sums.iter().all(|kept| [7 + 128, 11 + 128].contains(kept)), "{sums:?}");
    assert!(sums.len() > 3, "{sums:?}");
}

#[cfg(feature = "serde")]
#[test]
fn forms_of_serde_are_refused() {
    // An error takes memory of its own, which is there again.
    fn is_no_memory(error: impl std::fmt::Display) -> bool {
        error.to_string().contains("out of memory")
    }
    let subtree = MerkleHashSubtree::from_chunks(false, &nodes(60), false);
    let (text, bytes) = (
        serde_json::to_string(&subtree).unwrap(),
        bincode::serialize(&subtree).unwrap(),
    );
    assert_each_refusal(true, || {
        serde_json::to_writer(std::io::sink(), &subtree).map_err(is_no_memory)
    });
    assert_each_refusal(true, || {
        bincode::serialize_into(std::io::sink(), &subtree).map_err(is_no_memory)
    });
    assert_each_refusal(true, || {
        serde_json::from_str::<MerkleHashSubtree>(&text).map_err(is_no_memory)
    });
    assert_each_refusal(true, || {
        bincode::deserialize::<MerkleHashSubtree>(&bytes).map_err(is_no_memory)
    });
    let mut session = Session::new();
    session.put(40, &nodes(20)).unwrap();
    session.put(7, &nodes(20)).unwrap();
    let (text, bytes) = (
        serde_json::to_string(&session).unwrap(),
        bincode::serialize(&session).unwrap(),
    );
    assert_each_refusal(true, || {
        serde_json::to_writer(std::io::sink(), &session).map_err(is_no_memory)
    });
    assert_each_refusal(true, || {
        bincode::serialize_into(std::io::sink(), &session).map_err(is_no_memory)
    });
    let proof = RangeProof::from_chunks(&nodes(60), 20..30).unwrap();
    let (json, binary) = (proof.to_json().unwrap(), bincode::serialize(&proof).unwrap());
    assert_each_refusal(true, || serde_json::from_str::<RangeProof>(&json).map_err(is_no_memory));
    assert_each_refusal(true, || {
        bincode::deserialize::<RangeProof>(&binary).map_err(is_no_memory)
    });
    assert_each_refusal(true, || serde_json::from_str::<Session>(&text).map_err(is_no_memory));
    assert_each_refusal(true, || bincode::deserialize::<Session>(&bytes).map_err(is_no_memory));
}

#[test]
fn a_refused_merge_changes_nothing() {
    let nodes = nodes(80);
    let ranges = [&nodes[..37], &nodes[37..]].map(|range| MerkleHashSubtree::from_chunks(false, range, false));
    let kept = ranges.clone();
    let whole = MerkleHashSubtree::from_chunks(false, &nodes, false);
    assert_each_refusal(NO_MEMORY, || MerkleHashSubtree::merge(&ranges));
    assert_eq!(ranges, kept);
    for before in 0.. {
        let mut merged = ranges[0].clone();
        let (answer, refused) = with_refusal(before, || merged.merge_into(&ranges[1]));
        assert_eq!(answer, if refused { Err(NO_MEMORY) } else { Ok(()) });
        assert_eq!(merged, if refused { kept[0].clone() } else { whole.clone() });
        let counted = with_refusal(before, || ranges[0].try_clone()?.merge_into_counted(&ranges[1]));
        assert_eq!(counted.0.is_err(), counted.1);
        if !refused {
            break;
        }
    }
    assert_eq!(ranges, kept);
}

#[test]
fn base64_is_refused() {
    let hash = DataHash::marker();
    let text = hash.base64();
    assert_each_refusal(NO_MEMORY, || hash.try_base64());
    assert_each_refusal(HashTextError::OutOfMemory, || DataHash::try_from_base64(&text));
}

#[test]
fn sessions_are_refused() {
    let nodes = nodes(60);
    assert_each_refusal(NO_MEMORY, Session::try_new);
    assert_each_refusal(SessionFault::OutOfMemory, || {
        Session::from_chunks(nodes.iter().copied())
    });
    let mut session = Session::new();
    session.put(40, &nodes[40..]).unwrap();
    for before in 0.. {
        let (answer, refused) = with_refusal(before, || session.put(0, &nodes[..40]));
        let expected = if refused {
            Err(SessionFault::OutOfMemory)
        } else {
            Ok(40)
        };
        assert_eq!(answer, expected);
        assert_eq!(session.taken(0), !refused);
        if !refused {
            break;
        }
    }
    assert_each_refusal(NO_MEMORY, || session.try_range(0));
    assert_each_refusal(NO_MEMORY, || session.try_run_from(59));
    assert_each_refusal(NO_MEMORY, || session.try_clone());
    let mut apart = Session::new();
    apart.put(50, &nodes[50..]).unwrap();
    apart.put(20, &nodes[20..30]).unwrap();
    assert_each_refusal(NO_MEMORY, || apart.gaps(70));
    assert_each_refusal(NO_MEMORY, || session.known_hashes());
    assert_each_refusal(NO_MEMORY, || session.to_json());
    let text = session.to_json().unwrap();
    assert_each_refusal(NO_MEMORY, || Session::from_json(&text));
    let (positions, range) = session.run_from(0).unwrap();
    let mut restored = Session::new();
    refuse_each(|| restored.push_run(positions.clone(), &range));
    assert_eq!(restored.total_size(), 60);
    let hashes: Vec<_> = nodes.iter().map(|node| node.0).collect();
    refuse_each(|| restored.keep_hashes(&hashes));
    assert_eq!(restored.known_hashes().unwrap().len(), 60);
    ranges_and_joins_are_refused(&nodes, &apart);
    assert_each_refusal(SessionFault::OutOfMemory, || session.root(60));
    assert_each_refusal(SessionFault::OutOfMemory, || session.finish(60));
    assert_each_refusal(SessionFault::OutOfMemory, || session.finish_with_salt(60, &[7; 32]));
    assert_eq!(session.finish(60), Ok(file_hash(&nodes)));
}

// That a refused call leaves a session as it was. The other session has the chunks from 20 to 29, and from 50 on.
fn ranges_and_joins_are_refused(nodes: &[Node], other: &Session) {
    let range = MerkleHashSubtree::from_chunks(false, &nodes[..20], false);
    let mut session = Session::new();
    session.put(30, &nodes[30..50]).unwrap();
    let state = |it: &Session| (it.num_runs(), it.total_size(), it.known_hashes());
    let (before, kept) = (state(&session), state(other));
    for requests in 0.. {
        let (answer, refused) = with_refusal(requests, || session.join(other));
        assert_eq!(
            answer,
            if refused {
                Err(SessionFault::OutOfMemory)
            } else {
                Ok(20)
            }
        );
        assert_eq!(state(other), kept);
        if !refused {
            assert!(requests > 0, "no request was made");
            break;
        }
        assert_eq!(state(&session), before);
    }
    assert_eq!((session.num_runs(), session.total_size()), (1, 40));
    for requests in 0.. {
        let (answer, refused) = with_refusal(requests, || session.put_range(0, 20, &range));
        assert_eq!(
            answer,
            if refused {
                Err(SessionFault::OutOfMemory)
            } else {
                Ok(())
            }
        );
        assert_eq!(session.taken(0), !refused);
        if !refused {
            assert!(requests > 0, "no request was made");
            break;
        }
    }
    assert_eq!(session.finish(60), Ok(file_hash(nodes)));
}

// That a refused call adds no hash, and that the same call adds all of them later.
#[test]
fn indexes_of_hashes_are_refused() {
    assert_each_refusal(NO_MEMORY, HashIndex::try_new);
    let hash = |i: u64| DataHash::from([i; 4]);
    let mut index = HashIndex::new();
    for (first, end) in [(0, 40), (40, 1000)] {
        for before in 0.. {
            let (answer, refused) = with_refusal(before, || index.insert((first..end).map(|i| (hash(i), i + 1))));
            assert_eq!(
                answer,
                if refused {
                    Err(NO_MEMORY)
                } else {
                    Ok((end - first) as usize)
                }
            );
            let len = if refused { first } else { end };
            assert_eq!(index.len(), len as usize);
            assert!((0..end).all(|i| index.get(&hash(i)) == (i < len).then_some(i + 1)));
            if !refused {
                assert!(before > 3, "{before}");
                break;
            }
        }
    }
    assert_each_refusal(NO_MEMORY, || index.entries());
    assert_each_refusal(NO_MEMORY, || index.try_clone());
    assert_eq!(index.len(), 1000);
}

// That a refused call takes nothing of a piece, and that the same call takes it later.
#[test]
fn file_hashers_are_refused() {
    assert_each_refusal(NO_MEMORY, FileHasher::try_new);
    let pattern = [0, 148, 143].repeat(2731 * 5000);
    let wanted = file_hash(&vec![(compute_data_hash(&pattern[..8193]), 8193); 5000]);
    let mut hasher = FileHasher::new();
    let mut refusals = 0;
    for piece in pattern.chunks(8_000_000) {
        let before = hasher.size();
        for request in 0.. {
            let (answer, refused) = with_refusal(request, || hasher.update(piece).map(drop));
            assert_eq!(answer, if refused { Err(NO_MEMORY) } else { Ok(()) });
            if !refused {
                break;
            }
            assert_eq!(hasher.size(), before);
            refusals += 1;
        }
    }
    assert!(refusals > 2, "{refusals}");
    assert_each_refusal(NO_MEMORY, || hasher.root());
    assert_each_refusal(NO_MEMORY, || hasher.file_hash());
    assert_each_refusal(NO_MEMORY, || hasher.file_hash_with_salt(&[7; 32]));
    assert_eq!(hasher.file_hash(), Ok(wanted));
    // Each request of a writer, which takes nothing then, either.
    let mut hasher = FileHasher::new();
    for request in 0.. {
        let (answer, refused) = with_refusal(request, || hasher.write(&pattern));
        if !refused {
            assert_eq!(answer.unwrap(), pattern.len());
            break;
        }
        assert_eq!(answer.unwrap_err().kind(), ErrorKind::OutOfMemory);
        assert_eq!(hasher.size(), 0);
    }
    assert_eq!(hasher.file_hash(), Ok(wanted));
}

#[test]
fn chunks_of_a_file_are_refused() {
    // Its first buffer ends in a chunk.
    let file = [0, 148, 143].repeat(400_000);
    assert_each_refusal(ErrorKind::OutOfMemory, || {
        let (mut chunks, mut count) = (own::chunks_of(&file[..]), 0);
        let refused = chunks.find_map(|chunk| {
            count += usize::from(chunk.is_ok());
            chunk.err()
        });
        assert!(chunks.next().is_none());
        refused.map_or(Ok(count), |error| Err(error.kind()))
    });
    let hashed = || own::hash_reader(&file[..], NonZeroUsize::MIN).map_err(|error| error.kind());
    let wanted = hashed().unwrap();
    // All that an empty file needs comes before this one is read. It can also be hashed without a buffer for what comes next.
    let (first, mut refusals) = (requests(|| _ = own::hash_reader(io::empty(), NonZeroUsize::MIN)), 0);
    for before in first.. {
        match with_refusal(before, hashed) {
            (Ok(hash), refused) => {
                assert_eq!(hash, wanted);
                if !refused {
                    break;
                }
            }
            (Err(kind), _) => {
                assert_eq!(kind, ErrorKind::OutOfMemory);
                refusals += 1;
            }
        }
    }
    assert!(refusals > 2, "{refusals}");
}

// A reader of so many chunks of 8193 bytes, each of which begins with its number.
struct Numbered {
    chunk: Vec<u8>,
    number: u64,
    place: usize,
}

impl Read for Numbered {
    fn read(&mut self, room: &mut [u8]) -> io::Result<usize> {
        if self.place == self.chunk.len() {
            (self.number, self.place) = (self.number - 1, 0);
        }
        if self.number == 0 {
            return Ok(0);
        }
        self.chunk[..8].copy_from_slice(&self.number.to_le_bytes());
        let count = (&self.chunk[self.place..]).read(room)?;
        self.place += count;
        Ok(count)
    }
}

// A list of their hashes would take 1.28 million bytes.
#[test]
fn memory_for_a_file_does_not_grow_with_it() {
    let file = || Numbered {
        chunk: [0, 148, 143].repeat(2731),
        number: 40_000,
        place: 0,
    };
    let count = |count: usize, _| count + 1;
    let greatest = greatest_request(|| assert_eq!(own::chunks_of(file()).fold(0, count), 40_000));
    // Its one buffer is used again.
    assert_eq!((greatest, OF_FILES.replace(0)), (OF_A_FILE, 1));
    let greatest = greatest_request(|| _ = own::hash_reader(file(), NonZeroUsize::MIN).unwrap());
    assert_eq!((greatest, OF_FILES.replace(0)), (OF_A_FILE, 1));
    let path = env::temp_dir().join(format!("yurewha-memory-{}", process::id()));
    File::create(&path).unwrap().set_len(32 << 20).unwrap();
    let greatest = greatest_request(|| _ = own::hash_file(&path, NonZeroUsize::MIN).unwrap());
    fs::remove_file(path).unwrap();
    assert_eq!((greatest, OF_FILES.get()), (OF_A_FILE, 1));
}

#[test]
fn an_index_takes_room_for_the_entries_that_come() {
    let mut index = HashIndex::new();
    let entries = Announced((0..1000).map(|i| (DataHash::from([i; 4]), i)));
    let greatest = greatest_request(|| assert_eq!(index.insert(entries), Ok(1000)));
    assert!((32_000..1 << 20).contains(&greatest), "{greatest}");
}

// Pairs that announce more than come.
struct Announced<I>(I);

impl<I: Iterator> Iterator for Announced<I> {
    type Item = I::Item;

    fn next(&mut self) -> Option<I::Item> {
        self.0.next()
    }

    fn size_hint(&self) -> (usize, Option<usize>) {
        (1 << 24, None)
    }
}

#[test]
fn a_map_takes_room_for_the_keys_that_come() {
    let greatest = greatest_request(|| {
        let map: PassThroughHashMap<u64, u64> = Announced((0..1000).map(|key| (key, key))).collect();
        assert_eq!(map.len(), 1000);
    });
    assert!((16_000..1 << 20).contains(&greatest), "{greatest}");
}

// Its greatest list is of a few thousand chunks, of 40 bytes each.
#[test]
fn a_session_of_an_iterator_does_not_keep_its_chunks() {
    let chunks = (0..100_000).map(|seed| (DataHash::from([seed; 4]), 1));
    let greatest = greatest_request(|| assert_eq!(Session::from_chunks(chunks).unwrap().num_chunks(), 100_000));
    assert!(greatest < 400_000, "{greatest}");
}

// Its nodes take 40 bytes each, and twice that while their vector grows; their text would take more than 100.
#[cfg(feature = "serde")]
#[test]
fn a_proof_that_is_read_takes_no_room_for_its_text() {
    let proof = RangeProof::from_chunks(&nodes(10_000), 0..10_000).unwrap();
    let bytes = bincode::serialize(&proof).unwrap();
    let greatest = greatest_request(|| assert!(bincode::deserialize::<RangeProof>(&bytes).unwrap() == proof));
    assert!((400_000..900_000).contains(&greatest), "{greatest}");
}

#[test]
fn a_value_that_is_dropped_frees_its_memory() {
    let nodes = nodes(60);
    let left = blocks_left(|| {
        let mut subtree = MerkleHashSubtree::from_chunks(true, &nodes[..20], false);
        let rest = MerkleHashSubtree::from_chunks(false, &nodes[20..], false);
        subtree.merge_into(&rest).unwrap();
        assert!(rest.clone().merge_into(&subtree).is_err());
        let _ = MerkleHashSubtree::merge(&[subtree.clone(), rest.clone()]).unwrap();
        let _ = MerkleHashSubtree::from_json(&subtree.to_json().unwrap()).unwrap();
        let mut session = Session::new();
        session.put(10, &nodes[10..]).unwrap();
        session.put(0, &nodes[..10]).unwrap();
        assert_eq!(session.clone().runs().count(), 1);
        let tree = HashTree::from_chunks(&nodes).unwrap();
        let proof = tree.clone().proof(7..9).unwrap();
        assert!(proof.clone().open_root(&DataHash::marker()).is_err());
        assert_eq!(proof.open_root(&tree.root()).unwrap().clone().num_chunks(), 2);
        assert_eq!(session.finish(60), Ok(file_hash(&nodes)));
        assert!(Session::from_json(&session.to_json().unwrap()).unwrap() == session);
        assert!(HashIndex::new().is_empty());
        let mut index = HashIndex::new();
        index.insert(nodes.iter().copied()).unwrap();
        index.insert([(DataHash::marker(), 7)]).unwrap();
        assert_eq!(index.clone().get(&DataHash::marker()), Some(7));
        assert_eq!(index.entries().unwrap().len(), 61);
        let mut file = FileHasher::new();
        file.write_all(&[0, 148, 143].repeat(6000)).unwrap();
        assert_eq!(own::chunks_of(&[7; 1000][..]).count(), 1);
        assert!(own::hash_reader(&[7; 1000][..], NonZeroUsize::MIN).unwrap() != file.file_hash().unwrap());
        let reader = VerifiedReader::new(&tree.file_hash(), 1 << 20).unwrap();
        let mut part = reader.open(&tree.proof(7..9).unwrap(), 7..9, 0).unwrap();
        assert!(part.check(b"??").is_none() && reader.take(part).is_ok());
        assert!(VerifiedReader::new(&DataHash::marker(), 0)
            .unwrap()
            .take(reader.open(&tree.proof(7..9).unwrap(), 7..9, 0).unwrap())
            .is_err());
    });
    assert_eq!(left, 0);
    // What a panic drops is freed, too.
    let left = blocks_left(|| {
        let caught = catch_unwind(|| {
            let _subtree = MerkleHashSubtree::from_chunks(true, &nodes, false);
            let _tree = HashTree::from_chunks(&nodes).unwrap();
            panic::resume_unwind(Box::new(()));
        });
        assert!(caught.is_err());
    });
    assert_eq!(left, 0);
    let kept = blocks_left(|| std::mem::forget(MerkleHashSubtree::from_chunks(true, &nodes, false)));
    assert!(kept > 0);
}

// Keeps the file of each panic of a thread in `PLACE`.
fn keep_places() {
    static HOOK: Once = Once::new();
    HOOK.call_once(|| {
        let before = panic::take_hook();
        panic::set_hook(Box::new(move |info| {
            PLACE.set(info.location().map(|place| place.file().to_owned()));
            before(info);
        }));
    });
}

// The message of the panic of a call, the first request of which is refused. Its place is in this file.
fn panic_of<T: Debug>(call: impl FnOnce() -> T) -> String {
    keep_places();
    let (answer, refused) = with_refusal(0, || catch_unwind(AssertUnwindSafe(call)));
    assert!(refused);
    assert_eq!(PLACE.take().as_deref(), Some(file!()));
    *answer.unwrap_err().downcast().unwrap()
}

#[test]
fn calls_without_a_result_name_call_and_cause_in_a_panic() {
    let nodes = nodes(60);
    let subtree = MerkleHashSubtree::from_chunks(false, &nodes, false);
    let mut session = Session::new();
    session.put(0, &nodes).unwrap();
    let base64 = DataHash::marker().base64();
    assert_eq!(panic_of(|| xorb_hash(&nodes)), "xorb_hash: out of memory");
    assert_eq!(panic_of(|| file_hash(&nodes)), "file_hash: out of memory");
    assert_eq!(
        panic_of(|| MerkleHashSubtree::from_chunks(true, &nodes, true)),
        "MerkleHashSubtree::from_chunks: out of memory"
    );
    assert_eq!(panic_of(|| subtree.clone()), "MerkleHashSubtree::clone: out of memory");
    assert_eq!(
        panic_of(|| DataHash::marker().base64()),
        "DataHash::base64: out of memory"
    );
    assert_eq!(
        panic_of(|| DataHash::from_base64(&base64)),
        "DataHash::from_base64: out of memory"
    );
    assert_eq!(panic_of(|| drop(Session::new())), "Session::new: out of memory");
    assert_eq!(panic_of(|| drop(Session::default())), "Session::new: out of memory");
    assert_eq!(panic_of(|| drop(HashIndex::new())), "HashIndex::new: out of memory");
    assert_eq!(panic_of(|| drop(HashIndex::default())), "HashIndex::new: out of memory");
    let mut index = HashIndex::new();
    index.insert(nodes.iter().copied()).unwrap();
    assert_eq!(panic_of(|| index.clone()), "HashIndex::clone: out of memory");
    assert_eq!(panic_of(|| index == index), "HashIndex::eq: out of memory");
    assert_eq!(panic_of(|| drop(FileHasher::new())), "FileHasher::new: out of memory");
    assert_eq!(
        panic_of(|| drop(FileHasher::default())),
        "FileHasher::new: out of memory"
    );
    assert_eq!(panic_of(|| session.range(0)), "Session::range: out of memory");
    assert_eq!(panic_of(|| session.run_from(0)), "Session::run_from: out of memory");
    assert_eq!(panic_of(|| session.clone()), "Session::clone: out of memory");
    assert_eq!(panic_of(|| session == session), "Session::eq: out of memory");
    let proof = RangeProof::from_chunks(&nodes, 20..30).unwrap();
    assert_eq!(panic_of(|| proof.clone()), "RangeProof::clone: out of memory");
    let tree = HashTree::from_chunks(&nodes).unwrap();
    assert_eq!(panic_of(|| tree.clone()), "HashTree::clone: out of memory");
    let range = proof.open_root(&tree.root()).unwrap();
    assert_eq!(panic_of(|| range.clone()), "OpenedRange::clone: out of memory");
    assert_eq!(
        panic_of(|| drop(MerkleHashSubtree::default())),
        "MerkleHashSubtree::from_chunks: out of memory"
    );
}

// A proof is made of one block for its levels, one for its nodes, and those of the library. Both threads wait in the first
// of these, so neither has locked the other out.
#[test]
fn proofs_of_one_tree_are_made_at_once() {
    let tree = HashTree::from_chunks(&nodes(60)).unwrap();
    thread::scope(|scope| {
        for first in [20, 30] {
            let tree = &tree;
            scope.spawn(move || {
                BEFORE_MEETING.set(Some(2));
                let proof = tree.proof(first..first + 10);
                assert!(BEFORE_MEETING.get().is_none() && HAS_MET.get());
                assert_eq!(
                    proof.unwrap().open_root(&tree.root()).unwrap().begins(0),
                    Some(first as u64)
                );
            });
        }
    });
}

#[test]
fn buffers_are_two_for_each_other_thread_and_one() {
    for (threads, most) in [(1, 1), (2, 3), (3, 5)] {
        BUFFERS.store(0, Ordering::SeqCst);
        ARE_HELD_UP.store(true, Ordering::SeqCst);
        let chunks = own::hash_chunks(io::repeat(0), [HELD_LENGTH; 50], NonZeroUsize::new(threads).unwrap()).unwrap();
        let node = (compute_data_hash(&[0; HELD_LENGTH]), HELD_LENGTH as u64);
        assert_eq!(chunks, [node; 50]);
        assert_eq!(
            ARE_HELD_UP.swap(false, Ordering::SeqCst),
            threads == 1,
            "no other thread hashed"
        );
        // Each other thread hashes one, as many wait, and this one has one.
        let buffers = BUFFERS.load(Ordering::SeqCst);
        assert!((1..=most).contains(&buffers), "{buffers}");
        OF_FILES.set(0);
        ARE_HELD_UP.store(true, Ordering::SeqCst);
        let zeros = io::repeat(0).take(50 * OF_A_FILE as u64);
        let hash = own::hash_reader(zeros, NonZeroUsize::new(threads).unwrap()).unwrap();
        // Each chunk is as long as any may be.
        assert_eq!(hash, file_hash(&[(compute_data_hash(&[0; 1 << 17]), 1 << 17); 400]));
        let held_up = ARE_HELD_UP.swap(false, Ordering::SeqCst);
        assert_eq!(held_up, threads == 1, "no other thread hashed a file");
        assert!((1..=most).contains(&OF_FILES.get()), "{}", OF_FILES.get());
    }
}

// It makes few requests beside those for the data: for what it returns.
#[test]
fn buffers_of_chunks_are_used_again_unless_they_are_long() {
    let hashed = |length: usize, count: usize| {
        let lengths = vec![length; count];
        let chunks = own::hash_chunks(io::repeat(0), lengths, NonZeroUsize::MIN).unwrap();
        assert_eq!(
            chunks,
            vec![(compute_data_hash(&vec![0; length]), length as u64); count]
        );
    };
    let of_short = requests(|| hashed(1000, 2000));
    assert!(of_short < 200, "{of_short}");
    // The buffer of each gets room seven times, from 64 KiB on, and isn't used again.
    let of_long = requests(|| hashed(3 << 20, 12));
    assert!((84..200).contains(&of_long), "{of_long}");
}

#[test]
fn other_calls_take_no_memory() {
    let nodes = nodes(60);
    let subtree = MerkleHashSubtree::from_chunks(true, &nodes, true);
    let copy = subtree.clone();
    let mut session = Session::new();
    session.put(0, &nodes).unwrap();
    let (tree, xorb_root) = (HashTree::from_chunks(&nodes).unwrap(), xorb_hash(&nodes));
    let shorter = HashTree::from_chunks(&nodes[..50]).unwrap();
    let mut index = HashIndex::new();
    index.insert(nodes.iter().copied()).unwrap();
    let chunks = [&b"a chunk"[..], b"another", b"and a third"].map(|data| (compute_data_hash(data), data.len() as u64));
    let range = RangeProof::from_chunks(&chunks, 1..2)
        .unwrap()
        .open(&file_hash(&chunks))
        .unwrap();
    let text = DataHash::marker().hex();
    let reader = VerifiedReader::new(&file_hash(&chunks), 1 << 20).unwrap();
    let mut part = reader.open(range.proof(), 8..10, 1 << 20).unwrap();
    let file = FileHasher::new();
    let taken = requests(|| {
        let hash = DataHash::random_from_seed(1);
        let bytes: [u8; 32] = hash.into();
        assert!(DataHash::from(bytes) == hash && hash <= DataHash::marker() && hash % 7 < 7);
        assert!(DataHash::from_hex(&text).is_ok());
        let mut hasher = own::Hasher::new_keyed(&bytes);
        hasher.update_reader(text.as_bytes()).unwrap();
        hasher.reset().update(hash.as_bytes());
        assert!(hasher.finalize() == hash.hmac(hash));
        assert!(compute_data_hash(&bytes) != compute_internal_node_hash(&bytes));
        assert!(try_xorb_hash(&nodes[..1]).is_ok());
        assert!(subtree == copy && subtree.at_start() && subtree.at_end());
        assert!(subtree.final_hash().is_some());
        assert!(subtree.total_size() == 60 && subtree.num_nodes() == 1 && subtree.num_levels() > 1);
        assert!(session.taken(0) && session.num_runs() == 1 && session.total_size() == 60);
        assert!(session.num_chunks() == 60 && subtree.file_hash() != subtree.file_hash_with_salt(&bytes));
        assert!(find_stable_start(&nodes) <= find_stable_end(&nodes));
        assert!(try_find_stable_start(&nodes).is_ok() && try_find_stable_end(&nodes).is_ok());
        assert!(tree.root() == xorb_root && tree.file_hash() != tree.file_hash_with_salt(&bytes));
        assert!(tree.diff(&shorter).is_some_and(|found| found.first == 50) && tree.diff(&tree).is_none());
        assert!(index.get(&nodes[7].0) == Some(1) && !index.contains(&hash) && index.len() == 60);
        assert!(tree.chunks_at(7..9) == Some(7..9) && tree.bytes_of(7..9) == Some(7..9) && tree.num_chunks() == 60);
        assert!(range.begins(0) == Some(7) && range.ends(0) == Some(14) && range.file_size() == 25);
        assert!(range.check(0, b"another") == Some(7) && range.check(0, b"a chunk").is_none());
        assert!(range.read(8..10, b"another").is_some() && range.num_chunks() == 1 && range.proof().num_levels() == 1);
        assert!(part.check_only(b"another").is_some() && part.checked() == (1, 14) && part.file_size() == 25);
        assert!(reader.needs(8..10, 1) == Some(8..9) && reader.size().is_none() && reader.counted() == 0);
        reader.keep_at_most(1 << 21);
        let mut chunker = Chunker::new();
        assert!(chunker.next_boundary(&bytes).is_none() && chunker.taken() == 32 && file.size() == 0);
    });
    assert_eq!(taken, 0);
}

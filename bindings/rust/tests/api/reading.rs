//! Chunks of a reader, hashed on several threads.

use std::io::{self, ErrorKind, Read};
use std::num::NonZeroUsize;
use yurewha::merklehash::{compute_data_hash, file_hash};
use yurewha::own::{chunks_of, hash_chunks, hash_reader, Node};

// Some bytes, which are the same in every run.
fn bytes(length: usize) -> Vec<u8> {
    (0..length).map(|place| (place * 7 + (place >> 8)) as u8).collect()
}

// The nodes of chunks of these lengths, hashed one by one.
fn nodes(data: &[u8], lengths: &[usize]) -> Vec<Node> {
    let mut rest = data;
    let mut node = |length: &usize| {
        let (chunk, after) = rest.split_at(*length);
        rest = after;
        (compute_data_hash(chunk), chunk.len() as u64)
    };
    lengths.iter().map(&mut node).collect()
}

fn threads(count: usize) -> NonZeroUsize {
    NonZeroUsize::new(count).unwrap()
}

// A reader that gives a few bytes at a time, is interrupted before each, and ends with an error.
struct Broken<'a>(&'a [u8], bool);

impl Read for Broken<'_> {
    fn read(&mut self, room: &mut [u8]) -> io::Result<usize> {
        self.1 = !self.1;
        if self.1 {
            return Err(ErrorKind::Interrupted.into());
        }
        if self.0.is_empty() {
            return Err(ErrorKind::BrokenPipe.into());
        }
        let most = room.len().min(1000);
        self.0.read(&mut room[..most])
    }
}

#[test]
fn chunks_of_a_reader_have_their_hashes_in_order() {
    let data = bytes(700_000);
    let long_between_short: Vec<_> = (0..100).map(|k| if k % 7 == 3 { 20_000 } else { k }).collect();
    for lengths in [
        vec![],
        vec![0],
        vec![700_000],
        vec![0, 1, 0, 65_536, 0],
        vec![100; 7000],
        long_between_short,
    ] {
        let wanted = nodes(&data, &lengths);
        for count in [1, 2, 5, 40] {
            let found = hash_chunks(&data[..], lengths.iter().copied(), threads(count)).unwrap();
            assert_eq!(found, wanted);
        }
        let total: usize = lengths.iter().sum();
        let found = hash_chunks(Broken(&data[..total], false), lengths.iter().copied(), threads(3)).unwrap();
        assert_eq!(file_hash(&found), file_hash(&wanted));
    }
}

// How many threads hash chunks, also those that wait for them.
#[cfg(target_os = "linux")]
fn hashing_threads() -> usize {
    let tasks = std::fs::read_dir("/proc/self/task").unwrap();
    // A thread may end before its name is read.
    let names = tasks.filter_map(|task| std::fs::read_to_string(task.ok()?.path().join("comm")).ok());
    names.filter(|name| name == "yurewha\n").count()
}

// More threads than all other tests here have together.
#[cfg(target_os = "linux")]
#[test]
fn so_many_threads_hash_as_are_asked_for() {
    let mut are_there = false;
    // The system may let threads begin late, so the last chunk waits for them. This thread is the hundredth.
    let lengths = (0..200).map(|number| {
        are_there = number == 199 && (0..10_000).any(|_| hashing_threads() >= 99);
        10
    });
    hash_chunks(io::repeat(0), lengths, threads(100)).unwrap();
    assert!(are_there);
}

#[test]
fn there_are_no_more_threads_and_no_more_room_than_chunks() {
    for count in [1 << 32, 1 << 50, usize::MAX] {
        assert_eq!(hash_chunks(&b""[..], [], threads(count)).unwrap(), []);
        let wanted = nodes(b"a chunkanother", &[7, 7]);
        assert_eq!(
            hash_chunks(&b"a chunkanother"[..], [7, 7], threads(count)).unwrap(),
            wanted
        );
        assert!(hash_chunks(&b"a chunkanother"[..], [7, 8], threads(count)).is_err());
    }
}

#[test]
fn what_comes_after_the_last_chunk_is_left_in_the_reader() {
    let mut rest = &b"a chunkanother"[..];
    assert_eq!(hash_chunks(&mut rest, [7], threads(2)).unwrap().len(), 1);
    assert_eq!(rest, b"another");
}

#[test]
fn a_reader_that_ends_or_breaks_is_an_error() {
    let data = bytes(1000);
    for (lengths, number) in [
        (vec![1001], 0),
        (vec![400, 600, 1], 2),
        (vec![400, 700], 1),
        (vec![usize::MAX], 0),
    ] {
        let error = hash_chunks(&data[..], lengths.iter().copied(), threads(2)).unwrap_err();
        assert_eq!(error.kind(), ErrorKind::UnexpectedEof);
        assert_eq!(
            error.to_string(),
            format!("the data ends before chunk {number} is whole")
        );
        let error = hash_chunks(Broken(&data, false), lengths, threads(2)).unwrap_err();
        assert_eq!(error.kind(), ErrorKind::BrokenPipe);
    }
}

// A reader that says that it read a byte more than there was room for. It read none.
struct Boasting;

impl Read for Boasting {
    fn read(&mut self, room: &mut [u8]) -> io::Result<usize> {
        Ok(room.len() + 1)
    }
}

#[test]
fn a_reader_that_says_that_it_read_more_than_it_had_room_for_is_refused() {
    let calls: [fn(); 3] = [
        || _ = hash_chunks(Boasting, [7, 7], threads(1)),
        || _ = hash_reader(Boasting, threads(1)),
        || _ = chunks_of(Boasting).next(),
    ];
    for call in calls {
        let caught = std::panic::catch_unwind(call).unwrap_err();
        let wanted = "a reader says that it read more than it had room for";
        assert_eq!(caught.downcast_ref(), Some(&wanted));
    }
}

#[test]
fn a_reader_that_panics_leaves_no_thread_waiting() {
    struct Panicking;
    impl Read for Panicking {
        fn read(&mut self, _: &mut [u8]) -> io::Result<usize> {
            panic!("by a reader")
        }
    }
    let reader = (&b"a chunkanother"[..]).chain(Panicking);
    let caught = std::panic::catch_unwind(|| hash_chunks(reader, [7, 7, 7], threads(2)));
    assert_eq!(caught.unwrap_err().downcast_ref(), Some(&"by a reader"));
}

//! Writers that hash what was taken.

use std::io::{self, ErrorKind, Write};
use yurewha::merklehash::{compute_data_hash, HashedWrite};

// A writer that takes three bytes a call, is interrupted at each other call, and fails where it is full.
#[derive(Default)]
struct Slow {
    taken: Vec<u8>,
    room: usize,
    calls: usize,
    flushes: usize,
}

impl Write for Slow {
    fn write(&mut self, slice: &[u8]) -> io::Result<usize> {
        self.calls += 1;
        if self.calls % 2 == 0 {
            return Err(ErrorKind::Interrupted.into());
        }
        if self.taken.len() >= self.room {
            return Err(ErrorKind::WriteZero.into());
        }
        let count = slice.len().min(3);
        self.taken.extend(&slice[..count]);
        Ok(count)
    }

    fn flush(&mut self) -> io::Result<()> {
        self.flushes += 1;
        Ok(())
    }
}

fn slow(room: usize) -> HashedWrite<Slow> {
    HashedWrite::new(Slow {
        room,
        ..Slow::default()
    })
}

#[test]
fn the_hash_is_that_of_what_was_written() {
    let data = vec![7; 1025];
    let mut writer = slow(usize::MAX);
    writer.write_all(&data).unwrap();
    writer.flush().unwrap();
    assert_eq!(writer.hash(), compute_data_hash(&data));
    let inner = writer.into_inner();
    assert_eq!((inner.taken, inner.flushes), (data, 1));
}

#[test]
fn a_short_write_hashes_the_beginning_alone() {
    let mut writer = slow(usize::MAX);
    assert_eq!(writer.hash(), compute_data_hash(b""));
    assert_eq!(writer.write(b"abcdef").unwrap(), 3);
    assert_eq!(writer.hash(), compute_data_hash(b"abc"));
}

#[test]
fn a_failed_write_hashes_nothing() {
    let mut writer = slow(3);
    assert_eq!(writer.write(b"abcdef").unwrap(), 3);
    assert_eq!(writer.write(b"def").unwrap_err().kind(), ErrorKind::Interrupted);
    assert_eq!(writer.write(b"def").unwrap_err().kind(), ErrorKind::WriteZero);
    assert_eq!(writer.hash(), compute_data_hash(b"abc"));
    assert_eq!(writer.into_inner().taken, b"abc");
}

// A writer that claims more than it was given.
struct Boaster;

impl Write for Boaster {
    fn write(&mut self, slice: &[u8]) -> io::Result<usize> {
        Ok(slice.len() + 10)
    }

    fn flush(&mut self) -> io::Result<()> {
        Ok(())
    }
}

#[test]
fn no_more_than_the_slice_is_hashed() {
    let mut writer = HashedWrite::new(Boaster);
    assert_eq!(writer.write(b"abc").unwrap(), 13);
    assert_eq!(writer.hash(), compute_data_hash(b"abc"));
}

#[test]
fn it_shows_itself_where_its_writer_does() {
    let writer = HashedWrite::new(Vec::<u8>::new());
    assert_eq!(
        format!("{writer:?}"),
        "HashedWrite { hasher: Hasher { count: 0, .. }, writer: [] }"
    );
}

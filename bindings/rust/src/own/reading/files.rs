//! Files, cut into chunks and hashed.

use super::super::{Chunker, Node, Session, SessionFault};
use super::filled;
use super::queue::{unpoisoned, Queue};
use crate::error::CoreError;
use crate::ffi;
use crate::lent_chunks::{room, zeros};
use crate::merklehash::MerkleHash;
use crate::status::done;
use std::fs::File;
use std::io::{self, ErrorKind, Read};
use std::iter;
use std::mem;
use std::num::NonZeroUsize;
use std::path::Path;
use std::sync::Mutex;

// How many bytes a batch has, unless the file ends. No chunk has so many.
const BATCH: usize = 1 << 20;

// The fewest bytes of a chunk that isn't the last.
const LEAST: usize = 8 << 10;

/// Returns the hash by which Xet names a file. It reads the file once, in order, and hashes its chunks on the given number of threads.
/// The calling thread is one of them: it reads, and finds where chunks end. Memory doesn't grow with the file. Each thread takes fewer than
/// two buffers of a MiB.
///
/// ```
/// use std::num::NonZeroUsize;
/// use std::thread::available_parallelism;
/// use yurewha::own::hash_file;
///
/// println!("{}", hash_file("Cargo.toml", available_parallelism().unwrap_or(NonZeroUsize::MIN))?);
/// # Ok::<(), std::io::Error>(())
/// ```
///
/// # Errors
///
/// Each names the file.
///
/// - the error of opening or reading it
/// - an error if it is a regular file, and doesn't have the same length as it is opened, as it is read, and after that
/// - those of [`hash_reader`]
pub fn hash_file(path: impl AsRef<Path>, threads: NonZeroUsize) -> io::Result<MerkleHash> {
    let path = path.as_ref();
    let hashed = File::open(path).and_then(|file| hash_opened(&file, &file, threads));
    hashed.map_err(|error| io::Error::new(error.kind(), format!("{}: {error}", path.display())))
}

// Hashes an open file, which this reader reads.
fn hash_opened(file: &File, reader: impl Read, threads: NonZeroUsize) -> io::Result<MerkleHash> {
    let before = file.metadata()?;
    let session = session_of(reader, threads)?;
    if before.is_file() && [session.total_size(), file.metadata()?.len()] != [before.len(); 2] {
        return Err(io::Error::other("its length changed while it was read"));
    }
    finished(&session)
}

/// Does what [`hash_file`] does, with all that a reader gives.
///
/// ```
/// use std::num::NonZeroUsize;
/// use yurewha::own::{hash_reader, FileHasher};
///
/// let file = [0, 148, 143].repeat(6000);
/// let hash = hash_reader(&file[..], NonZeroUsize::new(2).unwrap())?;
/// assert_eq!(hash, FileHasher::new().update(&file)?.file_hash()?);
/// # Ok::<(), Box<dyn std::error::Error>>(())
/// ```
///
/// # Errors
///
/// - the error of the reader, unless it was interrupted, which is repeated
/// - the error of starting a thread
/// - [`OutOfMemory`](ErrorKind::OutOfMemory) if an allocation fails
/// - [`InvalidInput`](ErrorKind::InvalidInput) if there are more than `u64::MAX` bytes
pub fn hash_reader(reader: impl Read, threads: NonZeroUsize) -> io::Result<MerkleHash> {
    finished(&session_of(reader, threads)?)
}

/// Returns the chunks into which Xet cuts all that a reader gives, in order. It reads a MiB at a time, and keeps no more than that. An
/// error is the last item.
///
/// ```
/// use yurewha::merklehash::file_hash;
/// use yurewha::own::{chunks_of, FileHasher};
///
/// let file = [0, 148, 143].repeat(6000);
/// let chunks = chunks_of(&file[..]).collect::<Result<Vec<_>, _>>()?;
/// assert_eq!(chunks.iter().map(|chunk| chunk.1).collect::<Vec<_>>(), [8193, 8193, 1614]);
/// assert_eq!(file_hash(&chunks), FileHasher::new().update(&file)?.file_hash()?);
/// # Ok::<(), Box<dyn std::error::Error>>(())
/// ```
///
/// # Errors
///
/// - the error of the reader, unless it was interrupted, which is repeated
/// - [`OutOfMemory`](ErrorKind::OutOfMemory) if an allocation fails
pub fn chunks_of(reader: impl Read) -> impl Iterator<Item = io::Result<Node>> {
    let mut batches = Batches::new(reader);
    let (mut nodes, mut spare) = (Vec::new().into_iter(), Vec::new());
    let mut next = move || loop {
        if let Some(node) = nodes.next() {
            return Ok(Some(node));
        }
        let Some(batch) = batches.next(mem::take(&mut spare))? else {
            return Ok(None);
        };
        nodes = batch.nodes()?.into_iter();
        spare = batch.data;
    };
    let mut goes_on = true;
    iter::from_fn(move || {
        let item = goes_on.then(|| next().transpose()).flatten();
        goes_on = matches!(item, Some(Ok(_)));
        item
    })
}

// The chunks of a file at their places.
fn session_of(reader: impl Read, threads: NonZeroUsize) -> io::Result<Session> {
    let session = Mutex::new(Session::try_without_hashes().map_err(no_memory)?);
    let (queue, mut batches) = (Queue::new(), Batches::new(reader));
    let hash = |batch: Batch| {
        let nodes = batch.nodes();
        queue.keep(batch.data);
        let mut session = unpoisoned(session.lock());
        nodes
            .and_then(|nodes| session.put(batch.first, &nodes).map_err(failed))
            .err()
    };
    let tasks = iter::from_fn(|| batches.next(queue.buffer()).transpose());
    match queue.on_threads(tasks, hash, threads)?.pop() {
        Some(error) => Err(error),
        None => Ok(unpoisoned(session.into_inner())),
    }
}

// The file hash of all chunks of a session.
fn finished(session: &Session) -> io::Result<MerkleHash> {
    session.finish(session.num_chunks()).map_err(failed)
}

fn failed(fault: SessionFault) -> io::Error {
    match fault {
        SessionFault::OutOfMemory => ErrorKind::OutOfMemory.into(),
        _ => io::Error::new(ErrorKind::InvalidInput, fault),
    }
}

fn no_memory(_: CoreError) -> io::Error {
    ErrorKind::OutOfMemory.into()
}

// Chunks of a file that follow one another.
struct Batch {
    // How many chunks come before them.
    first: u64,
    // A buffer with their data.
    data: Vec<u8>,
    // Where each begins in it, and where the last one ends.
    offsets: Vec<usize>,
}

impl Batch {
    fn nodes(&self) -> io::Result<Vec<Node>> {
        let mut hashes: Vec<MerkleHash> = zeros(self.offsets.len() - 1).map_err(no_memory)?;
        let (data, offsets, count) = (&self.data, &self.offsets, hashes.len());
        // SAFETY: bytes, offsets and hashes of their numbers.
        done::<CoreError>(unsafe {
            ffi::yurewha_data_hashes(
                data.as_ptr(),
                data.len(),
                offsets.as_ptr(),
                offsets.len(),
                hashes.as_mut_ptr().cast(),
                count,
            )
        })
        .expect("the offsets rise up to the end of the buffer");
        let mut nodes = room(count).map_err(no_memory)?;
        let sizes = offsets.windows(2).map(|ends| (ends[1] - ends[0]) as u64);
        nodes.extend(hashes.into_iter().zip(sizes));
        Ok(nodes)
    }
}

// The chunks of a file, read in batches.
struct Batches<R> {
    reader: R,
    chunker: Chunker,
    // The chunk that is open after the last batch. The chunker has taken it.
    rest: Vec<u8>,
    num_chunks: u64,
    has_ended: bool,
}

impl<R: Read> Batches<R> {
    fn new(reader: R) -> Self {
        Batches {
            reader,
            chunker: Chunker::new(),
            rest: Vec::new(),
            num_chunks: 0,
            has_ended: false,
        }
    }

    // Reads the next batch into a buffer, or returns `None` after the end of the file.
    fn next(&mut self, mut data: Vec<u8>) -> io::Result<Option<Batch>> {
        if self.has_ended {
            return Ok(None);
        }
        let count = filled(&mut self.rest[..].chain(&mut self.reader), &mut data, BATCH)?;
        self.has_ended = count < BATCH;
        let offsets = self.offsets(&data[..count]).map_err(no_memory)?;
        let rest = &data[offsets[offsets.len() - 1]..count];
        self.rest.clear();
        self.rest.try_reserve(rest.len()).map_err(|_| ErrorKind::OutOfMemory)?;
        self.rest.extend_from_slice(rest);
        let first = self.num_chunks;
        self.num_chunks += (offsets.len() - 1) as u64;
        Ok(Some(Batch { first, data, offsets }))
    }

    // Where the chunks of a batch begin, and where the last one ends. The batch begins with the open chunk.
    fn offsets(&mut self, data: &[u8]) -> Result<Vec<usize>, CoreError> {
        let (mut offsets, mut place) = (room(BATCH / LEAST + 2)?, self.rest.len());
        offsets.push(0);
        while let Some(end) = self.chunker.next_boundary(&data[place..]) {
            place += end;
            offsets.push(place);
        }
        if self.has_ended && self.chunker.taken() > 0 {
            offsets.push(data.len());
        }
        Ok(offsets)
    }
}

#[cfg(test)]
mod tests {
    use super::*;
    use std::io::Seek;
    use std::{env, fs, process};

    // No test can read so much.
    #[test]
    fn a_file_that_is_too_long_is_no_lack_of_memory() {
        assert_eq!(failed(SessionFault::Sizes).kind(), ErrorKind::InvalidInput);
        assert_eq!(failed(SessionFault::OutOfMemory).kind(), ErrorKind::OutOfMemory);
    }

    // A reader of a file whose length is changed once so many bytes were read.
    struct Changing<'a> {
        file: &'a File,
        after: u64,
        length: u64,
    }

    impl Read for Changing<'_> {
        fn read(&mut self, room: &mut [u8]) -> io::Result<usize> {
            if self.file.stream_position()? >= self.after {
                self.file.set_len(self.length)?;
            }
            self.file.read(room)
        }
    }

    // What hashing comes to, of a file of so many bytes whose length is changed once so many were read, if at most so many are.
    fn hash_changing(name: &str, before: u64, (after, length): (u64, u64), most: u64) -> io::Result<MerkleHash> {
        let path = env::temp_dir().join(format!("yurewha-{name}-{}", process::id()));
        let file = File::options().read(true).write(true).create_new(true).open(&path)?;
        file.set_len(before)?;
        let file = Changing {
            file: &file,
            after,
            length,
        };
        let hashed = hash_opened(file.file, file.take(most), NonZeroUsize::MIN);
        fs::remove_file(&path)?;
        hashed
    }

    #[test]
    fn a_file_that_changes_its_length_while_it_is_read_is_an_error() {
        let zeros = hash_reader(io::repeat(0).take(3 << 20), NonZeroUsize::MIN).unwrap();
        assert_eq!(
            hash_changing("kept", 3 << 20, (1 << 20, 3 << 20), u64::MAX).unwrap(),
            zeros
        );
        for (name, before, change, most) in [
            ("grows-from-nothing", 0, (0, 1), u64::MAX),
            ("grows", 3 << 20, (1 << 20, (3 << 20) + 1), u64::MAX),
            ("grows-at-its-end", 3 << 20, (3 << 20, 4 << 20), u64::MAX),
            ("grows-unread", 3 << 20, (1 << 20, 4 << 20), 3 << 20),
            ("shrinks", 3 << 20, (1 << 20, (3 << 20) - 1), u64::MAX),
            ("shrinks-behind", 3 << 20, (2 << 20, 1 << 20), u64::MAX),
            ("shrinks-at-its-end", 3 << 20, (3 << 20, 0), u64::MAX),
            // As if it had been shorter for a while.
            ("ends-early", 3 << 20, (u64::MAX, 0), (3 << 20) - 1),
        ] {
            let error = hash_changing(name, before, change, most).unwrap_err();
            assert_eq!(error.to_string(), "its length changed while it was read", "{name}");
        }
    }
}

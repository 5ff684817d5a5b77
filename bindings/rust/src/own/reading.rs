//! Hashing what a reader gives, on several threads.

use super::Node;
use crate::merklehash::compute_data_hash;
use queue::Queue;
use std::io::{self, ErrorKind, Read};
use std::num::NonZeroUsize;

mod files;
mod queue;

pub use files::{chunks_of, hash_file, hash_reader};

// How much room a buffer gets before any of its data has come.
const FIRST_ROOM: usize = 1 << 16;

// The number of a chunk, a buffer that begins with its data, and its length.
type Chunk = (usize, Vec<u8>, usize);

/// Reads chunks of these lengths, one after another, and hashes them on the given number of threads, but on no more threads
/// than there are chunks. The calling thread is one of them. It reads, and while as many chunks wait as there are other threads, it
/// hashes the next one itself. What is returned is in the order of the reader, and [`file_hash`](crate::merklehash::file_hash) or
/// [`xorb_hash`](crate::merklehash::xorb_hash) takes it.
///
/// For the chunks into which Xet cuts a file, call [`chunks_of`] or [`hash_reader`]. What comes after the last chunk isn't read. Memory
/// grows with the data that comes, not with a length that is only claimed. Buffers of at most a MiB are used again for later chunks.
///
/// ```
/// use std::num::NonZeroUsize;
/// use std::thread::available_parallelism;
/// use yurewha::merklehash::{compute_data_hash, file_hash};
/// use yurewha::own::hash_chunks;
///
/// let chunks = hash_chunks(&b"a chunkanother"[..], [7, 7], available_parallelism().unwrap_or(NonZeroUsize::MIN))?;
/// assert_eq!(chunks, [&b"a chunk"[..], b"another"].map(|data| (compute_data_hash(data), 7)));
/// println!("{}", file_hash(&chunks));
/// # Ok::<(), std::io::Error>(())
/// ```
///
/// # Errors
///
/// - the error of the reader, unless it was interrupted, which is repeated
/// - [`UnexpectedEof`](ErrorKind::UnexpectedEof) if the reader ends before the last chunk does
/// - the error of starting a thread
/// - [`OutOfMemory`](ErrorKind::OutOfMemory) if there is no memory for the data
pub fn hash_chunks(
    reader: impl Read,
    lengths: impl IntoIterator<Item = usize>,
    threads: NonZeroUsize,
) -> io::Result<Vec<Node>> {
    let queue = Queue::new();
    let chunks = of_lengths(reader, lengths, &queue);
    let hash = |(number, data, length): Chunk| {
        let hash = compute_data_hash(&data[..length]);
        queue.keep(data);
        Some((number, (hash, length as u64)))
    };
    let mut hashed = queue.on_threads(chunks, hash, threads)?;
    hashed.sort_unstable_by_key(|(number, _)| *number);
    Ok(hashed.into_iter().map(|(_, node)| node).collect())
}

// Reads the chunks, one after another.
fn of_lengths<'a>(
    mut reader: impl Read + 'a,
    lengths: impl IntoIterator<Item = usize> + 'a,
    queue: &'a Queue<Chunk>,
) -> impl Iterator<Item = io::Result<Chunk>> + 'a {
    let read = move |(number, length)| {
        let mut data = queue.buffer();
        if filled(&mut reader, &mut data, length)? < length {
            let end = format!("the data ends before chunk {number} is whole");
            return Err(io::Error::new(ErrorKind::UnexpectedEof, end));
        }
        Ok((number, data, length))
    };
    lengths.into_iter().enumerate().map(read)
}

// Reads so many bytes to the beginning of a buffer, or all up to the end, and returns how many. The buffer gets as much room again as
// has come, so that a length that is only claimed takes no memory.
fn filled(reader: &mut impl Read, data: &mut Vec<u8>, length: usize) -> io::Result<usize> {
    let (mut count, mut room) = (0, length.min(data.len().max(FIRST_ROOM)));
    while count < length {
        if count == room {
            room = length.min(2 * room);
        }
        if data.len() < room {
            data.try_reserve_exact(room - data.len())
                .map_err(|_| io::Error::from(ErrorKind::OutOfMemory))?;
            data.resize(room, 0);
        }
        match reader.read(&mut data[count..room]) {
            Ok(0) => break,
            Ok(more) => {
                assert!(
                    more <= room - count,
                    "a reader says that it read more than it had room for"
                );
                count += more;
            }
            Err(error) if error.kind() == ErrorKind::Interrupted => {}
            Err(error) => return Err(error),
        }
    }
    Ok(count)
}

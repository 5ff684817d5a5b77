//! Pairs of a hash and a size as chunks of the header.

use crate::error::{CoreError, Result};
use crate::ffi::{yurewha_chunk, yurewha_hash};
use crate::own::Node;
use std::borrow::Cow;
use std::mem::{align_of, offset_of, size_of};
use std::slice;

// Whether pairs have the layout of chunks. Rust doesn't promise the layout of a pair, but the compiler knows it.
const PAIRS_ARE_CHUNKS: bool = size_of::<Node>() == size_of::<yurewha_chunk>()
    && align_of::<Node>() == align_of::<yurewha_chunk>()
    && offset_of!(Node, 0) == offset_of!(yurewha_chunk, hash)
    && offset_of!(Node, 1) == offset_of!(yurewha_chunk, size);

/// The pairs as chunks for a call. They are lent, without an allocation, if the layouts agree, and else copied.
pub(crate) fn lend(nodes: &[Node]) -> Result<Cow<'_, [yurewha_chunk]>> {
    if !PAIRS_ARE_CHUNKS {
        return copied(nodes).map(Cow::Owned);
    }
    // SAFETY: size, alignment and the offsets of both members are the same, a hash has the layout of its words, and
    // there is no padding.
    let chunks = unsafe { slice::from_raw_parts(nodes.as_ptr().cast(), nodes.len()) };
    Ok(Cow::Borrowed(chunks))
}

fn copied(nodes: &[Node]) -> Result<Vec<yurewha_chunk>> {
    let mut chunks = room(nodes.len())?;
    chunks.extend(nodes.iter().copied().map(chunk_of));
    Ok(chunks)
}

/// An empty vector with room for `count` elements.
pub(crate) fn room<T>(count: usize) -> Result<Vec<T>> {
    let mut room = Vec::new();
    room.try_reserve_exact(count).map_err(|_| CoreError::OutOfMemory)?;
    Ok(room)
}

/// A vector of `count` default values.
pub(crate) fn zeros<T: Clone + Default>(count: usize) -> Result<Vec<T>> {
    let mut zeros = room(count)?;
    zeros.resize(count, T::default());
    Ok(zeros)
}

/// A pair as a chunk.
pub(crate) fn chunk_of((hash, size): Node) -> yurewha_chunk {
    let hash = yurewha_hash { words: *hash };
    yurewha_chunk { hash, size }
}

/// A chunk as a pair.
pub(crate) fn node_of(chunk: &yurewha_chunk) -> Node {
    (chunk.hash.words.into(), chunk.size)
}

#[cfg(test)]
mod tests {
    use super::*;
    use crate::merklehash::DataHash;

    #[test]
    fn lent_and_copied_chunks_are_the_pairs() {
        let nodes: Vec<Node> = (0..5).map(|seed| (DataHash::random_from_seed(seed), seed)).collect();
        let lent = lend(&nodes).unwrap();
        let copied = copied(&nodes).unwrap();
        for chunks in [&*lent, &copied] {
            assert!(chunks.iter().map(node_of).eq(nodes.iter().copied()));
        }
        assert_eq!(matches!(lent, Cow::Borrowed(_)), PAIRS_ARE_CHUNKS);
    }

    #[test]
    fn room_that_is_refused_is_out_of_memory() {
        assert!(matches!(room::<u64>(usize::MAX), Err(CoreError::OutOfMemory)));
    }
}

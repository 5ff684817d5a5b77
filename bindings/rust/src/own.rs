//! What the crate `xet-core-structures` doesn't have: files cut into chunks and hashed, on several threads, proofs of parts of
//! a file, sessions, indexes of hashes, a hasher that takes a message in pieces, and calls that return a
//! [`Result`](crate::error::Result) instead of a panic.
//!
//! They aren't in [`merklehash`](crate::merklehash), so that a glob of that module brings in only the names of that
//! crate. Import them by name.
//!
//! # From async code
//!
//! Each call computes and returns, and all types here are `Send` and `Sync`. So an async task calls them between two
//! awaits. Hashing many megabytes belongs on a thread for such work, as `spawn_blocking` of tokio has them.
//!
//! ```
//! use std::error::Error;
//! use std::future::Future;
//! use std::io::Result as Fetched;
//! use std::ops::Range;
//! use yurewha::merklehash::MerkleHash;
//! use yurewha::own::RangeProof;
//!
//! /// A server that keeps a file. Nobody has to trust it.
//! trait Server: Sync {
//!     fn proof(&self, bytes: Range<u64>) -> impl Future<Output = Fetched<String>> + Send;
//!     fn data(&self, bytes: Range<u64>) -> impl Future<Output = Fetched<Vec<u8>>> + Send;
//! }
//!
//! /// Returns bytes of the file with this hash.
//! async fn read_part(
//!     server: &impl Server,
//!     file_hash: &MerkleHash,
//!     bytes: Range<u64>,
//! ) -> Result<Vec<u8>, Box<dyn Error + Send + Sync>> {
//!     let proof = RangeProof::from_json(&server.proof(bytes.clone()).await?)?;
//!     let range = proof.open(file_hash)?;
//!     let place = range.begins(0).zip(range.ends(range.num_chunks() - 1)).ok_or("a range has a chunk")?;
//!     // So far these places are the server's word, so a reader looks at them before it fetches.
//!     if place.0.saturating_add(1 << 20) < bytes.start || place.1 > bytes.end.saturating_add(1 << 20) {
//!         return Err("the server's chunks go far beyond what was asked for".into());
//!     }
//!     let data = server.data(place.0..place.1).await?;
//!     let part = range.read(bytes, &data).ok_or("the server sent something else")?;
//!     Ok(part.to_vec())
//! }
//! # use std::task::{Context, Poll, Wake};
//! # use yurewha::merklehash::compute_data_hash;
//! # use yurewha::own::HashTree;
//! # struct Kept(Vec<u8>, HashTree);
//! # impl Server for Kept {
//! #     async fn proof(&self, bytes: Range<u64>) -> Fetched<String> {
//! #         let chunks = self.1.chunks_at(bytes).ok_or(std::io::ErrorKind::InvalidInput)?;
//! #         Ok(self.1.proof(chunks).and_then(|proof| proof.to_json()).map_err(std::io::Error::other)?)
//! #     }
//! #     async fn data(&self, bytes: Range<u64>) -> Fetched<Vec<u8>> {
//! #         Ok(self.0[bytes.start as usize..bytes.end as usize].to_vec())
//! #     }
//! # }
//! # struct Nobody;
//! # impl Wake for Nobody {
//! #     fn wake(self: std::sync::Arc<Self>) {}
//! # }
//! # fn finished<T>(future: impl Future<Output = T> + Send) -> T {
//! #     let waker = std::sync::Arc::new(Nobody).into();
//! #     match std::pin::pin!(future).poll(&mut Context::from_waker(&waker)) {
//! #         Poll::Ready(value) => value,
//! #         Poll::Pending => panic!("nothing here waits"),
//! #     }
//! # }
//! # let data = [&b"a chunk"[..], b"another", b"and a third"];
//! # let tree = HashTree::from_chunks(&data.map(|data| (compute_data_hash(data), data.len() as u64)))?;
//! # let hash = tree.file_hash();
//! # let mut server = Kept(data.concat(), tree);
//! # assert_eq!(finished(read_part(&server, &hash, 8..10)).unwrap(), b"no");
//! # server.0[9] ^= 1;
//! # assert!(finished(read_part(&server, &hash, 8..10)).is_err());
//! # Ok::<(), yurewha::error::CoreError>(())
//! ```

use crate::merklehash::MerkleHash;

mod chunker;
mod file_hasher;
mod hash_index;
mod hasher;
mod hex_text;
mod range_proof;
mod reading;
mod roots;
mod session;
mod stable_points;

pub use crate::merklehash::data_hash::errors::HashTextError;
pub use chunker::Chunker;
pub use file_hasher::FileHasher;
pub use hash_index::HashIndex;
pub use hasher::Hasher;
pub use hex_text::{parse_hex, HexError};
pub use range_proof::{Difference, HashTree, OpenError, OpenFault, OpenedRange, RangeProof};
pub use range_proof::{OtherFile, PartFault, VerifiedReader, WantedPart};
pub use reading::{chunks_of, hash_chunks, hash_file, hash_reader};
pub use roots::{try_file_hash, try_file_hash_with_salt, try_xorb_hash};
pub use session::{Session, SessionFault};
pub use stable_points::{try_find_stable_end, try_find_stable_start};

/// A chunk, or any other node of the tree: its hash, and its size in bytes.
pub type Node = (MerkleHash, u64);

//! Hashes of chunks, xorbs and files, and subtrees of ranges of chunks. This is the module `merklehash` of the crate
//! `xet-core-structures` 1.5.2.
//!
//! A glob of this module, or of one below it, brings in only the names of that crate. Items that crate doesn't have are
//! in [`own`](crate::own), but the types here have additional calls.

pub mod aggregated_hashes;
pub mod data_hash;
pub mod merkle_hash_subtree;
pub mod passthrough_hasher;
pub mod passthrough_hashmap;

pub use aggregated_hashes::*;
pub use data_hash::*;
pub use merkle_hash_subtree::*;
pub use passthrough_hasher::*;
pub use passthrough_hashmap::*;

/// The hash of a chunk, a xorb or a file.
pub type MerkleHash = DataHash;

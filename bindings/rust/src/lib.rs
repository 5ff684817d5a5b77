//! The hashes by which the Hugging Face Xet store names chunks and files. Ranges of chunks that were hashed separately
//! can be merged without their chunks. [`own::hash_file`] returns the hash of a file.
//!
//! The module [`merklehash`] has the calls and paths of the module with that name in the crate `xet-core-structures`
//! 1.5.2. It calls a library in which each function is proved to meet its contract. Most code for that crate needs only
//! another name in `Cargo.toml` and in its `use` lines. The module [`own`] has what that crate doesn't have.
//! The crate around the library is only tested. For each thing that it does without the library, the repository has planted
//! bugs, and each makes a test fail. `README.md` lists what isn't proved, and says how the library is found.
//!
//! ```
//! use yurewha::merklehash::{compute_data_hash, file_hash, MerkleHashSubtree};
//!
//! let chunks: Vec<_> = [&b"first"[..], b"second", b"third"]
//!     .map(|data| (compute_data_hash(data), data.len() as u64))
//!     .into();
//! // Two ranges of one file, hashed separately, perhaps on two machines.
//! let mut file = MerkleHashSubtree::from_chunks(true, &chunks[..2], false);
//! let rest = MerkleHashSubtree::from_chunks(false, &chunks[2..], true);
//! file.merge_into(&rest)?;
//! assert_eq!(file.finish()?, file_hash(&chunks));
//! # Ok::<(), yurewha::error::CoreError>(())
//! ```
//!
//! # What differs from `xet-core-structures`
//!
//! - **Merging.** Adjacent ranges give the same subtree and the same root in any order of merging. In that crate the
//!   levels depend on the order, and some orders give a wrong root.
//! - **Sizes** that add up to more than `u64::MAX` bytes are an error. In that crate they panic in debug builds and
//!   wrap in others.
//! - **Memory.** A failed allocation is the error [`OutOfMemory`](error::CoreError::OutOfMemory).
//! - **Panics.** A call that has no `Result` in that crate has none here. If it fails, it panics with a message that
//!   names the call and the cause. A call `try_..` returns a [`Result`](error::Result) instead.
//! - **Subtrees that are read** are checked in each format of serde. A value that isn't the subtree of a list is an
//!   error. If that crate merges a range that is marked at its start with the next one, it keeps left nodes, which breaks
//!   rule 9. So subtrees that it saved after such a merge may be errors, too. Make them anew from the list of their
//!   chunks.
//! - **More calls.** Rust prefers a type's own calls to those of a client's trait. So a trait of yours with one of these
//!   names has to be called by its path, as in `Stored::to_bytes(&hash)`: of a hash `from_words`, `from_bytes`,
//!   `to_bytes`, `try_base64` and `try_from_base64`; of a subtree `try_from_chunks`, `try_clone`, `at_start`, `at_end`,
//!   `total_size`, `merge_into_counted`, `file_hash`, `file_hash_with_salt`, `finish`, `finish_with_salt`, `to_json` and
//!   `from_json`.
//! - **Threads** that read one [`MerkleHashSubtree`](merklehash::MerkleHashSubtree) or [`Session`](own::Session) at
//!   once take turns. Give each thread a clone if that is too slow. Threads that read one [`HashTree`](own::HashTree) or
//!   [`OpenedRange`](own::OpenedRange) don't wait for each other.
//! - **Errors.** [`CoreError`](error::CoreError) has the variants that these calls return, with its own texts.
//! - **Targets** are Linux and macOS on x86-64 and aarch64, with glibc or musl on Linux, and `x86_64-pc-windows-gnu`.
//!
//! The table "In the crate `yurewha`" of `docs/DIFFERENCES.md`, in the repository, lists the rest.

#![warn(missing_docs)]

#[cfg(not(target_endian = "little"))]
compile_error!("a hash lends its words as bytes, which needs a machine that is little-endian");

pub mod error;
pub mod merklehash;
pub mod own;

mod ffi;
#[cfg(feature = "serde")]
mod forms;
mod handle;
mod in_form;
#[cfg(doctest)]
mod lent;
mod lent_chunks;
mod status;

// Runs the examples of the page as tests.
#[cfg(doctest)]
#[doc = include_str!("../README.md")]
struct Readme;

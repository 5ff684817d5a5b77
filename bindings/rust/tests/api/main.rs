//! The public interface, item by item.

mod clients;
mod data_hash;
mod definitions;
mod differences;
#[cfg(feature = "digest")]
mod digest;
mod draws;
mod files;
#[cfg(feature = "serde")]
mod forms;
mod hash_indexes;
mod hashed_write;
#[cfg(target_os = "linux")]
mod held_up;
mod joining;
mod json;
mod long;
mod map;
mod merging;
mod numbers;
mod own;
mod panics;
#[cfg(feature = "serde")]
mod proof_forms;
mod range_proofs;
mod reading;
mod reference_lists;
mod roots;
mod saving;
#[cfg(feature = "serde")]
mod session_forms;
mod sessions;
mod subtrees;
mod threads;
mod verified_readers;

//! What the programs of the benchmarks share.

pub mod drawn;
pub mod plain;
pub mod rows;

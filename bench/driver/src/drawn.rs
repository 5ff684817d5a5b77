//! Drawn chunks: the same ones for the same seed.

#[path = "../../../bindings/rust/tests/api/numbers.rs"]
mod numbers;

use crate::plain::Node;
pub use numbers::Draws;

impl Draws {
    /// Puts a list in drawn order.
    pub fn shuffle<T>(&mut self, list: &mut [T]) {
        for last in (1..list.len()).rev() {
            list.swap(last, self.below(last + 1));
        }
    }
}

/// Which hashes are natural cuts, that is, a multiple of 4 in their last word.
#[derive(Clone, Copy)]
pub enum Cuts {
    /// One of four, as drawn.
    Drawn,
    Nowhere,
    Everywhere,
}

/// Chunks of drawn hashes, and of sizes below 2^20.
pub fn chunks(seed: u64, cuts: Cuts) -> impl Iterator<Item = Node> {
    let mut draws = Draws(seed);
    std::iter::repeat_with(move || {
        let mut hash = [0; 4].map(|_: u64| draws.number());
        match cuts {
            Cuts::Drawn => {}
            Cuts::Nowhere => hash[3] |= 1,
            Cuts::Everywhere => hash[3] &= !3,
        }
        (hash, draws.number() >> 44)
    })
}

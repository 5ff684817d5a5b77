//! Random values, the same in every run, and the nodes of the worked examples.

pub use crate::numbers::Draws;
use yurewha::merklehash::DataHash;
use yurewha::own::Node;

impl Draws {
    pub fn truth(&mut self) -> bool {
        self.below(2) == 0
    }

    /// Nodes of random hashes, a quarter of which are natural cuts as in real lists.
    pub fn nodes(&mut self, count: usize) -> Vec<Node> {
        (0..count).map(|_| self.node()).collect()
    }

    fn node(&mut self) -> Node {
        let words = [0; 4].map(|_: u64| self.number());
        (words.into(), self.number() % 1_000_000)
    }

    /// A list cut at random places into a random number of ranges, some of them empty.
    pub fn pieces<'a>(&mut self, nodes: &'a [Node]) -> Vec<&'a [Node]> {
        let mut places: Vec<_> = (0..self.below(6)).map(|_| self.below(nodes.len() + 1)).collect();
        places.extend([0, nodes.len()]);
        places.sort_unstable();
        places.windows(2).map(|place| &nodes[place[0]..place[1]]).collect()
    }
}

/// `N(i)` of the worked examples: natural cuts stand at 3, 7, 11 and so on.
pub fn numbered(indices: std::ops::Range<u64>) -> Vec<Node> {
    indices
        .map(|i| (DataHash::from([i, 0, 0, u64::from(i % 4 != 3)]), 1))
        .collect()
}

/// Nodes of size 1, with natural cuts at these places alone.
pub fn with_cuts(count: u64, cuts: &[u64]) -> Vec<Node> {
    (0..count)
        .map(|i| {
            let word = u64::from(!cuts.contains(&i));
            (DataHash::from([i, 0, 0, word]), 1)
        })
        .collect()
}

/// A reference list: hash number 0 is the default one of size 0, number `i` is that of the seed `i` and has the
/// size 100 `i`.
pub fn reference(numbers: &[u64]) -> Vec<Node> {
    numbers
        .iter()
        .map(|&i| match i {
            0 => (DataHash::default(), 0),
            _ => (DataHash::random_from_seed(i), 100 * i),
        })
        .collect()
}

/// The hash of a text.
pub fn hash(text: &str) -> DataHash {
    DataHash::from_hex(text).unwrap()
}

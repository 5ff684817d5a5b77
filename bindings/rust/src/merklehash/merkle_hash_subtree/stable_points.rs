//! Stable points of a list.

use crate::error::Result;
use crate::ffi;
use crate::lent_chunks::lend;
use crate::merklehash::MerkleHash;
use crate::own::Node;
use crate::status::{looked_up, plain};

type Find = unsafe extern "C" fn(*const ffi::yurewha_chunk, usize, *mut usize) -> ffi::yurewha_status;

/// Returns the first stable point of some nodes, as the number of nodes before it, or `None` if there is no such point.
/// At a stable point a group ends, no matter which nodes come before and after the given ones. Allocates nothing.
///
/// ```
/// use yurewha::merklehash::{find_stable_start, DataHash};
///
/// // Natural cuts, whose last word is a multiple of 4, at 3, 7 and 11.
/// let nodes: Vec<_> = (0..20).map(|i| (DataHash::from([i, 0, 0, u64::from(i % 4 != 3)]), 1)).collect();
/// assert_eq!(find_stable_start(&nodes), Some(8));
/// assert_eq!(find_stable_start(&nodes[..10]), None);
/// ```
#[must_use]
#[track_caller]
pub fn find_stable_start(nodes: &[(MerkleHash, u64)]) -> Option<usize> {
    plain("find_stable_start", point(ffi::yurewha_find_stable_start, nodes))
}

/// Returns the last stable point of some nodes, in the same form as [`find_stable_start`] returns the first.
///
/// ```
/// use yurewha::merklehash::{find_stable_end, DataHash};
///
/// let nodes: Vec<_> = (0..20).map(|i| (DataHash::from([i, 0, 0, u64::from(i % 4 != 3)]), 1)).collect();
/// assert_eq!(find_stable_end(&nodes), Some(16));
/// ```
#[must_use]
#[track_caller]
pub fn find_stable_end(nodes: &[(MerkleHash, u64)]) -> Option<usize> {
    plain("find_stable_end", point(ffi::yurewha_find_stable_end, nodes))
}

fn point(find: Find, nodes: &[Node]) -> Result<Option<usize>> {
    let chunks = lend(nodes)?;
    // SAFETY: nodes of their number, and a number to write to.
    looked_up(|point| unsafe { find(chunks.as_ptr(), chunks.len(), point) })
}

//! Stable points, with a `Result` that is never an error.

use super::Node;
use crate::error::Result;
use crate::merklehash::{find_stable_end, find_stable_start};

/// Does the same as [`find_stable_start`]. Neither of them fails. This call stays for programs that were written when
/// both allocated.
///
/// ```
/// use yurewha::own::try_find_stable_start;
///
/// assert_eq!(try_find_stable_start(&[])?, None);
/// # Ok::<(), yurewha::error::CoreError>(())
/// ```
///
/// # Errors
///
/// There are none.
pub fn try_find_stable_start(nodes: &[Node]) -> Result<Option<usize>> {
    Ok(find_stable_start(nodes))
}

/// Does the same as [`find_stable_end`]. Neither of them fails. This call stays for programs that were written when
/// both allocated.
///
/// ```
/// use yurewha::own::try_find_stable_end;
///
/// assert_eq!(try_find_stable_end(&[])?, None);
/// # Ok::<(), yurewha::error::CoreError>(())
/// ```
///
/// # Errors
///
/// There are none.
pub fn try_find_stable_end(nodes: &[Node]) -> Result<Option<usize>> {
    Ok(find_stable_end(nodes))
}

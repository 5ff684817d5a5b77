//! The errors of calls on lists of chunks, on subtrees and on range proofs.

use crate::ffi;
use crate::status::{Refusal, StatusText};
use std::fmt;
use std::ops::RangeInclusive;

/// Why a call failed. After a failure everything that was lent to the call is unchanged.
///
/// ```
/// use yurewha::error::CoreError;
///
/// assert_eq!(CoreError::SizeOverflow.to_string(), "size overflow");
/// let error = CoreError::InvalidJson(6);
/// assert_eq!(error.to_string(), "invalid JSON: rule 6: the counts don't add up to the number of nodes");
/// ```
///
/// Later versions may have more variants, so a `match` needs an arm for others:
///
/// ```compile_fail,E0004
/// # use yurewha::error::CoreError;
/// fn is_of_a_text(error: CoreError) -> bool {
///     match error {
///         CoreError::InvalidText | CoreError::InvalidJson(_) | CoreError::InvalidProof(_) => true,
///         CoreError::InvalidArguments | CoreError::SizeOverflow | CoreError::OutOfMemory => false,
///     }
/// }
/// ```
#[derive(Clone, Copy, Debug, PartialEq, Eq)]
#[non_exhaustive]
pub enum CoreError {
    /// A range other than the last is marked at its end, or one other than the first at its start. For a session, a
    /// run that is [pushed](crate::own::Session::push_run) has no position or leaves no gap, or its subtree is marked.
    /// For a range proof, the list doesn't have these chunks.
    InvalidArguments,
    /// The sizes of all nodes add up to more than `u64::MAX` bytes.
    SizeOverflow,
    /// An allocation failed.
    OutOfMemory,
    /// A text isn't JSON. For a session, it may also have a member twice in one object.
    InvalidText,
    /// A JSON value doesn't describe a subtree. The number is the lowest rule, from 1 to 13, that the value breaks.
    /// [`from_json`](crate::merklehash::MerkleHashSubtree::from_json) lists the rules.
    ///
    /// Subtrees that `xet-core-structures` saves after it has merged ranges may break rule 9 if the first range is marked
    /// at its start, and rule 12 if it isn't. Make such a subtree anew from the list of its chunks.
    InvalidJson(u8),
    /// A JSON value, flat lists, or bytes don't describe a range proof. The number is the lowest rule, from 1 to 8, that they
    /// break. [`from_json`](crate::own::RangeProof::from_json) lists the rules.
    InvalidProof(u8),
    /// A JSON value doesn't describe a session. The number is the lowest rule, from 1 to 7 but 5, that it breaks.
    /// [`from_json`](crate::own::Session::from_json) lists the rules.
    InvalidSession(u8),
}

/// The result of a call, or why it failed.
pub type Result<T> = std::result::Result<T, CoreError>;

impl fmt::Display for CoreError {
    fn fmt(&self, f: &mut fmt::Formatter<'_>) -> fmt::Result {
        match self {
            CoreError::InvalidArguments => f.write_str("invalid arguments"),
            CoreError::SizeOverflow => f.write_str("size overflow"),
            CoreError::OutOfMemory => StatusText::of(ffi::YUREWHA_MEMORY).fmt(f),
            CoreError::InvalidText => f.write_str("invalid text"),
            CoreError::InvalidJson(rule) => write!(f, "invalid JSON: {}", BrokenRule(*rule)),
            CoreError::InvalidProof(rule) => write!(f, "invalid range proof: {}", BrokenProofRule(*rule)),
            CoreError::InvalidSession(rule) => write!(f, "invalid session: {}", BrokenSessionRule(*rule)),
        }
    }
}

impl std::error::Error for CoreError {}

/// The text of a rule that a value breaks.
pub(crate) struct BrokenRule(pub(crate) u8);

impl fmt::Display for BrokenRule {
    fn fmt(&self, f: &mut fmt::Formatter<'_>) -> fmt::Result {
        match self.0 {
            1..=13 => write!(f, "{}", StatusText::of(ffi::YUREWHA_RULE + u32::from(self.0)))?,
            other => write!(f, "rule {other}")?,
        }
        if matches!(self.0, 9 | 12) {
            f.write_str(OF_XET_CORE)?;
        }
        Ok(())
    }
}

// Where most values that break rule 9 or 12 come from.
const OF_XET_CORE: &str =
    ". xet-core-structures leaves some when it merges ranges; make the subtree anew from the list \
    of its chunks";

// The text of a rule of range proofs that a value breaks.
struct BrokenProofRule(u8);

impl fmt::Display for BrokenProofRule {
    fn fmt(&self, f: &mut fmt::Formatter<'_>) -> fmt::Result {
        match self.0 {
            1..=8 => write!(f, "{}", StatusText::of(ffi::YUREWHA_PROOF_RULE + u32::from(self.0))),
            other => write!(f, "rule {other}"),
        }
    }
}

// The text of a rule of sessions that a value breaks.
struct BrokenSessionRule(u8);

impl fmt::Display for BrokenSessionRule {
    fn fmt(&self, f: &mut fmt::Formatter<'_>) -> fmt::Result {
        match self.0 {
            1..=4 | 6..=7 => write!(f, "{}", StatusText::of(ffi::YUREWHA_SESSION_RULE + u32::from(self.0))),
            other => write!(f, "rule {other}"),
        }
    }
}

impl Refusal for CoreError {
    fn of(status: ffi::yurewha_status) -> Option<Self> {
        match status {
            ffi::YUREWHA_ARGUMENTS => Some(CoreError::InvalidArguments),
            ffi::YUREWHA_SIZES => Some(CoreError::SizeOverflow),
            ffi::YUREWHA_MEMORY => Some(CoreError::OutOfMemory),
            ffi::YUREWHA_TEXT => Some(CoreError::InvalidText),
            _ => broken_rule(status),
        }
    }
}

// The error of a status that names a broken rule. Of a subtree it is that of a JSON value: serde's formats, which read flat
// lists, have errors of their own.
fn broken_rule(status: ffi::yurewha_status) -> Option<CoreError> {
    let rule_from = |first: u32, rules: RangeInclusive<u8>| {
        let rule = u8::try_from(status.checked_sub(first)?).ok()?;
        rules.contains(&rule).then_some(rule)
    };
    let of_subtree = rule_from(ffi::YUREWHA_RULE, 1..=13).map(CoreError::InvalidJson);
    let of_proof = rule_from(ffi::YUREWHA_PROOF_RULE, 1..=8).map(CoreError::InvalidProof);
    let of_session = rule_from(ffi::YUREWHA_SESSION_RULE, 1..=7).map(CoreError::InvalidSession);
    of_subtree.or(of_proof).or(of_session)
}

#[cfg(test)]
mod tests {
    use super::*;

    #[test]
    fn each_status_has_its_error() {
        let errors = [
            (ffi::YUREWHA_ARGUMENTS, CoreError::InvalidArguments),
            (ffi::YUREWHA_SIZES, CoreError::SizeOverflow),
            (ffi::YUREWHA_MEMORY, CoreError::OutOfMemory),
            (ffi::YUREWHA_TEXT, CoreError::InvalidText),
        ];
        let rules = (1..=13).map(|rule| (ffi::YUREWHA_RULE + u32::from(rule), CoreError::InvalidJson(rule)));
        let of_proofs = [1, 2, 3, 4, 5, 6, 7, 8].map(|rule| {
            let status = ffi::YUREWHA_PROOF_RULE + u32::from(rule);
            (status, CoreError::InvalidProof(rule))
        });
        let of_sessions = [1, 2, 3, 4, 6, 7].map(|rule| {
            let status = ffi::YUREWHA_SESSION_RULE + u32::from(rule);
            (status, CoreError::InvalidSession(rule))
        });
        for (status, error) in errors.into_iter().chain(rules).chain(of_proofs).chain(of_sessions) {
            assert_eq!(CoreError::of(status), Some(error));
        }
    }

    // The rules 9 and 12 also say what to do.
    #[test]
    fn each_broken_rule_has_its_text() {
        for rule in 1..=13 {
            let error = CoreError::InvalidJson(rule).to_string();
            assert!(error.starts_with(&format!("invalid JSON: rule {rule}: ")), "{error}");
            assert_eq!(
                error.contains("make the subtree anew"),
                matches!(rule, 9 | 12),
                "{error}"
            );
        }
        assert_eq!(CoreError::InvalidJson(14).to_string(), "invalid JSON: rule 14");
        for rule in 1..=8 {
            let error = CoreError::InvalidProof(rule).to_string();
            assert!(
                error.starts_with(&format!("invalid range proof: rule {rule}: ")),
                "{error}"
            );
        }
        for rule in [1, 2, 3, 4, 6, 7] {
            let error = CoreError::InvalidSession(rule).to_string();
            assert!(error.starts_with(&format!("invalid session: rule {rule}: ")), "{error}");
        }
        for rule in [0, 5, 8] {
            let error = CoreError::InvalidSession(rule).to_string();
            assert_eq!(error, format!("invalid session: rule {rule}"));
        }
        for rule in [0, 9] {
            let error = CoreError::InvalidProof(rule).to_string();
            assert_eq!(error, format!("invalid range proof: rule {rule}"));
        }
    }

    #[test]
    fn other_statuses_have_none() {
        let others = [
            ffi::YUREWHA_DONE,
            ffi::YUREWHA_ROOM,
            ffi::YUREWHA_EMPTY_HANDLE,
            ffi::YUREWHA_MISMATCH,
            15,
            16,
            30,
            48,
            57,
            64,
            72,
            u32::MAX,
        ];
        for status in others
            .into_iter()
            .chain(ffi::YUREWHA_SESSION_OVERLAP..=ffi::YUREWHA_SESSION_GAP)
        {
            assert_eq!(CoreError::of(status), None);
        }
    }
}

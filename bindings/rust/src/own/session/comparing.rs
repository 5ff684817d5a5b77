//! When two sessions are equal.

use super::Session;
use crate::error::Result;
use crate::status::plain;

/// Sessions are equal if they have the same runs and know the same hashes.
///
/// # Panics
///
/// If an allocation fails.
impl PartialEq for Session {
    #[track_caller]
    fn eq(&self, other: &Self) -> bool {
        plain("Session::eq", equal(self, other))
    }
}

impl Eq for Session {}

fn equal(first: &Session, second: &Session) -> Result<bool> {
    let sums = |it: &Session| (it.num_chunks(), it.total_size(), it.num_runs());
    Ok(sums(first) == sums(second) && have_same_runs(first, second)? && know_same_hashes(first, second)?)
}

fn have_same_runs(first: &Session, second: &Session) -> Result<bool> {
    let mut end = 0;
    while let Some(run) = first.try_run_from(end)? {
        end = run.0.end;
        if second.try_run_from(run.0.start)?.as_ref() != Some(&run) {
            return Ok(false);
        }
    }
    Ok(true)
}

fn know_same_hashes(first: &Session, second: &Session) -> Result<bool> {
    let mut hashes = [first.known_hashes()?, second.known_hashes()?];
    for it in &mut hashes {
        it.sort_unstable();
    }
    Ok(hashes[0] == hashes[1])
}

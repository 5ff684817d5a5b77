//! Makes results of statuses and out parameters.

use crate::error::{CoreError, Result};
use crate::ffi;
use std::fmt;

/// An error that a status can mean.
pub(crate) trait Refusal: Sized {
    /// The error that a status means, or `None`.
    fn of(status: ffi::yurewha_status) -> Option<Self>;
}

/// `Ok` if the call succeeded, else its error. Panics if the call never returns this status.
pub(crate) fn done<E: Refusal>(status: ffi::yurewha_status) -> std::result::Result<(), E> {
    match status {
        ffi::YUREWHA_DONE => Ok(()),
        status => Err(E::of(status).unwrap_or_else(|| unexpected(status))),
    }
}

// Panics, because the call never returns this status.
fn unexpected<E>(status: ffi::yurewha_status) -> E {
    panic!("yurewha answered the status {status}: {}", StatusText::of(status))
}

/// What a status means, in the library's words.
pub(crate) struct StatusText {
    room: [u8; ffi::YUREWHA_STATUS_TEXT_LENGTH],
    length: usize,
}

impl StatusText {
    pub(crate) fn of(status: ffi::yurewha_status) -> Self {
        let mut text = StatusText {
            room: [0; ffi::YUREWHA_STATUS_TEXT_LENGTH],
            length: 0,
        };
        // SAFETY: a room of the length that goes with it, and a length to write to. The room is enough for each text.
        unsafe { ffi::yurewha_status_text(status, text.room.as_mut_ptr().cast(), text.room.len(), &mut text.length) };
        text
    }
}

impl fmt::Display for StatusText {
    fn fmt(&self, f: &mut fmt::Formatter<'_>) -> fmt::Result {
        f.write_str(&String::from_utf8_lossy(&self.room[..self.length]))
    }
}

/// What a call writes to its out parameter, or its error.
pub(crate) fn answer<T: Default, E: Refusal>(
    call: impl FnOnce(&mut T) -> ffi::yurewha_status,
) -> std::result::Result<T, E> {
    let mut answer = T::default();
    done(call(&mut answer))?;
    Ok(answer)
}

/// What a call that can't fail writes to its out parameter.
pub(crate) fn told<T: Default>(call: impl FnOnce(&mut T) -> ffi::yurewha_status) -> T {
    let mut answer = T::default();
    done(call(&mut answer)).unwrap_or_else(refused_question);
    answer
}

/// What a call without a status writes to its out parameter.
pub(crate) fn given<T: Default>(call: impl FnOnce(&mut T)) -> T {
    let mut answer = T::default();
    call(&mut answer);
    answer
}

// Whether a call found what it looks up. [`CoreError::InvalidArguments`] means that it isn't there.
fn found(status: ffi::yurewha_status) -> Result<bool> {
    match done(status) {
        Ok(()) => Ok(true),
        Err(CoreError::InvalidArguments) => Ok(false),
        Err(error) => Err(error),
    }
}

/// What a call looks up and writes to its out parameter, or `None` if it isn't there.
pub(crate) fn looked_up<T: Default>(call: impl FnOnce(&mut T) -> ffi::yurewha_status) -> Result<Option<T>> {
    let mut answer = T::default();
    Ok(found(call(&mut answer))?.then_some(answer))
}

/// [`looked_up`] for a call that can't fail. Its result has no error in it, so it is copied only once.
pub(crate) fn told_if_there<T: Default>(call: impl FnOnce(&mut T) -> ffi::yurewha_status) -> Option<T> {
    let mut answer = T::default();
    let there = found(call(&mut answer)).unwrap_or_else(refused_question);
    there.then_some(answer)
}

/// What a call writes to its out parameter, or `None` if it refuses the data that it is given. It can't fail otherwise.
pub(crate) fn told_if_shown<T: Default>(call: impl FnOnce(&mut T) -> ffi::yurewha_status) -> Option<T> {
    let mut answer = T::default();
    match call(&mut answer) {
        ffi::YUREWHA_MISMATCH => None,
        status => {
            done(status).unwrap_or_else(refused_question);
            Some(answer)
        }
    }
}

// Panics, because a call that can't fail did.
fn refused_question<T>(error: CoreError) -> T {
    panic!("yurewha refused a question: {error}")
}

/// The result of a call that has no `Result` in the Rust crate. An error becomes a panic that names the call and the
/// cause. Each caller is marked with `track_caller`, so the panic is at the line of the user's call.
#[track_caller]
pub(crate) fn plain<T>(call: &str, answer: Result<T>) -> T {
    // In a closure the panic would have the closure's line.
    match answer {
        Ok(answer) => answer,
        Err(error) => panic!("{call}: {error}"),
    }
}

#[cfg(test)]
mod tests {
    use super::*;

    // A call that writes 7 and returns this status.
    fn seven(status: ffi::yurewha_status) -> impl FnOnce(&mut u8) -> ffi::yurewha_status {
        move |answer| {
            *answer = 7;
            status
        }
    }

    #[test]
    fn a_status_is_an_answer_or_a_refusal() {
        assert_eq!(answer(seven(ffi::YUREWHA_DONE)), Ok::<_, CoreError>(7));
        assert_eq!(answer(seven(ffi::YUREWHA_MEMORY)), Err(CoreError::OutOfMemory));
        assert_eq!(looked_up(seven(ffi::YUREWHA_DONE)), Ok(Some(7)));
        assert_eq!(looked_up(seven(ffi::YUREWHA_ARGUMENTS)), Ok(None));
        assert_eq!(looked_up(seven(ffi::YUREWHA_MEMORY)), Err(CoreError::OutOfMemory));
        assert_eq!(told(seven(ffi::YUREWHA_DONE)), 7);
        assert_eq!(told_if_there(seven(ffi::YUREWHA_DONE)), Some(7));
        assert_eq!(told_if_there(seven(ffi::YUREWHA_ARGUMENTS)), None);
        assert_eq!(told_if_shown(seven(ffi::YUREWHA_DONE)), Some(7));
        assert_eq!(told_if_shown(seven(ffi::YUREWHA_MISMATCH)), None);
    }

    #[test]
    fn a_number_that_is_no_status_has_a_text() {
        assert_eq!(StatusText::of(ffi::YUREWHA_DONE).to_string(), "the call succeeded");
        assert_eq!(StatusText::of(u32::MAX).to_string(), "unknown status");
    }

    #[test]
    #[should_panic(expected = "yurewha answered the status 6: a handle is empty")]
    fn a_status_that_never_comes_is_a_panic() {
        told(seven(ffi::YUREWHA_EMPTY_HANDLE));
    }

    #[test]
    #[should_panic(expected = "xorb_hash: size overflow")]
    fn a_panic_names_the_call_and_the_cause() {
        plain("xorb_hash", answer(seven(ffi::YUREWHA_SIZES)));
    }
}

//! Handles that one value owns.

use crate::ffi;
use std::ptr;
use std::sync::{Mutex, MutexGuard, PoisonError};

/// A handle of the library. It is one pointer, and the default is the empty handle.
pub(crate) trait Handle: Default + Send {
    /// The call that frees what the handle owns and leaves it empty.
    const FREE: unsafe extern "C" fn(*mut Self);
}

impl Handle for ffi::yurewha_subtree {
    const FREE: unsafe extern "C" fn(*mut Self) = ffi::yurewha_subtree_free;
}

impl Handle for ffi::yurewha_session {
    const FREE: unsafe extern "C" fn(*mut Self) = ffi::yurewha_session_free;
}

impl Handle for ffi::yurewha_hash_tree {
    const FREE: unsafe extern "C" fn(*mut Self) = ffi::yurewha_hash_tree_free;
}

impl Handle for ffi::yurewha_opened_range {
    const FREE: unsafe extern "C" fn(*mut Self) = ffi::yurewha_opened_range_free;
}

impl Handle for ffi::yurewha_part {
    const FREE: unsafe extern "C" fn(*mut Self) = ffi::yurewha_part_free;
}

impl Handle for ffi::yurewha_reader {
    const FREE: unsafe extern "C" fn(*mut Self) = ffi::yurewha_reader_free;
}

impl Handle for ffi::yurewha_hash_index {
    const FREE: unsafe extern "C" fn(*mut Self) = ffi::yurewha_hash_index_free;
}

impl Handle for ffi::yurewha_file_hasher {
    const FREE: unsafe extern "C" fn(*mut Self) = ffi::yurewha_file_hasher_free;
}

// SAFETY: a handle is a pointer to memory of `malloc` that only one value owns. Nothing of the library is bound to a
// thread, and any thread may call `free`.
unsafe impl Send for ffi::yurewha_subtree {}

// SAFETY: as above.
unsafe impl Send for ffi::yurewha_session {}

// SAFETY: as above.
unsafe impl Send for ffi::yurewha_hash_tree {}

// SAFETY: as above.
unsafe impl Send for ffi::yurewha_opened_range {}

// SAFETY: as above.
unsafe impl Send for ffi::yurewha_part {}

// SAFETY: as above.
unsafe impl Send for ffi::yurewha_reader {}

// SAFETY: as above.
unsafe impl Send for ffi::yurewha_hash_index {}

// SAFETY: as above.
unsafe impl Send for ffi::yurewha_file_hasher {}

/// A handle with one owner, which frees it, to a value that calls change.
///
/// Even a call that only reads a handle writes to it: it takes the object out and puts it back. So each call has
/// exclusive use of the handle, and threads that read one value take turns.
#[derive(Default)]
pub(crate) struct Owned<H: Handle>(Mutex<H>);

impl<H: Handle> Owned<H> {
    /// The handle, for one call. The library never unwinds, so the handle is intact after a panic.
    pub(crate) fn lock(&self) -> MutexGuard<'_, H> {
        self.0.lock().unwrap_or_else(PoisonError::into_inner)
    }

    /// The handles of two different values. Several handles are always locked by rising address, so no two threads wait
    /// for each other.
    pub(crate) fn lock_both<'a>(first: &'a Self, second: &'a Self) -> (MutexGuard<'a, H>, MutexGuard<'a, H>) {
        if ptr::from_ref(first) < ptr::from_ref(second) {
            let first = first.lock();
            (first, second.lock())
        } else {
            let second = second.lock();
            (first.lock(), second)
        }
    }

    /// The handle of a value that nobody else uses.
    pub(crate) fn get_mut(&mut self) -> &mut H {
        self.0.get_mut().unwrap_or_else(PoisonError::into_inner)
    }
}

impl<H: Handle> Drop for Owned<H> {
    fn drop(&mut self) {
        // SAFETY: the handle is empty or owns its memory, and is used for the last time.
        unsafe { H::FREE(self.get_mut()) }
    }
}

/// A handle with one owner, which frees it, to a value that no call changes while others can see it.
///
/// A call that reads writes to its handle, and not to the value. So each such call gets a handle of its own, a copy of
/// this one, and threads read one value at once.
#[derive(Default)]
pub(crate) struct Shared<H: Handle>(H);

// SAFETY: while others can see it, nobody writes to this handle or to the value.
unsafe impl<H: Handle> Sync for Shared<H> {}

impl<H: Handle> Shared<H> {
    /// A copy of the handle, for one call that reads. It doesn't free the value.
    pub(crate) fn copy(&self) -> H {
        // SAFETY: a handle is one pointer, and drops nothing.
        unsafe { ptr::read(&self.0) }
    }

    /// The handle of a value that nobody else uses.
    pub(crate) fn get_mut(&mut self) -> &mut H {
        &mut self.0
    }
}

impl<H: Handle> Drop for Shared<H> {
    fn drop(&mut self) {
        // SAFETY: the handle is empty or owns its memory, and is used for the last time.
        unsafe { H::FREE(&mut self.0) }
    }
}

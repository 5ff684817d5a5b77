"""A lock for each object, and what happens to objects in forked processes.

No two threads may use one handle of the library at once, and ctypes releases the interpreter's lock in long calls. So each
call on an object holds the object's own lock, even if it keeps the interpreter's lock.

A forked process has the objects of its parent as they were. An object that another thread held at that moment may be half
changed, and its lock is never released. So the first use of an object in a forked process tries its lock once. If the lock
is held, this use and each later one raise `InUseAtFork`, and the object is never freed.

A signal handler may run between any two steps below, and may use any object. So a thread may take a lock again that it
holds.
"""

from __future__ import annotations

import os
import threading
from contextlib import ExitStack
from typing import Any, ClassVar, Iterable, Tuple

from ._errors import InUseAtFork, YurewhaError


class _Process:
    """How often this process was forked from another, and a lock for taking objects over from the parent.

    Both change in one step, because a handler may run before and after.
    """

    def __init__(self) -> None:
        self.now = (0, threading.RLock())

    def forked(self) -> None:
        self.now = (self.now[0] + 1, threading.RLock())


process = _Process()
if hasattr(os, "register_at_fork"):
    os.register_at_fork(after_in_child=process.forked)


class Guarded:
    """An object that only one thread at a time may use.

    The thread that holds the lock may take it again. So a signal handler that uses the object never waits for its own
    thread. It runs between two calls of the library, never inside one.
    """

    __slots__ = ("_lock", "_generation", "__weakref__")

    _lock: threading.RLock
    _generation: int

    def _guard(self) -> None:
        """Makes the lock. This must be the first call on a new object."""
        self._lock = threading.RLock()
        self._generation = process.now[0]

    def _is_ours(self) -> bool:
        """Returns whether no other thread used the object when this process was forked."""
        generation, taking_over = process.now
        if self._generation == generation:
            return True
        with taking_over:
            if self._lock.acquire(blocking=False):
                self._lock.release()
                self._generation = generation
            # Another thread that has the lock may have taken the object over itself.
            return self._generation == generation

    def _locked(self) -> threading.RLock:
        """Returns the lock. Each call on the object must hold it."""
        if self._generation != process.now[0] and not self._is_ours():
            raise InUseAtFork("this process was forked while another thread used the object")
        return self._lock


class Handle(Guarded):
    """An object that owns a handle of the library."""

    __slots__ = ("_handle",)

    _handle: Any
    #: The call that frees such a handle, and leaves it empty.
    _free: ClassVar[Any]

    def _memory(self) -> int:
        """Returns about how many bytes the library has for the object."""
        return 0

    def __sizeof__(self) -> int:
        """Returns how many bytes the object takes, and about how many the library has for it."""
        own = object.__sizeof__(self)
        try:
            return own + self._memory()
        except (YurewhaError, AttributeError):
            return own  # it is empty, or another thread used it when this process was forked, or it wasn't completely made

    def __del__(self) -> None:
        # When the interpreter calls this, nobody else has the object. A call by hand waits for other threads and leaves an
        # empty handle. An object that another thread held when this process was forked is never freed.
        try:
            if not self._is_ours():
                return
            with self._lock:
                self._free(self._handle)
        except AttributeError:
            pass  # it wasn't completely made


def both_locked(one: Guarded, other: Guarded) -> Tuple[threading.RLock, threading.RLock]:
    """Returns the locks of two objects, in the order in which all threads take them.

    >>> one = Guarded(); one._guard()
    >>> first, second = both_locked(one, one)
    >>> with first, second:
    ...     pass
    """
    if id(one) <= id(other):
        return one._locked(), other._locked()
    return other._locked(), one._locked()


def all_locked(objects: Iterable[Guarded]) -> ExitStack:
    """Takes the locks of several objects. All threads use the same order, so no two wait for each other.

    >>> with all_locked([]):
    ...     pass
    """
    with ExitStack() as stack:
        for item in sorted(objects, key=id):
            stack.enter_context(item._locked())
        return stack.pop_all()
    raise AssertionError("an exit stack swallows nothing")

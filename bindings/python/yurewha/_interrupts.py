"""Long calls that Ctrl-C, or any signal handler that raises, ends at once."""

from __future__ import annotations

import _thread
import threading
import weakref
from typing import Callable, Generic, Optional, Sequence, TypeVar, cast

from ._guard import Guarded, all_locked

_Result = TypeVar("_Result")

#: From so many chunks or nodes on, and so many bytes of JSON or of a chunk to check, a call may take longer than a tenth of a second.
MANY_NODES = 1 << 18
MANY_BYTES = 1 << 24

#: A wait for another thread is looked at after so many seconds. A signal that comes just before a wait doesn't end it.
WAIT = 0.05


class Alive:
    """Something that a thread alone has, so that a weak reference to it tells when the thread has ended."""

    __slots__ = ("__weakref__",)


def started(run: Callable[[Alive], object]) -> weakref.ReferenceType[Alive]:
    """Starts a thread, and returns a reference that gives None once it has ended. Raises `RuntimeError` if no thread can be started.

    A thread that finds no memory for its first step ends without a word.
    """
    alive = Alive()
    seen = weakref.ref(alive)
    _thread.start_new_thread(run, (alive,))
    return seen


class ThreadLost(MemoryError):
    """A thread ended before it could begin its work, because memory ran out."""


def _somebody() -> bool:
    return True


class Outcome(Generic[_Result]):
    """What some work in another thread comes to. One thread waits for it.

    To tell it takes no memory, of which there may be none when the work is done. A handler that raises leaves nothing half changed, as it
    does in a `Future`. `teller` gives something true as long as a thread may yet tell it.
    """

    __slots__ = ("_end", "_result", "_error", "_has_come", "teller")

    def __init__(self, teller: Callable[[], object] = _somebody) -> None:
        self._result: Optional[_Result] = None
        self._error: Optional[BaseException] = None
        self._has_come, self.teller = False, teller
        self._end = _thread.allocate_lock()
        self._end.acquire()

    def begin(self, work: Callable[[], _Result]) -> None:
        """Starts a thread that does the work. Raises `RuntimeError` if no thread can be started."""
        self.teller = started(lambda _: self.take(work))

    def take(self, work: Callable[[], _Result]) -> None:
        """Does the work, and has what it returns or raises.

        >>> outcome = Outcome(); outcome.take(lambda: 7); waited(outcome)
        7
        """
        try:
            self._result = work()
        except BaseException as error:
            self._error = error
        self._has_come = True
        self._end.release()

    def has_come(self) -> bool:
        """Returns whether the work is done.

        >>> Outcome().has_come()
        False
        """
        return self._has_come

    def is_lost(self) -> bool:
        """Returns whether nobody will tell it any more.

        >>> Outcome().is_lost(), Outcome(lambda: None).is_lost()
        (False, True)
        """
        return not self.teller() and not self._has_come


def waited(outcome: Outcome[_Result]) -> _Result:
    """Returns what the work returned, or raises what it raised. A signal handler that raises ends the wait for it.

    >>> outcome = Outcome(); outcome.take(lambda: 7); waited(outcome)
    7
    """
    while not outcome._has_come:
        outcome._end.acquire(timeout=WAIT)
        if outcome.is_lost():
            raise ThreadLost("a thread had no memory for its work")
    if outcome._error is not None:
        raise outcome._error
    return cast(_Result, outcome._result)


def interruptible(work: Callable[[], _Result], is_long: bool, *used: Guarded) -> _Result:
    """Returns what some work returns. If it is long, a signal handler that raises ends the wait for it.

    A call of the library can't be ended. So once it was begun, it goes on to its end in a thread of its own, which holds the locks of
    the objects that it uses. Who uses these objects meanwhile waits for it. What it returns is thrown away.

    Handlers run in the main thread alone, so the work of other threads is done where it is called. So is that of a handler which uses
    an object in the middle of another call on it, because this thread has the object's lock.

    >>> interruptible(lambda: 7, True)
    7
    """
    if not is_long or threading.get_ident() != threading.main_thread().ident:
        return work()
    if any(item._lock._is_owned() for item in used):  # type: ignore[attr-defined]
        return work()
    task = _Task(work, used)
    try:
        task.outcome.begin(task.result)
    except RuntimeError:
        if task.claimed():
            return work()  # no thread can be started
        raise
    except BaseException:
        task.claimed()
        raise
    try:
        return cast(_Result, waited(task.outcome))
    except ThreadLost:
        if task.claimed():
            return work()  # the thread ended before it began the work
        raise
    except BaseException:
        task.claimed()
        raise


class _Task(Generic[_Result]):
    """Work that another thread does. That thread has no object of `threading`, as a handler that raises may leave one half made."""

    def __init__(self, work: Callable[[], _Result], used: Sequence[Guarded]) -> None:
        self._work, self._used = work, used
        self._claim = _thread.allocate_lock()
        #: What the work came to, or None if nobody waited for it any more.
        self.outcome: Outcome[Optional[_Result]] = Outcome()

    def claimed(self) -> bool:
        """Returns True once: to the thread that begins the work, or to the one that no longer waits for it."""
        return self._claim.acquire(blocking=False)

    def result(self) -> Optional[_Result]:
        """Does the work, unless nobody waits for it. Before it is begun it has the locks, so that nobody sees an object as it was."""
        with all_locked(self._used):
            return self._work() if self.claimed() else None
        raise AssertionError("an exit stack swallows nothing")

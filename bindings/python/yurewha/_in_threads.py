"""Pieces of work that several threads do at once."""

from __future__ import annotations

import time
import weakref
from collections import deque
from functools import partial
from itertools import islice
from typing import Callable, Deque, Generator, Generic, Iterable, Iterator, List, Optional, SupportsIndex, Tuple, TypeVar

from ._errors import InvalidArguments, but_got
from ._hash import checked_u64
from ._interrupts import Alive, Outcome, started, waited

_Piece = TypeVar("_Piece")
_Result = TypeVar("_Result")

#: Returns whether nobody waits for some work any more.
Stopped = Callable[[], bool]

#: The results of some pieces, up to the first that raised an error, and that error.
_Done = Tuple[List[_Result], Optional[BaseException]]

#: How many batches each thread has before it, so that none waits for a longer one.
_QUEUED = 8

#: After so many seconds a call that was ended looks again whether its threads have ended their work.
_PAUSE = 0.001


def checked_threads(threads: SupportsIndex) -> int:
    """Returns a number of threads. Raises `InvalidArguments` unless there is at least one.

    >>> checked_threads(4)
    4
    """
    count = checked_u64(threads, "threads")
    if count == 0:
        raise InvalidArguments(but_got("threads must be at least 1", count))
    return count


def in_threads(
    work: Callable[[_Piece, Stopped], _Result], pieces: Iterable[_Piece], threads: int, batch: int = 1
) -> Generator[_Result, None, None]:
    """Yields what the work returns of each piece, in order. Several threads work at once, or the caller alone if there is to be one.

    A thread is handed `batch` pieces at a time, because handing over takes tens of microseconds. If it is ended early, no further
    piece is begun, and it waits for those that were. Work that takes long should look at its second argument now and then.

    >>> list(in_threads(lambda piece, stopped: piece * piece, range(4), 2))
    [0, 1, 4, 9]
    """
    if threads == 1:
        for piece in pieces:
            yield work(piece, bool)
        return
    crew: _Crew[_Piece, _Result] = _Crew(work, threads)
    coming: Deque[Outcome[_Done[_Result]]] = deque()
    left = iter(pieces)
    try:
        for several in iter(lambda: list(islice(left, batch)), []):
            coming.append(crew.handed(several))
            if len(coming) > _QUEUED * threads:
                yield from _results(waited(coming.popleft()))
        while coming:
            yield from _results(waited(coming.popleft()))
    finally:
        try:
            crew.stop()
        finally:
            crew.stop()  # a second handler may raise before the first call has begun, or while it waits


def _results(done: _Done[_Result]) -> Iterator[_Result]:
    results, error = done
    yield from results
    if error is not None:
        raise error


class _Crew(Generic[_Piece, _Result]):
    """Threads at work. Each ends once nothing is left to do.

    It has no lock, because a handler that raises twice may leave one locked for ever. Lists and ranges change in one step.
    """

    def __init__(self, work: Callable[[_Piece, Stopped], _Result], threads: int) -> None:
        self._work, self._stopped = work, False
        self._left: Deque[Tuple[List[_Piece], Outcome[_Done[_Result]]]] = deque()
        # The places of threads: those that no thread has had yet, and those that were given back.
        self._new_places = iter(range(threads))
        self._free_places: List[None] = []
        # One item for each thread that is at work.
        self._at_work: List[None] = []
        # The threads that were alive when the last one was started.
        self._threads: List[weakref.ReferenceType[Alive]] = []

    @property
    def _working(self) -> int:
        return len(self._at_work)

    def is_stopped(self) -> bool:
        """Returns whether nobody waits any more."""
        return self._stopped

    def handed(self, pieces: List[_Piece]) -> Outcome[_Done[_Result]]:
        """Hands some pieces over. Starts a thread if there is a place for one."""
        outcome: Outcome[_Done[_Result]] = Outcome(self._is_alive)
        self._left.append((pieces, outcome))
        if self._has_taken_a_place():
            self._threads = [*(thread for thread in self._threads if thread()), started(self._run)]
        return outcome

    def _is_alive(self) -> bool:
        """Returns whether a thread may yet do what is left."""
        return any(thread() for thread in self._threads)

    def _has_taken_a_place(self) -> bool:
        try:
            self._free_places.pop()
        except IndexError:
            return next(self._new_places, None) is not None
        return True

    def _run(self, _: Alive) -> None:
        """Works until nothing is left. What is handed over while it ends is seen here, or by whoever has taken the place."""
        while True:
            try:
                pieces, outcome = self._left.popleft()
            except IndexError:
                self._free_places.append(None)
                if not self._left or not self._has_taken_a_place():
                    return
            else:
                outcome.take(partial(self.do, pieces))

    def do(self, pieces: List[_Piece]) -> _Done[_Result]:
        """Does the work on some pieces, one after another, as long as somebody waits for them."""
        results: List[_Result] = []
        self._at_work.append(None)
        try:
            for piece in pieces:
                if self._stopped:
                    break
                results.append(self._work(piece, self.is_stopped))
            return results, None
        except BaseException as error:
            return results, error
        finally:
            self._at_work.pop()

    def stop(self) -> None:
        """Waits until no thread works. Handlers that raise may prevent this. So what a thread reads is lent to the thread itself."""
        self._stopped = True
        while self._working:
            time.sleep(_PAUSE)

"""Files that are read in parts by coroutines. Each part is checked against the file hash."""

from __future__ import annotations

from inspect import isawaitable
from typing import Awaitable, Callable, NoReturn, Optional, SupportsIndex, TypeVar, Union, final

from ._checked_parts import CheckedParts, Steps, checked_places, joined
from ._hash import Hash, HashLike
from ._range_proof import PROOF_LIMIT, RangeProof
from ._types import BytesLike

__all__ = ["AsyncVerifiedFile"]

_Result = TypeVar("_Result")


@final
class AsyncVerifiedFile(CheckedParts):
    """A read-only file that is somewhere else, for coroutines: what `VerifiedFile` is for threads.

    `fetch` and `prove` are as there, but they may return an awaitable of the bytes or of the proof. So `prove` may be
    `HashTree.proof_of_bytes` itself. The other arguments are those of `VerifiedFile`, too, and so is what is kept and what is refused.

    Any number of tasks may read one file at once. A part is checked in the thread of the event loop, at most 16 MiB at once, which takes
    some milliseconds. A read that is cancelled, for example by `asyncio.wait_for`, leaves what it has checked for the next one.

    >>> import asyncio
    >>> from yurewha import HashTree, data_hash
    >>> tree = HashTree([(data_hash(data), len(data)) for data in (b"a chunk", b"another", b"and a third")])
    >>> async def fetch(start, stop):
    ...     return b"a chunkanotherand a third"[start:stop]
    >>> file = AsyncVerifiedFile(tree.file_hash(), fetch, tree.proof_of_bytes)
    >>> async def read():
    ...     return await file.read_at(8, 10), await file.size()
    >>> asyncio.run(read())
    (b'no', 25)
    """

    def __init__(
        self,
        file_hash: Union[HashLike, str],
        fetch: Callable[[int, int], Union[Awaitable[BytesLike], BytesLike]],
        prove: Callable[[int, int], Union[Awaitable[RangeProof], RangeProof]],
        salt: Optional[BytesLike] = None,
        *,
        cache_size: SupportsIndex = 1 << 22,
        chunk_limit: SupportsIndex = 1 << 20,
        proof_limit: SupportsIndex = PROOF_LIMIT,
        piece: SupportsIndex = 0,
    ) -> None:
        self._begin(file_hash, fetch, prove, salt, cache_size, chunk_limit, proof_limit, piece)

    def __init_subclass__(cls) -> None:
        raise TypeError("AsyncVerifiedFile can't be subclassed")

    @property
    def file_hash(self) -> Hash:
        """The hash that all parts are checked against.

        >>> from yurewha import HashTree, data_hash
        >>> tree = HashTree([(data_hash(b"abc"), 3)])
        >>> AsyncVerifiedFile(tree.file_hash(), lambda start, stop: b"abc"[start:stop], tree.proof_of_bytes).file_hash.hex()[:16]
        '55b9df318a7c45f4'
        """
        return self._hash

    async def size(self) -> int:
        """Returns the size of the file in bytes. If nothing was checked yet, the first chunk is fetched and checked.

        >>> import asyncio
        >>> from yurewha import HashTree, data_hash
        >>> tree = HashTree([(data_hash(b"abc"), 3)])
        >>> file = AsyncVerifiedFile(tree.file_hash(), lambda start, stop: b"abc"[start:stop], tree.proof_of_bytes)
        >>> asyncio.run(file.size())
        3
        """
        return await _awaited(self._found_size())

    async def read_at(self, start: int, stop: int) -> bytes:
        """Returns the bytes from `start` up to, but without, `stop`, or those of them that the file has.

        Raises `InvalidArguments` if `stop` is less than `start`.

        >>> import asyncio
        >>> from yurewha import HashTree, data_hash
        >>> tree = HashTree([(data_hash(b"abc"), 3)])
        >>> file = AsyncVerifiedFile(tree.file_hash(), lambda start, stop: b"abc"[start:stop], tree.proof_of_bytes)
        >>> asyncio.run(file.read_at(1, 7))
        b'bc'
        """
        begin, end = checked_places(start, stop)
        return joined(await _awaited(self._parts(begin, end - begin)))

    def __reduce__(self) -> NoReturn:
        raise TypeError("an AsyncVerifiedFile can't be pickled")

    def __repr__(self) -> str:
        return f"<yurewha.AsyncVerifiedFile {self._hash}>"


async def _awaited(steps: Steps[_Result]) -> _Result:
    """Makes the calls that some work asks for, one after another, and returns its result. What can be awaited is."""
    try:
        call, start, stop = next(steps)
        while True:
            try:
                answer = call(start, stop)
                if isawaitable(answer):
                    answer = await answer
            except BaseException as error:
                call, start, stop = steps.throw(error)
            else:
                call, start, stop = steps.send(answer)
    except StopIteration as end:
        result: _Result = end.value
        return result

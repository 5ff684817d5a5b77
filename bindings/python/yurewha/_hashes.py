"""Lists of hashes in one block, and hashing many chunks in one call."""

from __future__ import annotations

import ctypes
import re
from array import array
from typing import Dict, Iterable, Iterator, List, SupportsIndex, Union, cast, final

from ._arrow_out import Capsules, capsules_of_hashes, schema_of_hashes
from ._errors import InvalidArguments, InvalidText, but_got, error_of
from ._hash import PIECE, STEP, Hash, Hasher, HashLike, Start, checked_bool, raw_of, whole_number
from ._lent import Lent, is_read_only
from ._library import LONG_BYTES, CHash, calls_for
from ._in_threads import Stopped, checked_threads, in_threads
from ._packed import BYTE, HASH, WORD, Packed, block_or_items, checked_block, is_column, told_format
from ._types import BytesLike, Texts

__all__ = ["Hashes", "data_hashes"]

#: What a call accepts as hashes.
HashesLike = Union["Hashes", Iterable[HashLike], BytesLike]

#: What a call accepts as a column of hex texts.
HexTexts = Union[Texts, Iterator[str]]

#: What a call accepts as offsets.
OffsetsLike = Union[Iterable[SupportsIndex], BytesLike]

_SIZE = 32
#: How many bytes a thread hashes at once where they are, if there are several threads: at least, and at most.
_LEAST_SHARE, _SHARE = 1 << 19, 1 << 22
#: How many pieces each thread gets between these bounds, so that all end at about the same time.
_PIECES_EACH = 4
_FORMS = ((1, re.compile(BYTE)), (8, re.compile(WORD)), (_SIZE, re.compile(HASH)))
_EXPECTED = (
    "packed hashes must be bytes, four unsigned words of 8 bytes in a row, each with its least byte first, or plain items of 32 "
    "bytes")


@final
class Hashes(Packed[Hash]):
    """A list of hashes in one block of 32 bytes each: a column of hashes. It is immutable.

    It is made from hashes, each a `Hash` or 32 `bytes`, or from a block. A block is `bytes` or anything with the buffer
    protocol. It may be a NumPy array of `V32`, of 32 bytes a row, or of four unsigned words of eight bytes a row. It may
    also be an Arrow buffer of `fixed_size_binary(32)`. `numpy.asarray(hashes)` has rows of four words.

    >>> hashes = Hashes([Hash.random_from_seed(1), Hash.random_from_seed(2)])
    >>> len(hashes), hashes[1] == Hash.random_from_seed(2), len(hashes.packed)
    (2, True, 64)
    >>> Hashes(hashes.packed) == hashes
    True
    """

    __slots__ = ()

    _SIZE = _SIZE

    def __new__(cls, hashes: HashesLike = ()) -> Hashes:
        if isinstance(hashes, Hashes):
            return hashes
        if isinstance(hashes, str):
            raise TypeError(but_got("hashes must be a list of them, or a block of bytes", "a str; Hashes.from_hex reads texts"))
        given = block_or_items(hashes, _EXPECTED)
        if not isinstance(given, memoryview):
            return cls._of(b"".join(_raw_items(given)))
        with given:
            return cls._of(checked_block(given, _SIZE, _FORMS, _EXPECTED))

    def __init_subclass__(cls) -> None:
        raise TypeError("Hashes can't be subclassed")

    @staticmethod
    def from_hex(texts: HexTexts) -> Hashes:
        """Returns the hashes with these hex texts. `Hash.from_hex` says which texts are valid.

        Raises `InvalidText` with the index of the first invalid text.

        >>> Hashes.from_hex([64 * "0", 63 * "0" + "A"])[1].hex()[-2:]
        '0a'
        """
        if isinstance(texts, str):
            raise TypeError(but_got("hex texts must be a list of them", "a str"))
        listed = list(texts)
        try:
            packed = bytes.fromhex("".join(listed))
        except (TypeError, ValueError):
            packed = b""
        if len(packed) != _SIZE * len(listed) or any(len(text) != 2 * _SIZE for text in listed):
            return Hashes(_read_hex(text, place) for place, text in enumerate(listed))
        return Hashes._of(words_reversed(packed))

    def hex(self) -> List[str]:
        """Returns the hex text of each hash, as `Hash.hex` writes it.

        >>> Hashes([Hash(bytes(range(32)))]).hex()[0][:16]
        '0706050403020100'
        """
        text = words_reversed(self._packed).hex()
        return [text[start:start + 2 * _SIZE] for start in range(0, len(text), 2 * _SIZE)]

    @property
    def __array_interface__(self) -> Dict[str, object]:
        """Lets NumPy share the block, read-only.

        >>> Hashes([Hash()]).__array_interface__["shape"]
        (1, 4)
        """
        return {"version": 3, "shape": (len(self), 4), "typestr": "<u8", "data": self._packed}

    def __arrow_c_schema__(self) -> object:
        """Returns Arrow's type of the column, `fixed_size_binary(32)`. It needs pyarrow, as `__arrow_c_array__` does."""
        return schema_of_hashes()

    def __arrow_c_array__(self, requested_schema: object = None) -> Capsules:
        """Lets readers of Arrow share the block. Raises `ImportError` if pyarrow isn't installed, as it makes the capsules."""
        return capsules_of_hashes(self._packed, requested_schema)

    def _item(self, start: int) -> Hash:
        return Hash._of(self._packed[start:start + _SIZE])

    def __iter__(self) -> Iterator[Hash]:
        for start in range(0, len(self._packed), _SIZE):
            yield self._item(start)

    def __add__(self, other: HashesLike) -> Hashes:
        return Hashes._of(self._packed + Hashes(other)._packed)


def _raw_items(hashes: Iterable[object]) -> Iterator[bytes]:
    for place, hash_ in enumerate(hashes):
        yield hash_._raw if type(hash_) is Hash else raw_of(hash_, f"hash {place}")


def words_reversed(packed: bytes) -> bytes:
    """Reverses each group of eight bytes, as hex texts do.

    >>> words_reversed(bytes(range(8))) == bytes(range(7, -1, -1))
    True
    """
    words = array("Q", packed)
    words.byteswap()
    return words.tobytes()


def _read_hex(text: str, place: int) -> Hash:
    try:
        return Hash.from_hex(text)
    except (InvalidText, TypeError) as error:
        raise type(error)(f"text {place}: {error}") from None


def column_of(hashes: Union[HashesLike, HexTexts]) -> Hashes:
    """Returns a column of hashes or of hex texts.

    >>> column_of([64 * "0"]) == column_of([Hash()]) == column_of(bytes(32))
    True
    """
    if isinstance(hashes, (Hashes, str)):
        return Hashes(hashes)
    given = block_or_items(hashes, _EXPECTED)
    if isinstance(given, memoryview):
        with given:
            return Hashes(given)
    listed = list(given)
    if listed and isinstance(listed[0], str):
        return Hashes.from_hex(cast(List[str], listed))
    return Hashes(cast(List[HashLike], listed))


def data_hashes(
    data: BytesLike, offsets: OffsetsLike, *, nobody_writes: bool = False, threads: SupportsIndex = 1
) -> Hashes:
    """Returns the hash of each chunk of some bytes, as `data_hash` does.

    Chunk i starts at offset i and ends before offset i + 1. Raises `InvalidArguments` if there is no offset, if an offset is
    less than the one before it, or if one is past the end.

    Read-only bytes are hashed in place. Other bytes are copied, a MiB or a chunk at a time. With `nobody_writes=True` the
    caller promises that nobody writes to them, and they aren't copied. From 16 KiB on, the interpreter's lock is released.
    `threads` is how many threads hash at once, each a piece of at most 4 MiB or one chunk. Ctrl-C ends the call.

    >>> from yurewha import data_hash
    >>> data_hashes(b"abcd", [0, 3, 4]) == Hashes([data_hash(b"abc"), data_hash(b"d")])
    True
    """
    checked_bool(nobody_writes, "nobody_writes")
    count = checked_threads(threads)
    with Lent(data) as lent:
        view = lent.view
        places = checked_offsets(offsets, lent.length)
        if not view.c_contiguous:
            return data_hashes(view.tobytes(), places, threads=count)
        lent.hold()
        in_place = nobody_writes or is_read_only(view)
        if in_place and count == 1 and places[-1] - places[0] <= STEP:
            return Hashes._of(_hashed(lent.at(0), lent.length, places))

        def hash_piece(piece: List[int], stopped: Stopped) -> bytes:
            # A thread may go on after the call was ended. So the bytes are lent to each piece of work.
            with Lent(view) as own:
                own.hold()
                return _hashed_lent(own, piece, in_place, stopped)

        most = PIECE if not in_place else STEP if count == 1 else _share(places[-1] - places[0], count)
        return Hashes._of(b"".join(in_threads(hash_piece, pieces_of(places, most), count)))


def _hashed_lent(lent: Lent, places: List[int], in_place: bool, stopped: Stopped) -> bytes:
    """Returns the hashes of the chunks between these offsets."""
    start, end = places[0], places[-1]
    if len(places) == 2 and end - start > STEP:
        return _hashed_in_steps(lent, start, end, in_place, stopped)
    if in_place:
        return _hashed(lent.at(start), end - start, [place - start for place in places])
    return hashed_piece(lent.piece(start, end), places)


def _share(length: int, threads: int) -> int:
    """Returns how many bytes of so many a thread hashes at once."""
    return max(min(length // (threads * _PIECES_EACH), _SHARE), _LEAST_SHARE)


def _hashed_in_steps(lent: Lent, start: int, end: int, in_place: bool, stopped: Stopped) -> bytes:
    """Returns the hash of a long chunk. Between two steps it looks whether it has to stop."""
    chunk = Hasher()
    for at in range(start, end, STEP if in_place else PIECE):
        if stopped():
            break
        stop = min(at + (STEP if in_place else PIECE), end)
        if in_place:
            chunk._add(lent.at(at), stop - at)
        else:
            chunk.update(lent.piece(at, stop))
    return chunk.hash()._raw


def _hashed(start: Start, length: int, places: List[int]) -> bytes:
    """Returns the hashes of the chunks between these offsets."""
    count = len(places) - 1
    out, offsets = (CHash * count)(), (ctypes.c_size_t * len(places))(*places)
    calls = calls_for(places[-1] - places[0], LONG_BYTES)
    status = calls.yurewha_data_hashes(start, length, offsets, len(places), out, count)
    if status:
        raise error_of(status)
    return bytes(out)


def hashed_piece(copy: bytes, places: List[int]) -> bytes:
    """Returns the hashes of the chunks between these offsets. `copy` has the bytes from the first offset on.

    >>> hashed_piece(b"abc", [7, 8, 10]) == data_hashes(b"abc", [0, 1, 3]).packed
    True
    """
    return _hashed(copy, len(copy), [place - places[0] for place in places])


def pieces_of(places: List[int], most: int = PIECE) -> Iterator[List[int]]:
    """Yields the offsets of chunks that are copied or hashed together: at most so many bytes, a MiB, or one chunk.

    >>> list(pieces_of([0, 1, 2 << 20, 3 << 20, (3 << 20) + 1]))
    [[0, 1], [1, 2097152], [2097152, 3145728], [3145728, 3145729]]
    """
    piece = places[:1]
    for place in places[1:]:
        if len(piece) > 1 and place - piece[0] > most:
            yield piece
            piece = piece[-1:]
        piece.append(place)
    yield piece


def checked_offsets(offsets: OffsetsLike, end: int, of: str = "bytes") -> List[int]:
    """Returns the offsets of chunks in `end` bytes, or of lists in `end` chunks. Raises the errors of `data_hashes`.

    >>> checked_offsets(range(3), 2)
    [0, 1, 2]
    """
    expected = f"offsets must be whole numbers, one more than there are {'chunks' if of == 'bytes' else 'lists'}"
    given = block_or_items(offsets, expected)
    if isinstance(given, memoryview):
        with given:
            kinds = "@?[bBhHiIlLqQ]" if is_column(offsets) else "@?[hHiIlLqQ]"
            if not re.fullmatch(kinds, given.format) or given.ndim != 1:
                raise InvalidArguments(but_got(expected, told_format(given)))
            places = given.tolist()
    else:
        listed = cast(Iterable[SupportsIndex], given)
        places = [whole_number(offset, f"offset {number}") for number, offset in enumerate(listed)]
    if not places:
        raise InvalidArguments(but_got(expected, "none"))
    before = 0
    for number, place in enumerate(places):
        if place < before:
            raise InvalidArguments(but_got(f"offset {number} must be at least {before}", place))
        before = place
    if before > end:
        raise InvalidArguments(but_got(f"the last offset must be at most {end}, the number of {of}", before))
    return places

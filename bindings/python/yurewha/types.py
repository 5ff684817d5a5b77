"""The types of what the calls take, for annotations of your own. Each call checks its arguments itself, whatever their types say.

>>> from yurewha.types import ChunksLike
>>> def names(files: "list[ChunksLike]") -> "list[str]":
...     return [file_hash(chunks).hex() for chunks in files]
"""

from ._chunks import Chunk, ChunksLike, SizesLike
from ._hash import HashLike
from ._hashes import HashesLike
from ._numbers import NumbersLike
from ._types import BytesLike

__all__ = ["BytesLike", "Chunk", "ChunksLike", "HashLike", "HashesLike", "NumbersLike", "SizesLike"]

"""The memory of the library, as an allocator counts it that is told to it before it asks for any: see counting.c."""

import contextlib
import ctypes
import gc
import shutil
import subprocess
import tempfile
from pathlib import Path
from typing import Iterator, Optional

from yurewha import _library

_COUNTS = {"live_blocks": [], "live_bytes": [], "most_bytes": [], "count_anew": [ctypes.c_long]}


def _compiled() -> Optional[ctypes.CDLL]:
    """The allocator, or None where there is no compiler."""
    if not shutil.which("gcc"):
        return None
    with tempfile.TemporaryDirectory() as folder:
        made = Path(folder, "counting.so")
        subprocess.run(["gcc", "-std=c11", "-O2", "-shared", "-fPIC", "-o", made, Path(__file__).with_suffix(".c")], check=True)
        return ctypes.CDLL(str(made))


def _told(allocator: Optional[ctypes.CDLL]) -> Optional[ctypes.CDLL]:
    """The allocator, or None where the library has asked for memory before, or has no such call."""
    tell = getattr(_library._long, "yurewha_set_allocator", None)
    if allocator is None or tell is None or tell(allocator.counted_malloc, allocator.counted_realloc, allocator.counted_free):
        return None
    for name, types in _COUNTS.items():
        getattr(allocator, name).argtypes, getattr(allocator, name).restype = types, ctypes.c_long
    return allocator


#: The counts, or None where nothing is counted.
counts = _told(_compiled())
#: How many blocks tests have lost on purpose.
lost = 0


def live_blocks() -> int:
    """How many blocks objects have that can be freed, or 0 where nothing is counted."""
    gc.collect()
    return counts.live_blocks() - lost if counts else 0


@contextlib.contextmanager
def losing() -> Iterator[None]:
    """What doesn't live on, but isn't freed, because a handler raises within a `__del__`, whose errors Python drops."""
    global lost
    before = live_blocks()
    yield
    lost += max(live_blocks() - before, 0)

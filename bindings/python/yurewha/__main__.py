"""`python -m yurewha` prints what is installed, and the level of processors whose code runs; `python -m yurewha sum` hashes of files."""

import ctypes
import signal
import sys
from typing import List

from . import __version__, _sum
from ._library import IS_WINDOWS, LEVEL, NAME, PATH, short


def loaded() -> str:
    """The path of the loaded library, even if the system's loader found it; on Windows its name in that case.

    >>> NAME in loaded()
    True
    """
    if PATH == NAME and not IS_WINDOWS:
        with open("/proc/self/maps", encoding="utf-8") as maps:
            for line in maps:
                file = line.rstrip("\n").split(maxsplit=5)[-1]
                if file.rpartition("/")[2].startswith(NAME):
                    return file
    return PATH


def version() -> str:
    """The version of the library.

    >>> version().count(".")
    2
    """
    text, length = ctypes.create_string_buffer(32), ctypes.c_size_t()
    short.yurewha_version(text, len(text), length)
    return text.raw[:length.value].decode("ascii")


def report() -> List[str]:
    """The lines that `python -m yurewha` prints.

    >>> report()[0] == f"yurewha {__version__}"
    True
    """
    return [f"yurewha {__version__}", f"library: {loaded()}, version {version()}", f"level: {LEVEL}"]


def main(words: List[str]) -> int:
    """Does what the words of a command say, and returns its status."""
    if words[:1] == ["sum"]:
        if signal.getsignal(signal.SIGINT) is signal.default_int_handler:
            signal.signal(signal.SIGINT, signal.SIG_DFL)  # Ctrl-C ends the process without a word
        return _sum.main(words[1:])
    if words:
        print("usage: python -m yurewha [sum [-h | WORD..]]", file=sys.stderr)
        return 2
    print("\n".join(report()))
    return 0


if __name__ == "__main__":
    sys.exit(main(sys.argv[1:]))

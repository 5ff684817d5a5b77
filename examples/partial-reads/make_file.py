#!/usr/bin/env python3
"""Makes a file of random bytes and the list of its chunks, and prints its file hash.

    ./make_file.py FOLDER [BYTES]      a gigabyte, if no number of bytes is given

The chunks are cut at random places, 8 to 128 KiB from one another. A real file is cut as a Xet client cuts it.
"""

from __future__ import annotations

import random
import sys
from pathlib import Path

ROOT = Path(__file__).resolve().parents[2]
sys.path.insert(0, str(ROOT / "bindings" / "python"))

from yurewha import Chunks, Hash, file_hash, hash_chunks  # noqa: E402

PIECE = 1 << 20
LONGEST_CHUNK = 128 << 10


def make_file(folder: Path, size: int, seed: int = 1) -> Hash:
    """Writes `data` and `chunks`, 40 bytes for each chunk, into a folder. Returns the file hash."""
    rng, cuts = random.Random(seed), [0]
    with open(folder / "data", "wb") as file:
        for start in range(0, size, PIECE):
            file.write(rng.randbytes(min(PIECE, size - start)))
    while cuts[-1] < size:
        cuts.append(min(size, cuts[-1] + rng.randrange(8 << 10, LONGEST_CHUNK)))
    sizes = [after - before for before, after in zip(cuts, cuts[1:])]
    chunks = Chunks.from_columns(hash_chunks(folder / "data", cuts, threads=4), sizes)
    (folder / "chunks").write_bytes(chunks.packed)
    return file_hash(chunks)


if __name__ == "__main__":
    if len(sys.argv) not in (2, 3):
        sys.exit(__doc__)
    print(make_file(Path(sys.argv[1]), int(sys.argv[2]) if len(sys.argv) > 2 else 10**9))

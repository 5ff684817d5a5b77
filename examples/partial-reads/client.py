#!/usr/bin/env python3
"""Reads a part of a file on a server, and checks it against the file hash alone.

    ./client.py URL FILE_HASH START STOP > PART

It writes the bytes from START up to STOP to standard output, if all of them are the file's, and nothing otherwise. If an answer is cut
off, it asks again, for what it doesn't have yet. On standard error it says what it fetched.
"""

from __future__ import annotations

import sys
from http.client import IncompleteRead
from pathlib import Path
from urllib.request import Request, urlopen

ROOT = Path(__file__).resolve().parents[2]
sys.path.insert(0, str(ROOT / "bindings" / "python"))

from yurewha import Hash, ProofMismatch, RangeProof, VerifiedFile, YurewhaError  # noqa: E402

#: Longer proofs aren't read.
LONGEST_PROOF = 1 << 20
#: How often it asks for a part.
TRIES = 3


class Remote:
    """A file on a server, and how many bytes of it and of proofs were fetched."""

    def __init__(self, url: str) -> None:
        self.url = url
        self.data_bytes = self.proof_bytes = self.cut_answers = 0

    def fetch(self, start: int, stop: int) -> bytes:
        """Returns some bytes of the file. If more come than were asked for, it reads one of them, so that they are refused."""
        with urlopen(Request(f"{self.url}/data", headers={"Range": f"bytes={start}-{stop - 1}"})) as answer:
            try:
                data: bytes = answer.read(stop - start + 1)
            except IncompleteRead as error:
                data = error.partial
        self.data_bytes += len(data)
        self.cut_answers += len(data) < stop - start
        return data

    def prove(self, start: int, stop: int) -> RangeProof:
        """Returns the proof of some bytes of the file."""
        with urlopen(f"{self.url}/proof?start={start}&stop={stop}") as answer:
            text: bytes = answer.read(LONGEST_PROOF + 1)
        if len(text) > LONGEST_PROOF:
            raise ProofMismatch(f"the proof has more than {LONGEST_PROOF} bytes")
        self.proof_bytes += len(text)
        return RangeProof.from_json(text)


def read(remote: Remote, file_hash: Hash, start: int, stop: int) -> tuple[bytes, int]:
    """Returns a part of the file, and the size of the file. What was checked of an answer that was cut off isn't fetched again."""
    file = VerifiedFile(file_hash, remote.fetch, remote.prove)
    while True:
        cut = remote.cut_answers
        try:
            return file.read_at(start, stop), file.size
        except ProofMismatch:
            if not cut < remote.cut_answers < TRIES:
                raise


def main(url: str, file_hash: str, start: str, stop: str) -> int:
    remote = Remote(url)
    try:
        part, size = read(remote, Hash.from_hex(file_hash), int(start), int(stop))
        sys.stdout.buffer.write(part)
        sys.stdout.buffer.flush()
    except (YurewhaError, OSError, ValueError) as error:  # an error of a server is an OSError; a START that is no number is a ValueError
        print(f"refused: {error}", file=sys.stderr)
        return 1
    fetched = f"{remote.data_bytes:,} bytes and {remote.proof_bytes:,} of proofs were fetched"
    if remote.cut_answers:
        fetched += f", and answers were cut off: {remote.cut_answers}"
    print(f"{len(part):,} bytes of {size:,} are verified; {fetched}", file=sys.stderr)
    return 0


if __name__ == "__main__":
    if len(sys.argv) != 5:
        sys.exit(__doc__)
    sys.exit(main(*sys.argv[1:]))

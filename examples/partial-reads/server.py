#!/usr/bin/env python3
"""Serves a file in parts, with a proof of each, to this machine alone.

    ./server.py FOLDER [PORT]      the folder is one that make_file.py filled; the port is 8000 if none is given

`GET /data` with the header `Range: bytes=FIRST-LAST` returns these bytes, and with any other range, or none, the whole file, as RFC 9110
allows. `GET /proof?start=START&stop=STOP` returns the proof of the chunks with the bytes from START up to STOP, as JSON. Nobody has to
trust the server.
"""

from __future__ import annotations

import re
import sys
from http import HTTPStatus
from http.server import BaseHTTPRequestHandler, ThreadingHTTPServer
from pathlib import Path

ROOT = Path(__file__).resolve().parents[2]
sys.path.insert(0, str(ROOT / "bindings" / "python"))

from yurewha import HashTree, InvalidArguments  # noqa: E402


class Server(ThreadingHTTPServer):
    """A server of one file. It keeps the hash tree, so that a proof takes microseconds."""

    def __init__(self, folder: Path, port: int, handler: type[Handler]) -> None:
        super().__init__(("127.0.0.1", port), handler)
        self.path = folder / "data"
        self.tree = HashTree((folder / "chunks").read_bytes())
        self.size = self.tree.total_size


class Handler(BaseHTTPRequestHandler):
    """Answers a request."""

    server: Server

    def do_GET(self) -> None:
        asked = re.fullmatch(r"/proof\?start=(\d+)&stop=(\d+)", self.path)
        if asked:
            self.answer_proof(int(asked[1]), int(asked[2]))
        elif self.path == "/data":
            self.answer_data()
        else:
            self.send_error(HTTPStatus.NOT_FOUND)

    def answer_proof(self, start: int, stop: int) -> None:
        """Sends the proof of some bytes of the file, or 416 if it doesn't have them."""
        try:
            body = self.proof(start, stop)
        except InvalidArguments as error:
            self.send_error(HTTPStatus.REQUESTED_RANGE_NOT_SATISFIABLE, str(error))
            return
        self.answer(HTTPStatus.OK, body)

    def answer_data(self) -> None:
        """Sends the bytes of the range, as far as the file has them, or 416 if it has none of them."""
        size = self.server.size
        wanted = re.fullmatch(r"bytes=(\d+)-(\d+)", self.headers.get("Range", ""))
        first, last = (int(wanted[1]), min(int(wanted[2]), size - 1)) if wanted else (0, size - 1)
        if not wanted or int(wanted[2]) < first:  # a range that ends before it begins is invalid
            self.answer(HTTPStatus.OK, self.data(0, size))
        elif first >= size:
            self.answer(HTTPStatus.REQUESTED_RANGE_NOT_SATISFIABLE, b"", f"bytes */{size}")
        else:
            self.answer(HTTPStatus.PARTIAL_CONTENT, self.data(first, last + 1), f"bytes {first}-{last}/{size}")

    def answer(self, status: HTTPStatus, body: bytes, content_range: str | None = None) -> None:
        """Sends an answer."""
        self.send_response(status)
        if content_range:
            self.send_header("Content-Range", content_range)
        self.send_header("Content-Length", str(len(body)))
        self.end_headers()
        self.send(body)

    def send(self, body: bytes) -> None:
        self.wfile.write(body)

    def proof(self, start: int, stop: int) -> bytes:
        return self.server.tree.proof_of_bytes(start, stop).to_json().encode()

    def data(self, start: int, stop: int) -> bytes:
        with open(self.server.path, "rb") as file:
            file.seek(start)
            return file.read(stop - start)

    def log_message(self, *arguments: object) -> None:
        """Logs nothing."""


if __name__ == "__main__":
    if len(sys.argv) not in (2, 3):
        sys.exit(__doc__)
    with Server(Path(sys.argv[1]), int(sys.argv[2]) if len(sys.argv) > 2 else 8000, Handler) as server:
        print(f"serving {server.tree} at http://127.0.0.1:{server.server_address[1]}", flush=True)
        server.serve_forever()

"""The package beside this folder, or the one that is installed where YUREWHA_INSTALLED is set; and the model. What holds for each test.

Each test ends within some minutes, or its process does, after it has said where each thread is. After each file none of its objects lives.
"""

import faulthandler
import os
import sys
import time
from pathlib import Path

import pytest

HERE = Path(__file__).resolve().parent
if not os.environ.get("YUREWHA_INSTALLED"):
    sys.path.insert(0, str(HERE.parent))
sys.path.insert(0, str(HERE))
sys.path.insert(0, str(HERE.parents[2] / "tests/model"))

from counting import live_blocks  # noqa: E402 - it has to tell the library its allocator before any test asks for memory

# Files whose tests take long: random cases, other processes, signals, threads, and mypy. `python3 -m pytest` leaves them out, unless files or
# folders are named: `python3 -m pytest tests` runs all.
LONG = ("against_bytesio", "each_call", "interrupts", "locks", "model", "processes", "session_machine", "threads", "types")

#: A test may take so many seconds. With some faults a call waits for ever.
SECONDS = float(os.environ.get("YUREWHA_TEST_SECONDS", "600"))
#: After so many seconds, what threads had that were still at work when a test ended is freed.
LATE = 60


def pytest_ignore_collect(collection_path, config):
    """Whether a file isn't looked into: a long one, if no argument names it or its folder."""
    is_named = [Path(arg).name for arg in config.args] != ["tests"] or "tests" in config.invocation_params.args
    return True if collection_path.stem.removeprefix("test_") in LONG and not is_named else None


def pytest_configure(config):
    # Now nothing is captured yet.
    config.yurewha_standard_error = os.fdopen(os.dup(2), "w")


@pytest.hookimpl(hookwrapper=True)
def pytest_runtest_protocol(item):
    faulthandler.dump_traceback_later(SECONDS, exit=True, file=item.config.yurewha_standard_error)
    try:
        yield
    finally:
        faulthandler.cancel_dump_traceback_later()


@pytest.fixture(scope="module", autouse=True)
def nothing_lives_at_the_end(request):
    """The library has as many blocks as before the tests of a file, unless nothing counts them, or a failed test has them for its report."""
    before, failed, deadline = live_blocks(), request.session.testsfailed, None
    yield
    while live_blocks() > before and request.session.testsfailed == failed:
        deadline = deadline or time.monotonic() + LATE
        assert time.monotonic() < deadline, f"{live_blocks() - before} blocks of memory aren't freed"
        time.sleep(0.01)

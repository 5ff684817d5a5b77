"""The model's modules, from the folder model/ of the repository."""

from __future__ import annotations

import pathlib
import sys

sys.path.insert(0, str(pathlib.Path(__file__).resolve().parents[2] / "model"))

import altered_proofs  # noqa: E402
import chunker  # noqa: E402
import drawn_cases  # noqa: E402
import range_proof  # noqa: E402
import stored_merge  # noqa: E402
import test_model  # noqa: E402
import xet_model as m  # noqa: E402

__all__ = ["altered_proofs", "chunker", "drawn_cases", "m", "range_proof", "stored_merge", "test_model"]

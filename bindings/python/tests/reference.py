"""The reference lists, from the tests of the model."""

import importlib.util
from pathlib import Path


def load():
    path = Path(__file__).resolve().parents[3] / "tests/model" / "test_model.py"
    spec = importlib.util.spec_from_file_location("tests_of_the_model", path)
    module = importlib.util.module_from_spec(spec)
    spec.loader.exec_module(module)
    return module.REFERENCE_ROWS

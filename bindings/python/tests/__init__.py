"""Tests of the Python binding, run by `python3 -m unittest` in the folder above.

The engine's answers are compared with the repository's reference model, which shares no code with it.
"""

import sys
import unittest
from pathlib import Path

REPOSITORY = Path(__file__).resolve().parents[3]
SAMPLE = REPOSITORY / "samples"

sys.path.insert(0, str(REPOSITORY))


def refused_tables(case: unittest.TestCase, path: Path, old: str, new: str) -> str:
    """The message with which a folder of tables is refused once one of them has another text."""
    from parvusek.tables import TableError, basis_of  # the module is found by the tests' own path, not by this one's

    text = path.read_text(encoding="utf-8")
    case.assertIn(old, text)
    path.write_text(text.replace(old, new, 1), encoding="utf-8")
    with case.assertRaises(TableError) as caught:
        basis_of(path.parent)
    return str(caught.exception)

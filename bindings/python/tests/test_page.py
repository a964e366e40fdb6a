"""The Python examples of docs/EMBEDDING.md print what the page says."""

import contextlib
import importlib.util
import io
import os
import re
import unittest

from . import REPOSITORY, SAMPLE


def examples() -> list[tuple[str, str]]:
    """Each example with what it prints."""
    page = (REPOSITORY / "docs" / "EMBEDDING.md").read_text(encoding="utf-8")
    return re.findall(r"```python\n(.*?)```\n\nprints\n\n```text\n(.*?)```", page, re.DOTALL)


def printed(example: str) -> str:
    before = os.getcwd()
    said = io.StringIO()
    os.chdir(SAMPLE)
    try:
        with contextlib.redirect_stdout(said):
            exec(compile(example, "EMBEDDING.md", "exec"), {})
    finally:
        os.chdir(before)
    return said.getvalue()


class Page(unittest.TestCase):
    def test_each_example(self) -> None:
        plain = [each for each in examples() if "numpy" not in each[0]]
        self.assertTrue(plain)
        for example, wanted in plain:
            self.assertEqual(printed(example), wanted)

    @unittest.skipUnless(importlib.util.find_spec("numpy") and importlib.util.find_spec("pandas"),
                         "numpy or pandas is missing: the example of arrays")
    def test_example_of_arrays(self) -> None:
        arrays = [each for each in examples() if "numpy" in each[0]]
        self.assertEqual(len(arrays), 1)
        self.assertEqual(printed(arrays[0][0]), arrays[0][1])

"""The functions are declared as the header has them: what each takes, in order, and what it hands back."""

import ctypes
import re
import unittest

from parvusek import _library as library

from . import REPOSITORY

# The types of include/parvusek.h, as ctypes has them.
TYPES = {
    "const uint8_t *": ctypes.c_char_p,
    "uint8_t *": ctypes.c_char_p,
    "size_t": ctypes.c_size_t,
    "int32_t": ctypes.c_int32,
    "uint32_t": ctypes.c_uint32,
    "uint64_t": ctypes.c_uint64,
    "const uint64_t *": ctypes.POINTER(ctypes.c_uint64),
    "uint64_t *": ctypes.POINTER(ctypes.c_uint64),
    "parvusek_refusal_t": library.CRefusal,
    "parvusek_answer_t": library.CAnswer,
    "parvusek_signed_answer_t": library.CSignedAnswer,
    "parvusek_questions_t": library.CQuestions,
    "parvusek_small_set_t": library.CSmallSet,
    "parvusek_point_t *": ctypes.POINTER(library.CPoint),
    "parvusek_lifeline_t": library.CLifeline,
}


def declared() -> dict[str, tuple[list[object], object]]:
    """Each function of the header: the types that it takes, and the one that it hands back."""
    text = (REPOSITORY / "include" / "parvusek.h").read_text(encoding="utf-8")
    text = re.sub(r"/\*.*?\*/", "", text, flags=re.DOTALL)
    found = {}
    for result, name, arguments in re.findall(r"^(\w+) (parvusek_\w+)\(([^)]*)\);", text, re.MULTILINE):
        named = [] if arguments == "void" else arguments.split(",")
        types = [re.sub(r"\w+$", "", argument.strip()).strip() for argument in named]
        found[name] = ([TYPES[each] for each in types], TYPES[result])
    return found


class Header(unittest.TestCase):
    def test_declarations(self) -> None:
        self.assertEqual(declared(), library.FUNCTIONS)

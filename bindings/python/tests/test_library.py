"""Where the library is looked for, and which one is refused."""

import doctest
import os
import shutil
import subprocess
import sys
import tempfile
import unittest
from pathlib import Path
from typing import Optional

import parvusek
from parvusek import _library

from . import REPOSITORY, SAMPLE

MODULE = Path(parvusek.__file__).parent
SHARED = REPOSITORY / "target" / "bindings" / "libparvusek.so"
ARCHIVE = REPOSITORY / "target" / "staticlib" / "libengine.a"


class Library(unittest.TestCase):
    def setUp(self) -> None:
        made = tempfile.TemporaryDirectory()
        self.addCleanup(made.cleanup)
        self.folder = Path(made.name)

    def module_in(self, folder: str) -> Path:
        """A copy of the module's sources in a folder; the folder's path is what PYTHONPATH then names."""
        to = self.folder / folder
        shutil.copytree(MODULE, to / "parvusek", ignore=shutil.ignore_patterns("__pycache__"))
        return to

    def asked(self, module: Path, named: Optional[Path] = None) -> str:
        """What an annuity is by the module in a folder, or the last line of what is said."""
        environment = {"PATH": os.environ["PATH"], "PYTHONPATH": str(module), "PYTHONDONTWRITEBYTECODE": "1"}
        if named is not None:
            environment["PARVUSEK_LIB"] = str(named)
        program = ("import sys; from parvusek import *; "
                   "print(decimal(Basis.read(sys.argv[1]).annuity(Kind.COHORT, 65, 0, 2010)))")
        done = subprocess.run([sys.executable, "-c", program, str(SAMPLE / "basis.bin")], env=environment, text=True,
                              cwd=self.folder, stdout=subprocess.PIPE, stderr=subprocess.STDOUT)
        return done.stdout.rstrip().rpartition("\n")[2]

    def put(self, *path: str) -> Path:
        to = self.folder.joinpath(*path, "libparvusek.so")
        to.parent.mkdir(parents=True, exist_ok=True)
        shutil.copy(SHARED, to)
        return to

    def library_of_version(self, number: int) -> Path:
        """The whole engine, but for the version that it tells."""
        source = self.folder / "version.c"
        source.write_text(f"unsigned parvusek_version(void) {{ return {number}; }}\n")
        weak, made = self.folder / "weak.a", self.folder / f"libparvusek.{number}.so"
        subprocess.run(["objcopy", "--weaken-symbol=parvusek_version", ARCHIVE, weak], check=True)
        subprocess.run(["gcc", "-shared", "-fPIC", source, "-Wl,--whole-archive", weak, "-Wl,--no-whole-archive",
                        "-o", made], check=True)
        return made

    def test_places(self) -> None:
        """Beside the module, as a wheel has it; below the prefix, as ./install puts it; in the repository."""
        wheel = self.module_in("wheel")
        self.put("wheel", "parvusek")
        installed = self.module_in("prefix/share/parvusek/python")
        self.put("prefix", "lib")
        for module in (wheel, installed, MODULE.parent):
            self.assertEqual(self.asked(module), "15.698927802", module)

    def test_named(self) -> None:
        module = self.module_in("plain")
        named = self.put("elsewhere")
        for each in (named, named.parent):
            self.assertEqual(self.asked(module, each), "15.698927802")
        said = self.asked(MODULE.parent, self.folder / "missing")
        self.assertIn("libparvusek.so is not there", said)
        self.assertNotIn("target/bindings", said)

    def test_no_folder_above_is_looked_into(self) -> None:
        """A library that someone put into a folder above the module is not taken."""
        module = self.module_in("a/b/site-packages")
        for folder in ((), ("lib",), ("a", "lib"), ("a", "b"), ("a", "b", "lib"), ("a", "target", "bindings"),
                       ("target", "bindings"), ("a", "b", "site-packages"), ("a", "b", "site-packages", "lib")):
            self.put(*folder)
        said = self.asked(module)
        self.assertIn("libparvusek.so is not there", said)
        self.assertIn(str(module / "parvusek" / "libparvusek.so"), said)
        self.assertIn(_library.LOADER_NAME, said)

    def test_another_version(self) -> None:
        module = self.module_in("plain")
        major, minor, patch = map(int, parvusek.__version__.split("."))
        number = 10_000 * major + 100 * minor + patch
        self.assertEqual(_library.version_text(number), parvusek.__version__)
        for other in (number + 100, number - 100, number + 10_000):
            said = self.asked(module, self.library_of_version(other))
            self.assertIn(f"is version {_library.version_text(other)} and this module {parvusek.__version__}", said)
        # A patch changes no answer.
        self.assertEqual(self.asked(module, self.library_of_version(number + 1)), "15.698927802")

    def test_no_library_of_ours(self) -> None:
        module = self.module_in("plain")
        empty = self.folder / "empty.c"
        empty.write_text("int nothing;\n")
        older = self.folder / "older.so"
        subprocess.run(["gcc", "-shared", "-fPIC", empty, "-o", older], check=True)
        self.assertIn(f"{older} is older than this module", self.asked(module, older))
        self.assertIn("cannot be loaded", self.asked(module, empty))

    def test_examples(self) -> None:
        self.assertEqual(doctest.testmod(_library).failed, 0)

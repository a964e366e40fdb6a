"""What the tests of the command share: a folder of their own, the command run inside this process or as one of its own."""

import contextlib
import csv
import io
import os
import signal
import subprocess
import sys
import tempfile
import unittest
from pathlib import Path
from typing import Any, Sequence

from parvusek.__main__ import main

from . import REPOSITORY, SAMPLE


class Command(unittest.TestCase):
    def setUp(self) -> None:
        folder = tempfile.TemporaryDirectory()
        self.addCleanup(folder.cleanup)
        self.folder = Path(folder.name)

    def run_command(self, *arguments: object) -> tuple[int, str, str]:
        """The status, what is said, and what is said on standard error."""
        said, wrong = io.StringIO(), io.StringIO()
        with contextlib.redirect_stdout(said), contextlib.redirect_stderr(wrong):
            status = main([str(argument) for argument in arguments])
        return status, said.getvalue(), wrong.getvalue()

    def start(self, *arguments: object, **more: Any) -> "subprocess.Popen[bytes]":
        """The command as a process of its own, with pipes for what is not said otherwise. Signals stop it also where the
        tests themselves ignore them, as in the background of a shell or under nohup."""
        environment = dict(os.environ, PYTHONPATH=str(REPOSITORY / "bindings" / "python"))
        pipes: dict[str, Any] = dict.fromkeys(("stdin", "stdout", "stderr"), subprocess.PIPE)
        given = more.pop("preexec_fn", None)

        def before() -> None:
            for number in (signal.SIGINT, signal.SIGTERM, signal.SIGHUP):
                signal.signal(number, signal.SIG_DFL)
            if given is not None:
                given()

        process = subprocess.Popen([sys.executable, "-m", "parvusek", *map(str, arguments)],
                                   env=environment, preexec_fn=before, **{**pipes, **more})
        self.addCleanup(self._ended, process)
        return process

    def run_process(self, *arguments: object, given: bytes = b"", **more: Any) -> tuple[int, bytes, bytes]:
        process = self.start(*arguments, **more)
        said, wrong = process.communicate(given, timeout=60)
        return process.returncode, said or b"", wrong or b""

    @staticmethod
    def _ended(process: "subprocess.Popen[bytes]") -> None:
        if process.poll() is None:
            process.kill()
        for stream in (process.stdin, process.stdout, process.stderr):
            if stream is not None:
                with contextlib.suppress(OSError):
                    stream.close()
        process.wait(timeout=60)

    def value(self, members: str) -> tuple[int, str, str]:
        return self.value_bytes(members.encode())

    def value_bytes(self, members: bytes, *options: object) -> tuple[int, str, str]:
        (self.folder / "members.csv").write_bytes(members)
        return self.run_command("value", self.folder / "members.csv", SAMPLE / "basis.bin",
                                self.folder / "values.csv", *options)

    def values(self) -> list[dict[str, str]]:
        with open(self.folder / "values.csv", encoding="utf-8", newline="") as file:
            return list(csv.DictReader(file))

    def files(self) -> list[str]:
        return sorted(os.listdir(self.folder))


def members_of(ages: Sequence[int], year: int = 2010) -> str:
    """A CSV of members of these ages."""
    return "age,deferment,year\n" + "".join(f"{age},0,{year}\n" for age in ages)

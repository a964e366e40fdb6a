"""A run that is stopped: it cleans up, says so in one line and ends with 128 and the signal's number."""

import os
import select
import signal
import subprocess
import sys
import textwrap
import time

from . import REPOSITORY, SAMPLE
from .command import Command, members_of


class Stopped(Command):
    def running(self, **more: object) -> "tuple[object, object]":
        """A run that waits in the middle of its members, with its temporary file in the folder."""
        process = self.start("value", "-", SAMPLE / "basis.bin", self.folder / "values.csv", **more)
        assert process.stdin is not None
        process.stdin.write(members_of([65] * 20_000).encode())
        process.stdin.flush()
        until = time.monotonic() + 30
        while not os.listdir(self.folder) and time.monotonic() < until:
            time.sleep(0.01)
        self.assertTrue(os.listdir(self.folder))
        return process, process.stdin

    def test_each_signal_cleans_up(self) -> None:
        for number in (signal.SIGTERM, signal.SIGHUP, signal.SIGINT):
            with self.subTest(signal=number.name):
                process, _ = self.running()
                process.send_signal(number)  # type: ignore[attr-defined]
                _, wrong = process.communicate(timeout=60)  # type: ignore[attr-defined]
                self.assertEqual(process.returncode, 128 + number)  # type: ignore[attr-defined]
                self.assertEqual(wrong, f"parvusek: stopped by {number.name} before the output was whole\n".encode())
                self.assertEqual(os.listdir(self.folder), [])

    def test_a_second_signal_does_not_disturb_the_first(self) -> None:
        process, _ = self.running()
        for number in (signal.SIGTERM, signal.SIGINT, signal.SIGHUP, signal.SIGTERM):
            process.send_signal(number)  # type: ignore[attr-defined]
        _, wrong = process.communicate(timeout=60)  # type: ignore[attr-defined]
        self.assertNotIn(b"Traceback", wrong)
        self.assertIn(process.returncode, {128 + number for number in  # type: ignore[attr-defined]
                                           (signal.SIGTERM, signal.SIGINT, signal.SIGHUP)})
        self.assertEqual(os.listdir(self.folder), [])

    def test_a_signal_that_is_ignored_stays_ignored(self) -> None:
        """As under nohup."""
        process, stdin = self.running(preexec_fn=lambda: signal.signal(signal.SIGHUP, signal.SIG_IGN))
        process.send_signal(signal.SIGHUP)  # type: ignore[attr-defined]
        stdin.close()  # type: ignore[attr-defined]
        self.assertEqual(process.wait(timeout=60), 0)  # type: ignore[attr-defined]
        self.assertEqual(self.files(), ["values.csv", "values.csv.json"])

    def test_while_it_waits_for_a_reader(self) -> None:
        fifo, members = self.folder / "fifo", self.folder / "members.csv"
        os.mkfifo(fifo)
        members.write_text(members_of([65] * 50_000), encoding="utf-8")
        reader = os.open(fifo, os.O_RDWR)
        self.addCleanup(os.close, reader)
        process = self.start("value", members, SAMPLE / "basis.bin", fifo)
        self.assertTrue(select.select([reader], [], [], 30)[0])
        time.sleep(0.5)  # until the fifo is full
        process.send_signal(signal.SIGTERM)
        self.assertEqual(process.wait(timeout=30), 143)

    def test_after_the_outputs_are_there(self) -> None:
        """While the interpreter ends, too, the status says that they are: it has no handlers by then."""
        members = self.folder / "members.csv"
        members.write_text(members_of([65]), encoding="utf-8")
        program = textwrap.dedent("""
            import os, signal, sys
            from parvusek.__main__ import main
            class Last:
                kill, itself, number = staticmethod(os.kill), os.getpid(), int(sys.argv.pop(1))
                def __del__(self):
                    self.kill(self.itself, self.number)
            last = Last()
            sys.exit(main())
        """)
        environment = dict(os.environ, PYTHONPATH=str(REPOSITORY / "bindings" / "python"))
        for number in (signal.SIGTERM, signal.SIGHUP, signal.SIGINT):
            run = subprocess.run([sys.executable, "-c", program, str(int(number)), "value", members, SAMPLE / "basis.bin",
                                  self.folder / "values.csv"], env=environment, capture_output=True, timeout=60)
            self.assertEqual((run.returncode, run.stderr), (0, b""), number.name)

    def test_at_any_moment(self) -> None:
        """However early or late the signal comes, no traceback is seen and no temporary file is left."""
        members = self.folder / "members.csv"
        members.write_text(members_of([20 + place % 100 for place in range(30_000)]), encoding="utf-8")
        for wait in range(0, 300, 25):
            process = self.start("value", members, SAMPLE / "basis.bin", self.folder / "values.csv")
            time.sleep(wait / 1_000)
            process.send_signal(signal.SIGTERM)
            _, wrong = process.communicate(timeout=60)
            self.assertNotIn(b"Traceback", wrong)
            self.assertIn(process.returncode, (0, 143, -signal.SIGTERM))
            self.assertLessEqual(set(self.files()), {"members.csv", "values.csv", "values.csv.json"})

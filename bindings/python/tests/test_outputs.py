"""What is written: whole or not at all, in the place that is named, never in that of an input or of a user's own file."""

import contextlib
import json
import os
import stat
import subprocess
import threading
import time
from pathlib import Path

from parvusek import Basis
from parvusek.shown_tables import show

from . import SAMPLE
from .command import Command, members_of

BASIS = SAMPLE / "basis.bin"


class Values(Command):
    def setUp(self) -> None:
        super().setUp()
        self.members, self.out = self.folder / "members.csv", self.folder / "values.csv"
        self.members.write_bytes((SAMPLE / "members.csv").read_bytes())
        self.wanted = (SAMPLE / "values.csv").read_bytes()

    def value_to(self, out: object, *options: object) -> tuple[int, str, str]:
        return self.run_command("value", self.members, BASIS, out, *options)


class TwoRuns(Values):
    def test_the_last_to_finish_wins_whole(self) -> None:
        """Two processes write to one output at once; a reader finds the rows of one of them, at every moment."""
        runs = [self.start("value", "-", BASIS, self.out) for _ in range(2)]
        ages = ([65] * 20_000, [80] * 20_000)
        for run, each in zip(runs, ages):
            assert run.stdin is not None
            run.stdin.write(members_of(each[:10_000]).encode())
            run.stdin.flush()
        self.assertFalse(self.out.exists())
        found = []
        for run, each in zip(runs, ages):
            assert run.stdin is not None
            run.stdin.write("".join(f"{age},0,2010\n" for age in each[10_000:]).encode())
            run.stdin.close()
            self.assertEqual(run.wait(timeout=60), 0)
            found.append([row["age"] for row in self.values()])
        self.assertEqual(found, [[str(age) for age in each] for each in ages])
        self.assertEqual(self.files(), ["members.csv", "values.csv", "values.csv.json"])

    def test_many_runs_leave_an_output_and_the_record_of_the_same_run(self) -> None:
        runs = []
        for age in range(60, 66):
            members = self.folder / f"{age}.csv"
            members.write_text(members_of([age] * 3_000), encoding="utf-8")
            runs.append(self.start("value", members, BASIS, self.out))
        for run in runs:
            run.communicate(timeout=60)
            self.assertEqual(run.returncode, 0)
        ages = {row["age"] for row in self.values()}
        self.assertEqual(len(ages), 1)
        record = json.loads((self.folder / "values.csv.json").read_text(encoding="utf-8"))
        self.assertEqual(record["members"]["file"], str(self.folder / f"{ages.pop()}.csv"))


class NotRegular(Values):
    """Devices are nodes of the test's own folder, and never the machine's: run by root, a command that replaces its output
    would take the machine's own away."""

    def device(self, name: str, minor: int) -> Path:
        path = self.folder / name
        try:
            os.mknod(path, 0o666 | stat.S_IFCHR, os.makedev(1, minor))
            path.open("rb").close()
        except PermissionError:
            self.skipTest("devices can be made by root only")
        return path

    def test_a_device_and_a_link_to_it(self) -> None:
        null, link = self.device("null", 3), self.folder / "link"
        link.symlink_to(null)
        before = null.stat()
        for out in (null, link):
            status, _, wrong = self.value_to(out)
            self.assertEqual(status, 0, wrong)
            after = null.stat()
            self.assertEqual((before.st_ino, before.st_rdev, before.st_mode), (after.st_ino, after.st_rdev, after.st_mode))
        self.assertTrue(link.is_symlink())
        self.assertEqual(self.files(), ["link", "members.csv", "null"])

    def test_a_full_device(self) -> None:
        full = self.device("full", 7)
        with open(full, "wb") as opened:
            for out, stdout in ((full, subprocess.PIPE), ("-", opened), (self.out, opened)):
                status, _, wrong = self.run_process("value", self.members, BASIS, out, stdout=stdout)
                self.assertEqual(status, 1, out)
                self.assertIn(b"No space left on device", wrong)
                self.assertNotIn(b"Traceback", wrong)
                self.assertNotIn(b"Exception ignored", wrong)
        self.assertTrue(stat.S_ISCHR(full.stat().st_mode))

    def test_a_fifo(self) -> None:
        fifo = self.folder / "fifo"
        os.mkfifo(fifo)
        found: list[bytes] = []
        # Opened for both, so that no test waits for a command that replaces the fifo.
        reader = os.open(fifo, os.O_RDWR)
        try:
            status, _, wrong = self.value_to(fifo)
            self.assertEqual(status, 0, wrong)
            self.assertTrue(stat.S_ISFIFO(fifo.stat().st_mode))
            found.append(os.read(reader, 65_536))
        finally:
            os.close(reader)
        self.assertEqual(found, [self.wanted])
        self.assertEqual(self.files(), ["fifo", "members.csv"])

    def test_a_pipe_that_does_not_wait(self) -> None:
        self.members.write_text(members_of([65] * 20_000), encoding="utf-8")
        reading, writing = os.pipe()
        os.set_blocking(writing, False)
        process = self.start("value", self.members, BASIS, "-", stdout=writing)
        os.close(writing)
        with open(reading, "rb") as pipe:
            time.sleep(0.5)  # until the pipe is full
            self.assertEqual(pipe.read().count(b"\n"), 20_001)
        self.assertEqual(process.wait(timeout=30), 0)

    def test_standard_output_by_its_path(self) -> None:
        stdout = self.folder / "stdout"  # as /dev/stdout is
        stdout.symlink_to("/proc/self/fd/1")
        status, said, _ = self.run_process("value", self.members, BASIS, stdout)
        self.assertEqual((status, said), (0, self.wanted))
        with open(self.out, "ab") as kept:
            kept.write(b"kept\n")
            kept.flush()
            status, _, _ = self.run_process("value", self.members, BASIS, stdout, stdout=kept)
        self.assertEqual((status, self.out.read_bytes()), (0, b"kept\n" + self.wanted))
        self.assertTrue(stdout.is_symlink())

    def test_a_reader_that_goes(self) -> None:
        self.members.write_text(members_of([65] * 200_000), encoding="utf-8")
        process = self.start("value", self.members, BASIS, "-")
        assert process.stdout is not None and process.stderr is not None
        process.stdout.read(10)
        process.stdout.close()
        wrong = process.stderr.read()
        self.assertEqual((process.wait(timeout=60), wrong), (141, b""))

    def test_a_folder(self) -> None:
        status, _, wrong = self.value_to(self.folder)
        self.assertEqual(status, 1)
        self.assertIn(f"{self.folder} is a folder", wrong)
        for arguments in ((self.folder, BASIS, self.out), (self.members, self.folder, self.out)):
            status, _, wrong = self.run_command("value", *arguments)
            self.assertEqual(status, 1)
            self.assertIn("Is a directory", wrong)
        self.assertEqual(self.files(), ["members.csv"])


class Links(Values):
    def test_a_link_is_followed_to_its_target(self) -> None:
        (self.folder / "kept").mkdir()
        target, link = self.folder / "kept" / "target.csv", self.folder / "link.csv"
        link.symlink_to(Path("kept", "target.csv"))
        for _ in range(2):  # first the link leads to nothing, then to a file
            status, _, wrong = self.value_to(link)
            self.assertEqual(status, 0, wrong)
            self.assertTrue(link.is_symlink())
            self.assertEqual(target.read_bytes(), self.wanted)
        self.assertEqual(os.listdir(self.folder / "kept"), ["target.csv"])


class Inputs(Values):
    """An output that is one of the inputs is refused before anything is opened for writing."""

    def setUp(self) -> None:
        super().setUp()
        self.basis = self.folder / "basis.bin"
        self.basis.write_bytes((SAMPLE / "older" / "basis.bin").read_bytes())
        self.history = self.folder / "history.bin"
        self.history.write_bytes((SAMPLE / "older" / "history.bin").read_bytes())

    def contents(self) -> dict[str, bytes]:
        return {name: (self.folder / name).read_bytes() for name in self.files()}

    def test_members_basis_and_history_by_any_path_or_link(self) -> None:
        for number, name in enumerate(("members.csv", "basis.bin", "history.bin")):
            path = self.folder / name
            (self.folder / f"soft{number}").symlink_to(name)
            os.link(path, self.folder / f"hard{number}")
        before = self.contents()
        for number, name in enumerate(("members.csv", "basis.bin", "history.bin")):
            for out in (self.folder / name, self.folder / ".." / self.folder.name / name,
                        self.folder / f"soft{number}", self.folder / f"hard{number}"):
                for options in ((), ("--no-record",)):
                    status, said, wrong = self.run_command("value", self.members, self.basis, out, *options)
                    self.assertEqual((status, said), (1, ""), out)
                    self.assertRegex(wrong, r"is the (file of members|basis file|history) itself; name another")
                    self.assertEqual(self.contents(), before)

    def test_standard_input_and_output(self) -> None:
        before = self.contents()
        with open(self.members, "rb") as members:
            status, _, wrong = self.run_process("value", "-", self.basis, self.members, stdin=members)
        self.assertEqual(status, 1)
        self.assertIn(b"is the file of members itself", wrong)
        with open(self.members, "ab") as members:
            status, _, wrong = self.run_process("value", self.members, self.basis, "-", stdout=members)
        self.assertEqual(status, 1)
        self.assertIn(b"is the file of members itself", wrong)
        self.assertEqual(self.contents(), before)

    def test_a_record_that_is_an_input_or_the_output(self) -> None:
        before = self.contents()
        for record in (self.members, self.basis, self.history, self.out):
            status, _, wrong = self.run_command("value", self.members, self.basis, self.out, "--record", record)
            self.assertEqual(status, 1)
            self.assertRegex(wrong, "[nN]ame another")
        self.assertEqual(self.contents(), before)

    def test_a_basis_made_over_its_own_tables(self) -> None:
        tables = self.folder / "tables"
        show(Basis.read(self.basis, self.history), tables)
        before = {path.name: path.read_bytes() for path in tables.iterdir()}
        os.link(tables / "base_rates.csv", self.folder / "hard")
        for out, options in ((tables / "settings.csv", ()), (self.folder / "hard", ()),
                             (self.folder / "new.bin", ("--history", tables / "actual_improvements.csv", "--force"))):
            status, _, wrong = self.run_command("basis", "make", tables, out, *options)
            self.assertEqual(status, 1)
            self.assertIn("itself; name another", wrong)
        self.assertEqual({path.name: path.read_bytes() for path in tables.iterdir()}, before)
        self.assertFalse((self.folder / "new.bin").exists())

    def test_tables_shown_over_the_basis(self) -> None:
        odd = self.folder / "settings.csv"
        os.rename(self.basis, odd)
        status, _, wrong = self.run_command("basis", "show", odd, self.folder, "--force", "--history", self.history)
        self.assertEqual(status, 1)
        self.assertIn("settings.csv is the basis file itself", wrong)
        self.assertEqual(odd.read_bytes(), (SAMPLE / "older" / "basis.bin").read_bytes())


class Rights(Values):
    def test_mode_and_owner_of_a_file_that_is_replaced(self) -> None:
        self.out.write_bytes(b"old")
        os.chmod(self.out, 0o640)
        if os.geteuid() == 0:
            os.chown(self.out, 12_345, 54_321)
        before = self.out.stat()
        self.assertEqual(self.value_to(self.out)[0], 0)
        after = self.out.stat()
        self.assertEqual((after.st_mode, after.st_uid, after.st_gid), (before.st_mode, before.st_uid, before.st_gid))
        self.assertEqual(self.out.read_bytes(), self.wanted)

    def test_mode_of_a_new_file(self) -> None:
        for umask in (0o022, 0o027, 0o002):
            before = os.umask(umask)
            try:
                self.assertEqual(self.value_to(self.out)[0], 0)
            finally:
                os.umask(before)
            self.assertEqual(stat.S_IMODE(self.out.stat().st_mode), 0o666 & ~umask)
            self.out.unlink()
            (self.folder / "values.csv.json").unlink()

    def test_files_of_the_user_are_not_touched(self) -> None:
        for name in ("values.csv.part", "basis.bin.part", "history.bin.part"):
            (self.folder / name).write_bytes(b"mine")
        self.assertEqual(self.value_to(self.out)[0], 0)
        self.assertEqual(self.run_command("basis", "make", SAMPLE / "older" / "tables", self.folder / "basis.bin")[0], 0)
        for name in ("values.csv.part", "basis.bin.part", "history.bin.part"):
            self.assertEqual((self.folder / name).read_bytes(), b"mine")

    def test_a_write_protected_output(self) -> None:
        if os.geteuid() == 0:
            self.skipTest("root may write to every file")
        self.out.write_bytes(b"old")
        os.chmod(self.out, 0o444)
        status, _, wrong = self.value_to(self.out)
        self.assertEqual(status, 1)
        self.assertIn("Permission denied", wrong)
        self.assertEqual(self.out.read_bytes(), b"old")

    def test_a_failure_leaves_the_old_file(self) -> None:
        self.out.write_bytes(b"old")
        for members in (b"no header at all\n1\n", b'age,deferment,year,name\n65,0,2010,"open\n65,0,2010,x\n'):
            self.members.write_bytes(members)
            self.assertEqual(self.value_to(self.out)[0], 1)
            self.assertEqual(self.out.read_bytes(), b"old")
            self.assertEqual(self.files(), ["members.csv", "values.csv"])

    def test_a_reader_never_finds_a_part(self) -> None:
        """While runs replace an output, whoever reads it finds a whole one."""
        self.assertEqual(self.value_to(self.out)[0], 0)
        found: set[bytes] = set()
        done = threading.Event()

        def read() -> None:
            while not done.is_set():
                with contextlib.suppress(FileNotFoundError):
                    found.add(self.out.read_bytes())

        reader = threading.Thread(target=read)
        reader.start()
        try:
            for _ in range(20):
                self.value_to(self.out)
        finally:
            done.set()
            reader.join()
        self.assertEqual(found, {self.wanted})

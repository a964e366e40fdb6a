"""What a run over calls leaves: its record, the kept roll, and nothing at all where it ends with an error or is stopped."""

import hashlib
import json
import os
import signal
import time
from pathlib import Path
from typing import Any
from unittest import mock

from parvusek import Roll, __version__

from . import SAMPLE
from .test_roll_command import HEADER, OLDER, RollCommand, liability


def digest(path: Path) -> str:
    return hashlib.sha256(path.read_bytes()).hexdigest()


class Record(RollCommand):
    def record(self) -> Any:
        return json.loads(Path(f"{self.out}.json").read_text())

    def test_its_contents(self) -> None:
        kept = self.folder / "roll.bin"
        self.roll(["join,1,65,1000000,", "join,2,65,1000000,old", "join,2,65,1,", "leave,1,,,", "", "leave,9,,,"],
                  "--keep", kept, "--basis", f"old={OLDER / 'basis.bin'}", "--basis", f"idle={SAMPLE / 'basis.bin'}",
                  header=HEADER + ",basis")
        found = self.record()
        self.assertLess(found.pop("started"), found.pop("finished"))
        roll = Roll.read(kept)
        new = {"file": str(SAMPLE / "basis.bin"), "sha256": digest(SAMPLE / "basis.bin"), "form": "MPB1",
               "foundation_year": 2006, "base_year": 2008, "history": None}
        old = {"file": str(OLDER / "basis.bin"), "sha256": digest(OLDER / "basis.bin"), "form": "MPB1",
               "foundation_year": 2006, "base_year": 2000, "history": {"file": str(OLDER / "history.bin"), "sha256": digest(OLDER / "history.bin")}}
        self.assertEqual(found, {
            "record": "parvusek roll", "version": __version__, "year": 2010, "basis": {**new, "joined": 1},
            "bases": {"old": {**old, "joined": 1}, "idle": {**new, "joined": 0}},
            "calls": self.file(self.folder / "calls.csv"), "roll": None, "out": self.file(self.out),
            "keep": self.file(kept), "encoding": "utf-8",
            "rows": 5, "joined": 2, "left": 1, "refused": 2, "refusals": {"15": 1, "16": 1}, "blank_lines": 1,
            "rows_over_several_lines": 0, "last_line_ended": True, "before": {"members": 0, "total": 0},
            "after": {"members": 1, "total": roll.total}})

    def file(self, path: Path) -> dict[str, str]:
        return {"file": str(path), "sha256": digest(path)}

    def test_of_a_continued_roll(self) -> None:
        first, second = self.folder / "first.bin", self.folder / "second.bin"
        self.roll(["join,1,65,100"], "--keep", first)
        self.roll(["join,2,65,100"], "--roll", first, "--keep", second, year=None)
        found = self.record()
        self.assertEqual((found["roll"], found["keep"]), (self.file(first), self.file(second)))
        self.assertEqual((found["before"], found["after"]), ({"members": 1, "total": 1570}, {"members": 2, "total": 3140}))

    def test_the_encoding(self) -> None:
        """The same bytes on the same basis are another total in another encoding, so that the record tells it."""
        calls = f"{HEADER},name\njoin,1,65,100,M\u00fcller\njoin,2,65,100,Smith\n".encode("cp1252")
        found = []
        for options in (["--encoding", "windows-1252"], []):
            self.assertEqual(self.roll_bytes(calls, *options)[0], 0)
            found.append(self.record())
        self.assertEqual([record["encoding"] for record in found], ["cp1252", "utf-8"])
        self.assertEqual([record["after"]["total"] for record in found], [3140, 1570])
        self.assertEqual(found[0]["calls"], found[1]["calls"])

    def test_a_last_line_without_an_end(self) -> None:
        """The pension may have lost its last digits, so that the run says it and the record keeps it."""
        for end, wanted in (("\n", ""), ("", f"parvusek: the last line of {self.folder / 'calls.csv'} has no line end, and "
                                             "is taken as it stands: was the file cut short?\n")):
            status, said, wrong = self.roll_bytes(f"{HEADER}\njoin,1,65,1200000\njoin,2,65,12{end}".encode())
            self.assertEqual((status, wrong), (0, wanted))
            self.assertIn("2 rows, 2 joined, 0 left, 0 refused; 2 members", said)
            self.assertEqual(self.record()["last_line_ended"], not wanted)
            self.assertEqual(self.rows_of(self.out)[1]["liability"], str(liability(self.basis, 65, 12)))

    def test_elsewhere_or_not_at_all(self) -> None:
        self.roll(["join,1,65,100"], "--no-record")
        self.assertEqual(self.files(), ["calls.csv", "out.csv"])
        self.roll(["join,1,65,100"], "--record", self.folder / "r.json")
        self.assertEqual(self.files(), ["calls.csv", "out.csv", "r.json"])

    def test_a_file_of_the_user_is_never_replaced(self) -> None:
        record = Path(f"{self.out}.json")
        record.write_text('{"mine": 1}')
        status, said, wrong = self.roll_bytes(HEADER.encode())
        self.assertEqual((status, said, self.files()), (1, "", ["calls.csv", "out.csv.json"]))
        self.assertIn("exists and is not the record of a run; it stays", wrong)


class Kept(RollCommand):
    def test_night_after_night(self) -> None:
        """Runs that continue each other's roll end where one run over all the calls does."""
        calls = [["join,1,65,100", "join,2,70,200"], ["leave,1,,", "join,3,75,300", "join,2,70,1"], [],
                 ["join,1,66,100", "leave,3,,"]]
        whole = self.roll([call for night in calls for call in night], "--keep", self.folder / "whole.bin")
        rows, before = [], []
        for night, its_calls in enumerate(calls):
            kept = self.folder / f"{night}.bin"
            rows += self.roll(its_calls, *before, "--keep", kept, year=None if before else 2010)
            before = ["--roll", kept]
        self.assertEqual(rows, whole)
        self.assertEqual((self.folder / "3.bin").read_bytes(), (self.folder / "whole.bin").read_bytes())
        self.assertIn(f"{self.folder / '2.bin'}: continued, 2 members on the roll of 2010, total ", self.said)
        self.assertIn(f"{self.folder / '3.bin'}: the roll as it stands now\n", self.said)

    def test_the_year_of_a_continued_roll(self) -> None:
        kept = self.folder / "roll.bin"
        self.roll(["join,1,65,100"], "--keep", kept)
        self.roll(["leave,1,,"], "--roll", kept, year=2010)
        status, _, wrong = self.roll_bytes(HEADER.encode(), "--roll", kept, year=2011)
        self.assertEqual((status, wrong), (1, f"parvusek: {kept} is a roll of the year 2010, and --year says 2011\n"))

    def test_what_cannot_be_continued(self) -> None:
        kept, wrong_one = self.folder / "roll.bin", self.folder / "wrong.bin"
        self.roll(["join,1,65,100"], "--keep", kept, "--no-record")
        self.out.unlink()
        file = kept.read_bytes()
        flipped = bytearray(file)
        flipped[8 * 1502 + 16] ^= 1
        none = "it is not the file of a roll"
        for content, why in ((b"", none), ((SAMPLE / "basis.bin").read_bytes(), none), (file[:-1], "not 16,063"),
                             (file * 2, "not 16,065"), (bytes(flipped), "its check is wrong"),
                             (file.replace(b"roll 1", b"roll 2"), "in another form")):
            wrong_one.write_bytes(content)
            status, said, wrong = self.roll_bytes(HEADER.encode(), "--roll", wrong_one, year=None)
            self.assertEqual((status, said), (1, ""))
            self.assertIn(f"{wrong_one} cannot be continued: ", wrong)
            self.assertIn(why, wrong)
        self.assertIn("the kept roll", self.roll_bytes(HEADER.encode(), "--roll", self.folder / "none.bin", year=None)[2])
        self.assertEqual(self.files(), ["calls.csv", "roll.bin", "wrong.bin"])

    def test_no_file_is_written_over(self) -> None:
        """Neither the roll that is continued nor any other file: else a run that nobody took up would be lost."""
        kept, other = self.folder / "roll.bin", self.folder / "other"
        self.roll(["join,1,65,100"], "--keep", kept, "--no-record")
        self.out.unlink()
        other.write_text("mine")
        (self.folder / "link").symlink_to("roll.bin")
        before = kept.read_bytes()
        for keep, why in ((kept, "is the roll that is continued itself; name another"),
                          (self.folder / "link", "is the roll that is continued itself; name another"),
                          (self.folder / "calls.csv", "is the file of calls itself; name another"),
                          (other, "is there already, and no kept roll is written over"), (self.folder, "is a folder"),
                          ("-", "in a file of its own"), ("/dev/stdout", "in a file of its own"),
                          ("/dev/null", "/dev/null is not a regular file"), (self.out, "be one file"),
                          (f"{self.out}.json", "be one file"), (self.folder / "no" / "folder", "there is no folder"),
                          (f"{self.folder}/new/", "/new/ is the name of a folder; name a file"),
                          (f"{self.folder}/new/.", "/new/. is the name of a folder; name a file"),
                          ("", "an output has no name")):
            status, said, wrong = self.roll_bytes(HEADER.encode(), "--roll", kept, "--keep", keep, year=None)
            self.assertEqual((status, said), (1, ""), keep)
            self.assertEqual(len(wrong.splitlines()), 1)
            self.assertIn(why, wrong)
        self.assertEqual((kept.read_bytes(), other.read_text()), (before, "mine"))
        self.assertEqual(self.files(), ["calls.csv", "link", "other", "roll.bin"])

    def test_which_run_has_kept_what_is_there(self) -> None:
        """The message says where to look, and there it is."""
        kept = self.folder / "roll.bin"
        self.roll(["join,1,65,100"], "--keep", kept)
        status, _, wrong = self.roll_bytes(HEADER.encode(), "--keep", kept)
        self.assertEqual((status, wrong), (1, f"parvusek: {kept} is there already, and no kept roll is written over; name "
                                              "another with --keep, or move it once you know which run it is from: the "
                                              "record of the run that kept a roll, OUT.csv.json, has its SHA-256\n"))
        self.assertEqual(json.loads(Path(f"{self.out}.json").read_text())["keep"]["sha256"], digest(kept))

    def test_a_file_that_comes_meanwhile_stays(self) -> None:
        kept = self.folder / "roll.bin"
        for link in (os.link, mock.Mock(side_effect=PermissionError(1, "no links here"))):
            comes = mock.patch("parvusek.roll_command.put_all", side_effect=self.after_coming(kept))
            with comes, mock.patch("os.link", link):
                status, said, wrong = self.roll_bytes(HEADER.encode(), "--keep", kept)
            self.assertEqual((status, said), (1, ""))
            self.assertIn(f"{kept} has come meanwhile; it stays, and no output has taken its place", wrong)
            self.assertEqual((self.files(), kept.read_text()), (["calls.csv", "roll.bin"], "another's"))
            kept.unlink()

    @staticmethod
    def after_coming(kept: Path) -> Any:
        from parvusek.outputs import put_all

        def comes(drafts: Any) -> None:
            kept.write_text("another's")
            put_all(drafts)
        return comes

    def test_with_the_rows_on_standard_output(self) -> None:
        kept = self.folder / "roll.bin"
        status, said, wrong = self.run_process("roll", "-", SAMPLE / "basis.bin", "-", "--year", 2010, "--keep", kept,
                                               given=f"{HEADER}\njoin,1,65,100\n".encode())
        self.assertEqual((status, len(said.splitlines()), Roll.read(kept).total), (0, 2, 1570))
        self.assertEqual(wrong.decode().splitlines()[1], f"parvusek: {kept}: the roll as it stands now")
        process = self.start("roll", "-", SAMPLE / "basis.bin", "-", "--year", 2010, "--keep", self.folder / "other.bin")
        assert process.stdin is not None and process.stdout is not None
        process.stdout.close()  # the reader has gone: nothing is kept of what nobody has seen
        process.communicate(f"{HEADER}\njoin,1,65,100\n".encode(), timeout=60)
        self.assertEqual((process.returncode, self.files()), (141, ["roll.bin"]))

    def test_on_a_disk_without_links(self) -> None:
        kept = self.folder / "roll.bin"
        with mock.patch("os.link", side_effect=PermissionError(1, "no links here")):
            self.roll(["join,1,65,100"], "--keep", kept)
        self.assertEqual(Roll.read(kept).total, 1570)
        self.assertEqual(self.files(), ["calls.csv", "out.csv", "out.csv.json", "roll.bin"])


    def test_an_output_that_cannot_take_its_place(self) -> None:
        """The roll is not kept then: no run has ended well with it, and it would keep back the next one."""
        kept = self.folder / "roll.bin"
        self.roll(["join,1,65,100"])
        before = {name: (self.folder / name).read_bytes() for name in ("out.csv", "out.csv.json")}
        replace, gone = os.replace, PermissionError(13, "Permission denied")

        def fails_for(name: str) -> Any:
            def put(part: str, path: str) -> None:
                if os.path.basename(path) == name:
                    raise gone
                replace(part, path)
            return mock.patch("os.replace", put)

        for links in (os.link, mock.Mock(side_effect=PermissionError(1, "no links here"))):
            with fails_for("out.csv.json"), mock.patch("os.link", links):
                status, said, wrong = self.roll_bytes(f"{HEADER}\njoin,2,65,100\n".encode(), "--keep", kept)
            self.assertEqual((status, said), (1, ""))
            self.assertEqual(wrong, f"parvusek: {self.out}.json cannot be written: Permission denied\n")
            self.assertEqual(self.files(), ["calls.csv", "out.csv", "out.csv.json"])
            self.assertEqual({name: (self.folder / name).read_bytes() for name in before}, before)
        with fails_for("out.csv"):
            status, said, wrong = self.roll_bytes(f"{HEADER}\njoin,2,65,100\n".encode(), "--keep", kept)
        self.assertEqual((status, said, self.files()), (1, "", ["calls.csv", "out.csv", "out.csv.json"]))
        self.assertEqual(wrong.splitlines(), [
            f"parvusek: {self.out} cannot be written: Permission denied",
            f"parvusek: {self.out}.json is the new one already, and does not belong to {self.out}"])
        self.assertEqual(self.out.read_bytes(), before["out.csv"])

    def test_on_a_disk_without_links_that_fails(self) -> None:
        """The empty file that held the place goes again."""
        no = PermissionError(1, "no links here")
        with mock.patch("os.link", side_effect=no), mock.patch("os.replace", side_effect=no):
            status, _, _ = self.roll_bytes(f"{HEADER}\njoin,1,65,100\n".encode(), "--keep", self.folder / "roll.bin")
        self.assertEqual((status, self.files()), (1, ["calls.csv"]))


class Unchanged(RollCommand):
    def test_an_error_in_the_middle(self) -> None:
        """A quote that is never closed: the outputs of the run before stay, and no roll is kept."""
        self.roll(["join,1,65,100"])
        before = {name: (self.folder / name).read_bytes() for name in self.files() if name != "calls.csv"}
        status, said, wrong = self.roll_bytes(f'{HEADER}\njoin,1,65,100\njoin,"2,65,100\nleave,1,,\n'.encode(), "--keep",
                                              self.folder / "roll.bin")
        self.assertEqual((status, said), (1, ""))
        self.assertIn("the calls cannot be read: line 3, character 6", wrong)
        self.assertEqual({name: (self.folder / name).read_bytes() for name in self.files() if name != "calls.csv"}, before)

    def test_an_output_that_is_an_input(self) -> None:
        named = self.folder / "named.bin"
        named.write_bytes((SAMPLE / "basis.bin").read_bytes())
        (self.folder / "kept.bin").write_bytes(Roll(2010).to_file())
        for out in ("calls.csv", "named.bin", "kept.bin"):
            self.out = self.folder / out
            (self.folder / "calls.csv").write_text(HEADER)
            before = self.out.read_bytes()
            status, _, wrong = self.roll_bytes(HEADER.encode(), "--basis", f"a={named}", "--roll",
                                               self.folder / "kept.bin", "--no-record")
            self.assertEqual((status, self.out.read_bytes()), (1, before))
            self.assertIn(" itself; name another", wrong)

    def test_stopped(self) -> None:
        for number in (signal.SIGTERM, signal.SIGINT):
            process = self.start("roll", "-", SAMPLE / "basis.bin", self.out, "--year", "2010", "--keep",
                                 self.folder / "roll.bin")
            assert process.stdin is not None
            process.stdin.write(f"{HEADER}\n".encode() + b"join,1,65,100\nleave,1,,\n" * 10_000)
            process.stdin.flush()
            until = time.monotonic() + 30
            while len(self.files()) < 3 and time.monotonic() < until:
                time.sleep(0.01)
            process.send_signal(number)
            _, wrong = process.communicate(timeout=60)
            self.assertEqual((process.returncode, self.files()), (128 + number, []))
            self.assertEqual(wrong, f"parvusek: stopped by {number.name} before the output was whole\n".encode())

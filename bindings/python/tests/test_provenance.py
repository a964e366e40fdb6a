"""Which basis it was: SHA-256 printed, a record beside the values, another basis refused; and what 01's check sees."""

import contextlib
import hashlib
import json
import os
import re
from datetime import datetime
from typing import Iterator

from parvusek import Basis, Refusal, __version__, decimal
from parvusek.layout import BASE_FILE, OLD_FORM

from . import REPOSITORY, SAMPLE
from .command import Command

OLDER = SAMPLE / "older"


def digest(content: bytes) -> str:
    return hashlib.sha256(content).hexdigest()


class Check(Command):
    def test_single_flipped_bits_that_pass(self) -> None:
        """Counted over every bit of the sample, with the engine; the pages name the number."""
        file = (SAMPLE / "basis.bin").read_bytes()
        run = Basis.from_file(file).run
        found: dict[int, list[int]] = {}
        for bit, flipped in self.each_flipped(file):
            try:
                self.assertNotEqual(Basis.from_file(flipped).run, run)
                found.setdefault(0, []).append(bit)
            except Refusal as refusal:
                found.setdefault(refusal.number, []).append(bit)
        self.assertEqual({number: len(bits) for number, bits in found.items()}, {0: 480, 2: 35_784, 4: 4, 5: 596})
        # Bit b of the word in place p passes the check where 2^b × p is a multiple of 2^32, and nowhere else.
        unseen = {8 * 512 * block + 32 * (place - 1) + bit for block in range(9) for place in range(1, 128)
                  for bit in range(32) if (place << bit) % 2**32 == 0}
        self.assertEqual(unseen, {bit for number in (0, 4, 5) for bit in found[number]})
        for page in ("docs/EMBEDDING.md", "docs/DECISIONS.md"):
            text = re.sub(r"\s+", " ", (REPOSITORY / page).read_text(encoding="utf-8"))
            self.assertIn("36,864 single bits of the sample", text, page)
            self.assertIn("480 of them", text, page)

    def test_one_of_them(self) -> None:
        """The one that DECISIONS T9 names: a rate three times as large."""
        file = bytearray((SAMPLE / "basis.bin").read_bytes())
        self.assertEqual(file[255], 2)
        file[255] = 6
        rates = [decimal(column.numbers(Basis.from_file(bytes(content)).run)[75 - 20]) for column in OLD_FORM.columns_of(BASE_FILE)
                 for content in ((SAMPLE / "basis.bin").read_bytes(), file)]
        self.assertEqual(rates, ["0.034322491", "0.101431355"])

    def test_flipped_bits_of_a_history(self) -> None:
        basis, history = Basis.read(OLDER / "basis.bin"), (OLDER / "history.bin").read_bytes()
        accepted = 0
        for _, flipped in self.each_flipped(history):
            with contextlib.suppress(Refusal):
                accepted += basis.with_history(flipped).history != history
        self.assertEqual((accepted, 8 * len(history)), (762, 49_152))

    @staticmethod
    def each_flipped(file: bytes) -> Iterator[tuple[int, bytes]]:
        for bit in range(8 * len(file)):
            flipped = bytearray(file)
            flipped[bit // 8] ^= 1 << bit % 8
            yield bit, bytes(flipped)


class Sums(Command):
    def test_printed_by_make_check_and_show(self) -> None:
        basis, history = (digest((OLDER / name).read_bytes()) for name in ("basis.bin", "history.bin"))
        out = self.folder / "m.bin"
        for command, files in ((("make", OLDER / "tables", out), (out, self.folder / "m.history.bin")),
                               (("check", out), (out, self.folder / "m.history.bin")),
                               (("show", out, self.folder / "tables"), (out, self.folder / "m.history.bin"))):
            status, said, wrong = self.run_command("basis", *command)
            self.assertEqual((status, wrong), (0, ""))
            self.assertIn(f"{files[0]}: SHA-256 {basis}\n", said)
            self.assertIn(f"{files[1]}: SHA-256 {history}\n", said)

    def test_another_basis_is_refused(self) -> None:
        members, out = SAMPLE / "members.csv", self.folder / "values.csv"
        good = digest((OLDER / "basis.bin").read_bytes())
        goods = digest((OLDER / "history.bin").read_bytes())
        for options in (("--expect", "0" * 64), ("--expect", good, "--expect-history", good)):
            status, _, wrong = self.run_command("value", members, OLDER / "basis.bin", out, *options)
            self.assertEqual(status, 1)
            self.assertRegex(wrong, r"has the SHA-256 [0-9a-f]{64}, and [0-9a-f]{64} is expected")
            self.assertEqual(self.files(), [])
        status, _, wrong = self.run_command("value", members, OLDER / "basis.bin", out, "--expect", good.upper(),
                                            "--expect-history", goods)
        self.assertEqual((status, wrong), (0, ""))
        status, _, wrong = self.run_command("value", members, SAMPLE / "basis.bin", out, "--expect-history", goods)
        self.assertEqual(status, 1)
        self.assertIn("has no history, and one is expected", wrong)

    def test_a_sum_that_is_none(self) -> None:
        status, _, wrong = self.run_process("value", SAMPLE / "members.csv", SAMPLE / "basis.bin", "-", "--expect", "abc")
        self.assertEqual(status, 2)
        self.assertIn(b"'abc' is not a SHA-256 digest", wrong)

    def test_a_flipped_bit_that_passes_the_check_is_refused(self) -> None:
        file = bytearray((SAMPLE / "basis.bin").read_bytes())
        good = digest(file)
        file[255] ^= 4
        (self.folder / "basis.bin").write_bytes(file)
        command = ("value", SAMPLE / "members.csv", self.folder / "basis.bin", self.folder / "values.csv")
        self.assertEqual(self.run_command(*command, "--expect", good)[0], 1)
        self.assertEqual(self.files(), ["basis.bin"])


class Record(Command):
    def setUp(self) -> None:
        super().setUp()
        self.members, self.out = SAMPLE / "members.csv", self.folder / "values.csv"
        self.record = self.folder / "values.csv.json"

    def value_older(self, *options: object) -> tuple[int, str, str]:
        return self.run_command("value", self.members, OLDER / "basis.bin", self.out, *options)

    def test_what_it_holds(self) -> None:
        before = datetime.now().astimezone()
        status, said, _ = self.value_older()
        self.assertEqual(status, 0)
        self.assertIn(f"{self.record}: the record of this valuation\n", said)
        found = json.loads(self.record.read_text(encoding="utf-8"))
        times = [datetime.fromisoformat(found.pop(name)) for name in ("started", "finished")]
        self.assertLessEqual(abs((times[0] - before).total_seconds()), 30)
        self.assertLessEqual(times[0], times[1])
        self.assertEqual(found, {
            "record": "parvusek value",
            "version": __version__,
            "basis": {"file": str(OLDER / "basis.bin"), "sha256": digest((OLDER / "basis.bin").read_bytes()),
                      "form": "MPB1", "foundation_year": 2006, "base_year": 2000},
            "history": {"file": str(OLDER / "history.bin"), "sha256": digest((OLDER / "history.bin").read_bytes())},
            "members": {"file": str(self.members), "sha256": digest(self.members.read_bytes())},
            "encoding": "utf-8",
            "values": {"file": str(self.out), "sha256": digest(self.out.read_bytes())},
            "rows": 9, "valued": 7, "refused": 2, "refusals": {"6": 1, "8": 1},
            "blank_lines": 0, "rows_over_several_lines": 0, "last_line_ended": True,
        })

    def test_a_basis_without_a_history(self) -> None:
        self.assertEqual(self.run_command("value", self.members, SAMPLE / "basis.bin", self.out)[0], 0)
        self.assertIsNone(json.loads(self.record.read_text(encoding="utf-8"))["history"])

    def test_replaced_by_that_of_the_next_run(self) -> None:
        for _ in range(2):
            self.assertEqual(self.value_older()[0], 0)
        self.assertEqual(self.files(), ["values.csv", "values.csv.json"])

    def test_a_file_of_the_user_is_never_replaced(self) -> None:
        for content in (b"", b"mine", b"{}", b'{"record": "mine"}', b"[]", b"\xff\xfe"):
            self.record.write_bytes(content)
            status, _, wrong = self.value_older()
            self.assertEqual(status, 1)
            self.assertIn(f"{self.record} exists and is not the record of a run", wrong)
            self.assertIn("--record", wrong)
            self.assertEqual(self.record.read_bytes(), content)
            self.assertEqual(self.files(), ["values.csv.json"])
        self.assertEqual(self.value_older("--no-record")[0], 0)
        self.assertEqual(self.record.read_bytes(), b"\xff\xfe")

    def test_named_elsewhere(self) -> None:
        elsewhere = self.folder / "record.json"
        self.assertEqual(self.value_older("--record", elsewhere)[0], 0)
        self.assertEqual(self.files(), ["record.json", "values.csv"])
        status, said, _ = self.run_process("value", self.members, SAMPLE / "basis.bin", "-", "--record", elsewhere)
        self.assertEqual(status, 0)
        self.assertEqual(json.loads(elsewhere.read_text(encoding="utf-8"))["values"],
                         {"file": "-", "sha256": digest(said)})

    def test_not_on_standard_output(self) -> None:
        self.assertIn("the record is a file of its own", self.value_older("--record", "-")[2])
        self.assertEqual(self.files(), [])

    def test_none_where_the_values_are_no_file(self) -> None:
        os.mkfifo(self.folder / "fifo")
        reader = os.open(self.folder / "fifo", os.O_RDWR)
        try:
            status, said, wrong = self.run_command("value", self.members, SAMPLE / "basis.bin", self.folder / "fifo")
        finally:
            os.close(reader)
        self.assertEqual((status, said), (0, ""))
        self.assertIn("no record is written for it", wrong)
        self.assertEqual(self.files(), ["fifo"])

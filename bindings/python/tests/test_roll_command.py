"""The command roll: the calls of a CSV in order, the running total on every row, and each refusal on its own row."""

import csv
import hashlib
import os
from fractions import Fraction
from math import floor
from pathlib import Path
from typing import Optional, Sequence
from unittest import mock

from parvusek import UNIT, Basis, Kind

from . import SAMPLE
from .command import Command

HEADER = "call,number,age,pension"
OLDER = SAMPLE / "older"


def liability(basis: Basis, age: int, pension: int, year: int = 2010) -> int:
    """Pension times annuity, rounded to whole pence, ties up."""
    annuity = Fraction(basis.annuity(Kind.COHORT, age=age, deferment=0, year=year), UNIT)
    return floor(pension * annuity + Fraction(1, 2))


class RollCommand(Command):
    def setUp(self) -> None:
        super().setUp()
        self.basis = Basis.read(SAMPLE / "basis.bin")
        self.older = Basis.read(OLDER / "basis.bin", OLDER / "history.bin")
        self.out = self.folder / "out.csv"

    def roll_bytes(self, calls: bytes, *options: object, year: Optional[int] = 2010) -> tuple[int, str, str]:
        (self.folder / "calls.csv").write_bytes(calls)
        years = [] if year is None else ["--year", year]
        return self.run_command("roll", self.folder / "calls.csv", SAMPLE / "basis.bin", self.out, *years, *options)

    def roll(self, rows: Sequence[str], *options: object, header: str = HEADER,
             year: Optional[int] = 2010) -> list[dict[str, str]]:
        """The rows of a run that ends well."""
        status, self.said, self.wrong = self.roll_bytes("\n".join([header, *rows, ""]).encode(), *options, year=year)
        self.assertEqual(status, 0, self.wrong)
        return self.rows_of(self.out)

    @staticmethod
    def rows_of(path: Path) -> list[dict[str, str]]:
        with open(path, encoding="utf-8", newline="") as file:
            return list(csv.DictReader(file))

    def refusals(self, rows: Sequence[dict[str, str]]) -> list[str]:
        return [row["refusal"] for row in rows]


class Calls(RollCommand):
    def test_joins_leaves_and_the_running_total(self) -> None:
        first, second = liability(self.basis, 65, 1_200_000), liability(self.basis, 72, 850_000)
        again = liability(self.basis, 66, 1_300_000)
        rows = self.roll(["join,7,65,1200000", "join,8,72,850000", "join,7,65,1", "leave,7,,", "leave,7,,",
                          "join,7,66,1300000"])
        self.assertEqual([(row["liability"], row["members"], row["total"], row["refusal"]) for row in rows],
                         [(str(first), "1", str(first), ""), (str(second), "2", str(first + second), ""),
                          ("", "2", str(first + second), "16"), ("", "1", str(second), ""), ("", "1", str(second), "15"),
                          (str(again), "2", str(second + again), "")])
        self.assertEqual([(row["first"], row["second"], row["message"]) for row in rows if row["refusal"]],
                         [("7", "0", "the member number is on the roll already (member 7)"),
                          ("7", "0", "the member number is not on the roll (member 7)")])
        self.assertEqual((self.wrong, self.said.splitlines()), ("", [
            f"{self.out}: 6 rows, 3 joined, 1 left, 2 refused: 1 by 15, 1 by 16; 2 members on the roll of 2010, "
            f"total {second + again:,} pence", f"{self.out}.json: the record of this run"]))

    def test_a_full_roll(self) -> None:
        rows = self.roll([f"join,{number},65,100" for number in range(501)] +
                         ["join,3,65,100", "leave,3,,", "join,500,65,100", "join,3,65,100"])
        self.assertEqual(self.refusals(rows), [""] * 500 + ["14", "16", "", "", "14"])
        self.assertEqual(rows[500]["message"], "the roll is full (member 500)")
        self.assertEqual((rows[-1]["members"], rows[-1]["total"]), ("500", str(500 * liability(self.basis, 65, 100))))

    def test_the_engines_refusals(self) -> None:
        rows = self.roll(["join,1,65,100", "join,2,19,100", "join,2,151,0", "join,2,19,10000001", "join,1,19,10000001",
                          "join,2,4294967295,100", "join,4294967295,65,0"])
        self.assertEqual(self.refusals(rows), ["", "6", "6", "5", "16", "6", ""])
        self.assertEqual({(row["members"], row["total"]) for row in rows[:-1]}, {("1", rows[0]["total"])})
        self.assertEqual((rows[3]["first"], rows[3]["message"]),
                         ("2", "a field outside its limits: the pension is above 10,000,000 pence (member 2)"))

    def test_a_year_that_the_basis_does_not_have(self) -> None:
        rows = self.roll(["join,1,65,100", "leave,1,,"], year=2007)
        self.assertEqual([(row["refusal"], row["first"], row["total"]) for row in rows],
                         [("7", "2007", "0"), ("15", "1", "0")])
        self.assertTrue(rows[0]["message"].endswith(": the basis has B 2008 and F 2006"), rows[0]["message"])
        self.assertEqual(self.wrong, "parvusek: every row is refused\n")

    def test_no_calls(self) -> None:
        self.assertEqual(self.roll([]), [])
        self.assertIn("0 rows, 0 joined, 0 left, 0 refused; 0 members on the roll of 2010, total 0 pence", self.said)

    def test_fail_on_refusal(self) -> None:
        for calls, wanted in ((b"join,1,65,1\n", 0), (b"leave,1,,\n", 3)):
            status, _, _ = self.roll_bytes(HEADER.encode() + b"\n" + calls, "--fail-on-refusal")
            self.assertEqual(status, wanted)
            self.assertTrue(self.out.exists() and Path(f"{self.out}.json").exists())
            self.out.unlink()

    def test_standard_input_and_output(self) -> None:
        status, said, wrong = self.run_process("roll", "-", SAMPLE / "basis.bin", "-", "--year", "2010",
                                               given=b"call,number,age,pension\njoin,1,65,100\n")
        self.assertEqual((status, said.decode().splitlines()), (0, [
            f"{HEADER},liability,members,total,refusal,first,second,message", "join,1,65,100,1570,1,1570,,,,"]))
        self.assertEqual(wrong, b"parvusek: standard output: 1 row, 1 joined, 0 left, 0 refused; "
                                b"1 member on the roll of 2010, total 1,570 pence; no record is written for it\n")

    def test_standard_output_that_is_closed_or_full(self) -> None:
        (self.folder / "calls.csv").write_text(f"{HEADER}\njoin,1,65,100\n")
        run = ["roll", self.folder / "calls.csv", SAMPLE / "basis.bin"]
        status, _, wrong = self.run_process(*run, "-", "--year", 2010, stdout=None, preexec_fn=lambda: os.close(1))
        self.assertEqual((status, wrong), (1, b"parvusek: standard output is closed, which the output would go to\n"))
        for unbuffered in ("", "1"):  # the outputs are there, and what is said names none of them
            with open("/dev/full", "wb") as full, mock.patch.dict(os.environ, PYTHONUNBUFFERED=unbuffered):
                status, _, wrong = self.run_process(*run, self.out, "--year", 2010, stdout=full)
            self.assertEqual((status, wrong), (1, b"parvusek: what is said on standard output cannot be written: "
                                                  b"No space left on device\n"))
            self.assertEqual(self.files(), ["calls.csv", "out.csv", "out.csv.json"])

    def test_the_sample(self) -> None:
        status, _, wrong = self.run_command("roll", SAMPLE / "roll.csv", SAMPLE / "basis.bin", self.out, "--year", 2010)
        self.assertEqual((status, wrong), (0, ""))
        self.assertEqual(self.out.read_bytes(), (SAMPLE / "roll_totals.csv").read_bytes())
        total, kept = 0, {}
        for row in self.rows_of(self.out):
            if not row["refusal"] and row["call"] == "join":
                kept[row["number"]] = liability(self.basis, int(row["age"]), int(row["pension"]))
            elif not row["refusal"]:
                del kept[row["number"]]
            total = sum(kept.values())
            self.assertEqual((row["members"], row["total"]), (str(len(kept)), str(total)))
        self.assertEqual({row["refusal"] for row in self.rows_of(self.out)}, {"", "5", "6", "15", "16"})


class Forms(RollCommand):
    def test_rows_that_are_not_of_the_form(self) -> None:
        rows = self.roll(["join,1,65,100", "jion,2,65,100", ",2,65,100", "join,02,65,100", "join,,65,100",
                          "join,2,sixty,100", "join,2,65,100.50", "join,2,65,-1", "join,4294967296,65,1",
                          "join,2,65,4294967296", "leave,x,,", "join,2,65", "leave", "join,2,65,100,more",
                          "leave,1,65,100,more", 'join,2,"65"x,100', "join,2,٦٥,1", "leave,1,old,none"])
        self.assertEqual(self.refusals(rows), [""] + ["12"] * 16 + [""])
        self.assertEqual([row["first"] for row in rows[1:-1]], [str(line) for line in range(3, 19)])
        self.assertEqual({(row["members"], row["total"]) for row in rows[:-1]}, {("1", rows[0]["total"])})
        for place, reason in ((1, "call is 'jion', neither join nor leave"), (2, "call is '', neither join nor leave"),
                              (3, "number is '02', not a whole number"), (6, "pension is '100.50', not a whole number"),
                              (8, "number is '4294967296', not a whole number of 0 to 4,294,967,295"),
                              (11, ": 3 cells where the header has 4"), (12, "number is '', not a whole number"),
                              (13, "5 cells where the header has 4")):
            self.assertIn(reason, rows[place]["message"])
        self.assertEqual(rows[13][None], ["more"])  # type: ignore[index]

    def test_a_row_of_one_cell(self) -> None:
        self.assertTrue(self.roll(["join"])[0]["message"].endswith(": 1 cell where the header has 4"))

    def test_a_leave_may_end_early(self) -> None:
        rows = self.roll(["join,1,65,100,x", "leave,1"], header=HEADER + ",remark")
        self.assertEqual([(row["refusal"], row["total"]) for row in rows], [("", "1570"), ("", "0")])
        self.assertEqual(self.out.read_text().splitlines()[-1], "leave,1,,,,,0,0,,,,")

    def test_columns_in_any_order_and_case_and_beside_others(self) -> None:
        rows = self.roll(["x, 100 ,65,y, JOIN ,1", "x,,,y,Leave,1"], header="date,Pension,AGE,remark, Call ,Number")
        self.assertEqual([(row["liability"], row["total"], row["refusal"]) for row in rows],
                         [("1570", "1570", ""), ("", "0", "")])

    def test_as_spreadsheets_write_it(self) -> None:
        plain = "sep=;\nname;call;number;age;pension\nMüller;join;1;65;100\n\n;;;;\n\"a\nb\";leave;1;;\n"
        for text, encoding in ((plain, "utf-8-sig"), (plain.replace("\n", "\r\n"), "utf-16"), (plain, "cp1252")):
            options = ["--encoding", "cp1252"] if encoding == "cp1252" else []
            status, said, wrong = self.roll_bytes(text.encode(encoding), *options)
            self.assertEqual((status, wrong), (0, ""))
            self.assertIn("2 rows, 1 joined, 1 left, 0 refused; 2 blank lines passed over; 1 row over several lines; "
                          "0 members", said)
            end = "\r\n" if encoding == "utf-16" else "\n"
            written = self.out.read_bytes().decode(encoding)
            self.assertEqual(written, end.join([
                "sep=;", "name;call;number;age;pension;liability;members;total;refusal;first;second;message",
                "Müller;join;1;65;100;1570;1;1570;;;;", f'"a{end}b";leave;1;;;;0;0;;;;', ""]))

    def test_bytes_of_another_encoding(self) -> None:
        status, said, wrong = self.roll_bytes("name,call,number,age,pension\nMüller,join,1,65,100\n".encode("cp1252"))
        self.assertEqual(status, 0)
        self.assertIn("1 refused: 1 by 12; 0 members", said)
        self.assertIn("refused for bytes of another encoding: 1 row, the first in line 2, character 2", wrong)

    def test_headers_that_are_none(self) -> None:
        for header, wanted in (("call,number,age", "no column 'pension'"), (HEADER + ",Age", "more than one column 'age'"),
                               (HEADER + ",total", "a column 'total' already, which the command adds"),
                               (HEADER + ",basis,Basis", "more than one column 'basis'"),
                               ("", "it names call, number, age and pension, separated by")):
            status, said, wrong = self.roll_bytes(f"{header}\n".encode())
            self.assertEqual((status, said), (1, ""))
            self.assertIn(wanted, wrong)
            self.assertEqual(self.files(), ["calls.csv"])

    def test_a_long_file(self) -> None:
        """Longer than what is read at once: rows are neither lost nor taken out of order where a block ends."""
        calls = [(f"join,{number},{20 + number % 131},{number}", f"leave,{number},,") for number in range(6_000)]
        rows = self.roll([call for pair in calls for call in pair])
        self.assertEqual(len(rows), 12_000)
        for number in range(6_000):
            worth = str(liability(self.basis, 20 + number % 131, number))
            self.assertEqual((rows[2 * number]["total"], rows[2 * number + 1]["total"]), (worth, "0"))


class Bases(RollCommand):
    def test_each_join_by_its_own_basis(self) -> None:
        rows = self.roll(["join,1,65,1000000,", "join,2,65,1000000, old ", "leave,1,,,nobody's", "join,1,65,1000000,same"],
                         "--basis", f"old={OLDER / 'basis.bin'}", "--basis", f"same={SAMPLE / 'basis.bin'}",
                         header=HEADER + ",basis")
        new, old = liability(self.basis, 65, 1_000_000), liability(self.older, 65, 1_000_000)
        self.assertNotEqual(new, old)
        self.assertEqual([row["total"] for row in rows], [str(new), str(new + old), str(old), str(old + new)])

    def test_a_name_that_no_option_gives(self) -> None:
        """The row is 12 and nothing else happens to it; the summary tells the first."""
        rows = self.roll(["join,1,65,100,", "join,2,65,100,old", "join,3,65,100,older", "join,4,65,100,new"],
                         "--basis", f"new={SAMPLE / 'basis.bin'}", header=HEADER + ",basis")
        self.assertEqual(self.refusals(rows), ["", "12", "12", ""])
        self.assertIn("(line 3): basis is 'old', which no --basis names", rows[1]["message"])
        self.assertEqual(self.wrong, "parvusek: refused for a basis that no --basis names: 2 rows, "
                                     "the first in line 3: 'old'\n")

    def test_names_without_their_column(self) -> None:
        """Otherwise each join would be by BASIS.bin, whatever its row meant to say."""
        status, said, wrong = self.roll_bytes(f"{HEADER},bases\njoin,1,65,100,old\n".encode(), "--basis",
                                              f"old={OLDER / 'basis.bin'}")
        self.assertEqual((status, said, self.files()), (1, "", ["calls.csv"]))
        self.assertEqual(wrong, "parvusek: the header row has no column 'basis', so that no join would be by the basis that "
                                "--basis names: old\n")

    def test_a_cell_never_names_a_file(self) -> None:
        rows = self.roll([f"join,1,65,100,{SAMPLE / 'basis.bin'}"], header=HEADER + ",basis")
        self.assertEqual(self.refusals(rows), ["12"])

    def test_all_are_checked_before_the_first_row(self) -> None:
        short = self.folder / "short.bin"
        short.write_bytes(b"MPB1")
        status, said, wrong = self.roll_bytes(HEADER.encode(), "--basis", f"a={self.folder / 'none.bin'}", "--basis",
                                              f"b={short}", "--expect", "0" * 64)
        self.assertEqual((status, said, len(wrong.splitlines())), (1, "", 3))
        for words in ("none.bin: No such file", "short.bin is refused: refused 1", "is expected; nothing is valued"):
            self.assertIn(words, wrong)
        self.assertEqual(self.files(), ["calls.csv", "short.bin"])

    def test_which_bases_are_expected(self) -> None:
        """Each by its SHA-256, BASIS.bin without a name, and no call is made on another."""
        new, old, history = (hashlib.sha256(path.read_bytes()).hexdigest()
                             for path in (SAMPLE / "basis.bin", OLDER / "basis.bin", OLDER / "history.bin"))
        named = ("--basis", f"old={OLDER / 'basis.bin'}", "--basis", f"same={SAMPLE / 'basis.bin'}")
        self.roll(["join,1,65,100,old"], *named, "--expect", new, "--expect", f" old ={old.upper()}", "--expect-history",
                  f"old={history}", "--expect", f"same={new}", header=HEADER + ",basis")
        self.out.unlink()
        Path(f"{self.out}.json").unlink()
        for words, wanted in ((["--expect", f"old={new}"], [f"{OLDER / 'basis.bin'} has the SHA-256 {old}, and {new} is "]),
                              (["--expect-history", f"old={old}"], [f"{OLDER / 'history.bin'} has the SHA-256 {history}, "]),
                              (["--expect", f"same={old}", "--expect", old], [f"{SAMPLE / 'basis.bin'} has the SHA-"] * 2),
                              (["--expect-history", f"same={history}"], ["basis.bin has no history, and one is expected"]),
                              (["--expect-history", history], ["basis.bin has no history, and one is expected"])):
            status, said, wrong = self.roll_bytes(f"{HEADER},basis\njoin,1,65,100,old\n".encode(), *named, *words)
            self.assertEqual((status, said, len(wrong.splitlines()), self.files()), (1, "", len(wanted), ["calls.csv"]))
            for line, words_of_it in zip(wrong.splitlines(), wanted):
                self.assertIn(words_of_it, line)

    def test_the_history(self) -> None:
        (self.folder / "calls.csv").write_text(f"{HEADER}\njoin,1,65,1000000\n")
        run = ["roll", self.folder / "calls.csv", OLDER / "basis.bin", self.out, "--year", 2010]
        self.assertEqual(self.run_command(*run)[0], 0)
        self.assertEqual(self.rows_of(self.out)[0]["total"], str(liability(self.older, 65, 1_000_000)))
        before = self.out.read_bytes()
        status, _, wrong = self.run_command(*run, "--no-history")
        self.assertEqual((status, self.out.read_bytes()), (1, before))
        self.assertIn("needs a history, and none is lent", wrong)

    def test_wrong_command_lines(self) -> None:
        for words in (["--basis", "old"], ["--basis", "=x"], ["--basis", "old="], ["--basis", "a=x", "--basis", " a=y"],
                      ["--expect", f"old={'0' * 64}"], ["--expect-history", f"old={'0' * 64}"], ["--expect", "0" * 63],
                      ["--expect", f"={'0' * 64}"], ["--expect", "0" * 64, "--expect", "1" * 64], ["--expect", "old="],
                      ["--basis", "a=x", "--expect", f"a={'0' * 64}", "--expect", f"a={'0' * 64}"], ["--year", "two"], ["--year", "4294967296"], ["--year", "-1"]):
            status, said, wrong = self.roll_bytes(HEADER.encode(), *words)
            self.assertEqual((status, said), (2, ""), words)
            self.assertIn("parvusek roll: error: ", wrong)
        self.assertIn("one of --year and --roll is needed", self.roll_bytes(HEADER.encode(), year=None)[2])
        self.assertEqual(self.files(), ["calls.csv"])

    def test_any_year_of_32_bits(self) -> None:
        for year in (0, 2**32 - 1):
            self.roll([], year=year)
            self.assertIn(f"0 members on the roll of {year}, total 0 pence", self.said)

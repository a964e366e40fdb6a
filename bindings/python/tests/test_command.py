"""The command line: members valued as the reference model values them, bases made and shown, clear errors."""

import csv
import hashlib
import io
import os
import shutil
from unittest import mock

from reference_model import bases, points
from reference_model.basis import encode, encode_file
from reference_model.older_bases import lent, older_bases
from reference_model.refusals import Refusal as ReferenceRefusal
from parvusek import history_file
from parvusek.progress import Progress

from . import SAMPLE
from .command import Command


def summed(path: object, content: bytes) -> str:
    """The line that tells the SHA-256 of a file."""
    return f"{path}: SHA-256 {hashlib.sha256(content).hexdigest()}\n"


class Value(Command):
    def test_sample(self) -> None:
        status, said, wrong = self.value((SAMPLE / "members.csv").read_text(encoding="utf-8"))
        self.assertEqual((status, wrong), (0, ""))
        self.assertIn("values.csv: 9 rows, 6 valued, 3 refused: 1 by 6, 1 by 7, 1 by 8\n", said)
        self.assertEqual((self.folder / "values.csv").read_bytes(), (SAMPLE / "values.csv").read_bytes())
        self.assertEqual(self.files(), ["members.csv", "values.csv", "values.csv.json"])

    def test_sample_is_what_the_reference_model_gives(self) -> None:
        run = bytes(encode(bases.realistic()))
        with open(SAMPLE / "values.csv", encoding="utf-8", newline="") as file:
            for row in csv.DictReader(file):
                asked = (int(row["age"]), int(row["deferment"]), int(row["year"]))
                try:
                    wanted = ["%d.%09d" % divmod(result, 10**9) for result in points.point(run, b"", *asked)] + [""] * 3
                except ReferenceRefusal as refusal:
                    wanted = [""] * 4 + [str(number) for number in refusal.numbers()]
                found = [row[column] for column in (
                    "period_expectation", "cohort_expectation", "period_annuity", "cohort_annuity",
                    "refusal", "first", "second")]
                self.assertEqual(found, wanted, asked)

    def test_rows_that_are_not_of_the_form(self) -> None:
        status, said, wrong = self.value(
            "year,name,age,deferment\n2010,\"Smith, A\",65,0\n2010,B,065,0\n\n2010,C,65\n2010,D,-5,0\n"
            "2010,E,65,99999\n2010,F, 65 ,0\n2010,G,65,0,1\n")
        self.assertEqual((status, wrong), (0, ""))
        rows = self.values()
        self.assertEqual([row["refusal"] for row in rows], ["", "12", "12", "12", "12", "", "12"])
        self.assertEqual([row["first"] for row in rows], ["", "3", "5", "6", "7", "", "9"])
        self.assertEqual(rows[0]["name"], "Smith, A")
        self.assertEqual(rows[0]["cohort_annuity"], rows[5]["cohort_annuity"])
        self.assertEqual(rows[1]["message"], "a line is not of the form asked (line 3): age is '065', not a "
                                             "number of 1 to 4 digits without a needless leading zero")
        self.assertEqual(rows[2]["message"],
                         "a line is not of the form asked (line 5): 3 cells where the header has 4")
        self.assertIn("7 rows, 2 valued, 5 refused: 5 by 12; 1 blank line passed over\n", said)

    def test_many_rows_in_order(self) -> None:
        ages = [20 + place * 37 % 140 for place in range(4_500)]
        status, said, _ = self.value("age,deferment,year\n" + "".join(f"{age},0,2010\n" for age in ages))
        self.assertEqual(status, 0)
        self.assertIn("4,500 rows", said)
        self.assertEqual([int(row["age"]) for row in self.values()], ages)
        for row in self.values():
            self.assertEqual(row["refusal"], "6" if int(row["age"]) > 150 else "")

    def test_header(self) -> None:
        for header, wanted in (("age,year", "no column 'deferment'"), ("", "no column 'age'"),
                               ("age:deferment:year", "separated by commas, semicolons or tabs"),
                               ("Age,deferment,AGE,year", "more than one column 'age'"),
                               ("age,deferment,year,Refusal", "a column 'refusal' already"),
                               ("age,age,deferment,year", "more than one column 'age'"),
                               ("age,deferment,year,refusal", "a column 'refusal' already")):
            status, _, wrong = self.value(header + "\n65,0,2010\n" if header else "")
            self.assertEqual(status, 1)
            self.assertIn(wanted, wrong)
            self.assertEqual(os.listdir(self.folder), ["members.csv"])

    def test_files_that_are_not_there(self) -> None:
        """Each is told by its part in the run, and all of them in one go."""
        members, basis, out = self.folder / "none.csv", self.folder / "none.bin", self.folder / "no" / "values.csv"
        status, _, wrong = self.run_command("value", members, SAMPLE / "basis.bin", self.folder / "values.csv")
        self.assertEqual((status, wrong), (1, f"parvusek: the file of members {members}: No such file or directory\n"))
        status, _, wrong = self.run_command("value", SAMPLE / "members.csv", basis, self.folder / "values.csv")
        self.assertEqual((status, wrong), (1, f"parvusek: the basis file {basis}: No such file or directory\n"))
        status, _, wrong = self.run_command("value", members, basis, out)
        self.assertEqual((status, wrong), (1, f"parvusek: the file of members {members}: No such file or directory\n"
                                              f"parvusek: the basis file {basis}: No such file or directory\n"
                                              f"parvusek: {out} cannot be written: there is no folder {out.parent}\n"))
        self.assertEqual(self.files(), [])

    def test_files_that_cannot_be_used(self) -> None:
        members = SAMPLE / "members.csv"
        out = self.folder / "values.csv"
        status, _, wrong = self.run_command("value", members, members, out)
        self.assertEqual(status, 1)
        self.assertIn("members.csv is refused: refused 1: file not 4,608 or 5,120 bytes, or data run not 4,554 or 5,060; it has 184 bytes\n", wrong)
        (self.folder / "long.bin").write_bytes(bytes(10_000))
        status, _, wrong = self.run_command("value", members, self.folder / "long.bin", out)
        self.assertIn("refused 1: file not 4,608 or 5,120 bytes, or data run not 4,554 or 5,060; it has 10,000 bytes\n", wrong)
        (self.folder / "own.csv").write_bytes(members.read_bytes())
        status, _, wrong = self.run_command("value", self.folder / "own.csv", SAMPLE / "basis.bin",
                                            self.folder / "own.csv")
        self.assertEqual(status, 1)
        self.assertIn("is the file of members itself", wrong)
        self.assertEqual((self.folder / "own.csv").read_bytes(), members.read_bytes())
        self.assertFalse(out.exists())

    def test_members_from_a_fifo(self) -> None:
        fifo, out = self.folder / "fifo", self.folder / "values.csv"
        os.mkfifo(fifo)
        process = self.start("value", fifo, SAMPLE / "basis.bin", out)
        fifo.write_bytes((SAMPLE / "members.csv").read_bytes())
        self.assertEqual(process.wait(timeout=60), 0)
        self.assertEqual(out.read_bytes(), (SAMPLE / "values.csv").read_bytes())

    def test_closed_streams(self) -> None:
        """A job may be started with any of the three closed."""
        out = self.folder / "values.csv"
        for closed in (0, 1, 2):
            status, _, wrong = self.run_process("value", SAMPLE / "members.csv", SAMPLE / "basis.bin", out,
                                                preexec_fn=lambda closed=closed: os.close(closed))
            self.assertEqual((status, wrong), (0, b""))
            self.assertEqual(out.read_bytes(), (SAMPLE / "values.csv").read_bytes())
        for closed, arguments in ((0, ("-", SAMPLE / "basis.bin", out)),
                                  (1, (SAMPLE / "members.csv", SAMPLE / "basis.bin", "-"))):
            status, _, wrong = self.run_process("value", *arguments, preexec_fn=lambda closed=closed: os.close(closed))
            self.assertEqual(status, 1)
            self.assertRegex(wrong.decode(), "^parvusek: standard (input|output) .*\n$")

    def test_progress_on_a_terminal_only(self) -> None:
        class Terminal(io.StringIO):
            def isatty(self) -> bool:
                return True

        terminal, file = Terminal(), io.StringIO()
        for stream in (terminal, file):
            progress = Progress(io.BytesIO(b"x"), 1, stream)
            progress(1_002, 2)
            progress.end()
        self.assertIn("1,002 rows, 2 refused, 0 %", terminal.getvalue())
        self.assertTrue(terminal.getvalue().endswith("\r\x1b[K"))
        self.assertEqual(file.getvalue(), "")


class Bases(Command):
    def test_make_and_show(self) -> None:
        status, said, _ = self.run_command("basis", "make", SAMPLE / "tables", self.folder / "basis.bin")
        self.assertEqual(status, 0)
        self.assertIn("basis.bin: accepted; MPB1, F 2006, B 2008, addition 0.001000000, discount 0.030000000\n", said)
        self.assertEqual(self.run_command("basis", "check", self.folder / "basis.bin")[:2], (0, said))
        status, _, _ = self.run_command("basis", "show", self.folder / "basis.bin", self.folder / "tables")
        self.assertEqual(status, 0)
        self.run_command("basis", "make", self.folder / "tables", self.folder / "again.bin")
        self.assertEqual((self.folder / "again.bin").read_bytes(), (SAMPLE / "basis.bin").read_bytes())
        status, _, wrong = self.run_command("basis", "show", self.folder / "basis.bin", self.folder / "tables")
        self.assertEqual(status, 1)
        self.assertIn("--force writes over", wrong)

    def test_a_refused_file_is_explained(self) -> None:
        file = bytearray((SAMPLE / "basis.bin").read_bytes())
        file[2 + 12:2 + 16] = (-10_000_001).to_bytes(4, "little", signed=True)  # the discount rate
        words = [int.from_bytes(file[4 * place:4 * place + 4], "little") for place in range(127)]
        check = sum(word * place for place, word in enumerate(words, 1)) % 2**32
        file[508:512] = check.to_bytes(4, "little")
        (self.folder / "basis.bin").write_bytes(file)
        status, _, wrong = self.run_command("basis", "check", self.folder / "basis.bin")
        self.assertEqual(status, 1)
        self.assertIn("is refused: settings.csv, discount_rate: -0.010000001 is outside its limits, "
                      "-0.010000000 to 0.200000000 (refused 5", wrong)

    def test_a_failed_make_leaves_the_old_file(self) -> None:
        (self.folder / "basis.bin").write_bytes(b"old")
        status, _, wrong = self.run_command("basis", "make", self.folder, self.folder / "basis.bin")
        self.assertEqual(status, 1)
        self.assertIn("has no settings.csv and no base_rates.csv", wrong)
        self.assertEqual(os.listdir(self.folder), ["basis.bin"])
        self.assertEqual((self.folder / "basis.bin").read_bytes(), b"old")


class Histories(Command):
    """A basis with its history beside it, F 2006 and B 2000, and one that has none."""

    def setUp(self) -> None:
        super().setUp()
        self.run_bytes, self.history = map(bytes, lent(older_bases()["2000 table"]))
        self.basis, self.beside = self.folder / "basis.bin", self.folder / "history.bin"
        self.members, self.out = self.folder / "members.csv", self.folder / "values.csv"
        self.basis.write_bytes(encode_file(self.run_bytes))
        self.beside.write_bytes(self.history)
        self.members.write_text("age,deferment,year\n65,0,2000\n65,0,2010\n45,20,2003\n65,0,1999\n", encoding="utf-8")

    def value_older(self, *options: object) -> tuple[int, str, str]:
        return self.run_command("value", self.members, self.basis, self.out, *options)

    def is_valued(self) -> None:
        for row in self.values():
            asked = (int(row["age"]), int(row["deferment"]), int(row["year"]))
            try:
                wanted = [result / 10**9 for result in points.point(self.run_bytes, self.history, *asked)]
                found = [row[column] for column in (
                    "period_expectation", "cohort_expectation", "period_annuity", "cohort_annuity")]
                self.assertEqual(found, [f"{result:.9f}" for result in wanted], asked)
            except ReferenceRefusal as refusal:
                self.assertEqual([row["refusal"], row["first"], row["second"]], list(map(str, refusal.numbers())))

    def test_valued_with_the_history_beside_the_basis(self) -> None:
        status, said, wrong = self.value_older()
        self.assertEqual((status, wrong), (0, ""))
        self.assertIn("4 rows, 3 valued, 1 refused", said)
        self.is_valued()

    def test_valued_with_a_history_that_is_named(self) -> None:
        named = self.folder / "actual.bin"
        self.beside.rename(named)
        self.beside.write_bytes(b"another's")
        self.assertEqual(self.value_older("--history", named)[0], 0)
        self.is_valued()
        status, _, wrong = self.value_older("--history", self.folder / "none.bin")
        self.assertEqual((status, wrong), (1, f"parvusek: the history {self.folder}/none.bin: No such file or directory\n"))

    def test_without_its_history(self) -> None:
        why = (": the base year 2000 is before the foundation year 2006, so that the actual improvements of 2001 to 2006 "
               "belong to it (refused 13: history not 1,024 bytes for each year from B + 1 to F (needed 6144))\n")
        status, _, wrong = self.value_older("--no-history")
        self.assertEqual((status, wrong), (1, f"parvusek: {self.basis} needs a history, and none is lent{why}"))
        self.beside.unlink()
        none = f"parvusek: {self.basis} needs a history, and there is no history.bin beside it{why}"
        self.assertEqual(self.value_older()[::2], (1, none))
        self.assertEqual(self.run_command("basis", "check", self.basis)[::2], (1, none))
        self.assertEqual(self.run_command("basis", "show", self.basis, self.folder / "tables")[::2], (1, none))
        self.assertEqual(sorted(os.listdir(self.folder)), ["basis.bin", "members.csv"])

    def test_a_history_of_another_basis(self) -> None:
        self.basis.write_bytes((SAMPLE / "basis.bin").read_bytes())
        status, _, wrong = self.value_older()
        self.assertEqual(status, 1)
        self.assertEqual(wrong, f"parvusek: {self.beside} is refused as the history of {self.basis}: the base year 2008 is "
                                "not before the foundation year 2006, so that no actual improvements belong to it "
                                "(refused 13: history not 1,024 bytes for each year from B + 1 to F (needed 0)); "
                                "it has 6,144 bytes; --no-history leaves it aside\n")
        self.assertEqual(self.value_older("--no-history")[0], 0)

    def test_a_damaged_history(self) -> None:
        for history, wanted in (
                (self.history[:-1], "the base year 2000 is before the foundation year 2006, so that the actual improvements "
                                    "of 2001 to 2006 belong to it (refused 13: "),
                (self.history[:700] + b"\xff" + self.history[701:], "refused 2: a block's check is wrong (block 1)\n"),
                (self.history[512:1_024] + self.history[:512] + self.history[1_024:],
                 "refused 3: a block's number is not its place (block 0)\n")):
            self.beside.write_bytes(history)
            for command in (("value", self.members, self.basis, self.out), ("basis", "check", self.basis)):
                status, _, wrong = self.run_command(*command)
                self.assertEqual(status, 1)
                self.assertIn(f"{self.beside} is refused as the history of {self.basis}: {wanted}", wrong)
        self.assertFalse(self.out.exists())

    def test_an_improvement_beyond_its_limits_is_explained(self) -> None:
        rows = [list(row) for row in older_bases()["2000 table"].rows]
        rows[2][86 - 20] = -500_000_001
        self.beside.write_bytes(history_file(rows))
        status, _, wrong = self.run_command("basis", "check", self.basis)
        self.assertEqual(status, 1)
        self.assertIn("actual_improvements.csv, age 86, year 2003, improvement: -0.500000001 is outside its limits, "
                      "-0.500000000 to 0.500000000 (refused 5: a field outside its limits (offset 2530))", wrong)

    def test_shown_and_made_again(self) -> None:
        status, said, _ = self.run_command("basis", "show", self.basis, self.folder / "tables")
        summary = ("accepted; MPB1, F 2006, B 2000, addition 0.001000000, discount 0.030000000, history of 2001 to 2006\n")
        sums = summed(self.basis, self.basis.read_bytes()) + summed(self.beside, self.history)
        self.assertEqual((status, said), (0, f"{self.folder}/tables: the tables of {self.basis}, {summary}{sums}"))
        for options, written in (((), "b.history.bin"), (("--history", self.folder / "again" / "actual.bin"), "actual.bin")):
            again = self.folder / "again"
            again.mkdir()
            status, said, wrong = self.run_command("basis", "make", self.folder / "tables", again / "b.bin", *options)
            self.assertEqual((status, wrong), (0, ""))
            self.assertEqual(said, f"{again}/b.bin: {summary}{again}/{written}: history of 2001 to 2006\n"
                             + summed(again / "b.bin", self.basis.read_bytes()) + summed(again / written, self.history))
            self.assertEqual(sorted(os.listdir(again)), sorted(["b.bin", written]))
            self.assertEqual((again / "b.bin").read_bytes(), self.basis.read_bytes())
            self.assertEqual((again / written).read_bytes(), self.history)
            shutil.rmtree(again)
        self.assertEqual(self.run_command("basis", "check", self.basis), (0, f"{self.basis}: {summary}{sums}", ""))

    def test_a_basis_without_a_history_is_made_without_one(self) -> None:
        self.beside.unlink()
        self.assertEqual(self.run_command("basis", "make", SAMPLE / "tables", self.basis)[::2], (0, ""))
        self.assertFalse(self.beside.exists())
        # One that is there stays, and is said to be another's.
        self.beside.write_bytes(self.history)
        status, said, wrong = self.run_command("basis", "make", SAMPLE / "tables", self.basis)
        self.assertEqual(status, 0)
        self.assertEqual(wrong, f"parvusek: {self.beside} does not belong to this basis, which has no history; remove it, "
                                "or value with --no-history\n")
        self.assertEqual(self.beside.read_bytes(), self.history)

    def test_a_failed_make_leaves_the_old_files(self) -> None:
        tables = self.folder / "tables"
        self.run_command("basis", "show", self.basis, tables)
        before = self.basis.read_bytes()
        table = tables / "actual_improvements.csv"
        text = table.read_text(encoding="utf-8")
        table.write_text(text.replace("\n20,2001,", "\n20,2001,9", 1), encoding="utf-8")
        status, _, wrong = self.run_command("basis", "make", tables, self.basis)
        self.assertEqual(status, 1)
        self.assertIn("actual_improvements.csv, age 20, year 2001, improvement: ", wrong)
        table.write_text(text, encoding="utf-8")
        status, _, wrong = self.run_command("basis", "make", tables, self.basis, "--history", self.folder / "no" / "h.bin")
        self.assertEqual(status, 1)
        self.assertIn("there is no folder", wrong)
        status, _, wrong = self.run_command("basis", "make", tables, self.basis, "--history", self.basis)
        self.assertEqual((status, wrong), (
            1, f"parvusek: {self.basis}: two outputs would be one file; name another for one of them\n"))
        self.assertEqual((self.basis.read_bytes(), self.beside.read_bytes()), (before, self.history))
        self.assertEqual(sorted(os.listdir(self.folder)), ["basis.bin", "history.bin", "members.csv", "tables"])


    def test_a_history_that_leads_nowhere_is_not_a_missing_one(self) -> None:
        self.beside.unlink()
        self.beside.symlink_to("none.bin")
        status, _, wrong = self.value_older()
        self.assertEqual((status, wrong), (1, f"parvusek: the history {self.beside}: No such file or directory\n"))

    def test_rounded_rates_are_counted(self) -> None:
        tables = self.folder / "tables"
        shutil.copytree(SAMPLE / "tables", tables)
        table = tables / "base_rates.csv"
        table.write_text(table.read_text(encoding="utf-8").replace("20,0.000300000", "20,0.0002999999995"), encoding="utf-8")
        out = self.folder / "m.bin"
        status, _, wrong = self.run_command("basis", "make", tables, out)
        self.assertEqual((status, wrong), (1, "parvusek: base_rates.csv, age 20, base_rate: '0.0002999999995' has more than "
                                              "nine decimals; --round rounds it to nine\n"))
        status, said, _ = self.run_command("basis", "make", tables, out, "--round")
        self.assertEqual(status, 0)
        self.assertIn(f"{out}: rounded to nine decimals: 1 rate\n", said)
        self.assertEqual(out.read_bytes(), (SAMPLE / "basis.bin").read_bytes())

    def test_a_table_without_its_last_line_end(self) -> None:
        tables, out = self.folder / "tables", self.folder / "m.bin"
        shutil.copytree(SAMPLE / "older" / "tables", tables)
        self.assertEqual(self.run_command("basis", "make", tables, out)[::2], (0, ""))
        made, told = out.read_bytes(), ""
        for file in ("settings.csv", "base_rates.csv", "age_component.csv", "cohort_component.csv", "actual_improvements.csv"):
            table = tables / file
            table.write_bytes(table.read_bytes().rstrip(b"\r\n"))
            told += (f"parvusek: the last line of {table} has no line end, and is taken as it stands: "
                     "was the file cut short?\n")
            self.assertEqual(self.run_command("basis", "make", tables, out, "--force")[::2], (0, told))
            self.assertEqual(out.read_bytes(), made)

    def test_a_basis_on_standard_output(self) -> None:
        status, said, wrong = self.run_process("basis", "make", SAMPLE / "tables", "-")
        self.assertEqual((status, said), (0, (SAMPLE / "basis.bin").read_bytes()))
        self.assertIn(b"parvusek: standard output: accepted; MPB1, F 2006, B 2008", wrong)
        status, said, wrong = self.run_process("basis", "make", SAMPLE / "older" / "tables", "-")
        self.assertEqual((status, said), (1, b""))
        self.assertIn(b"--history names one", wrong)


class Surprises(Command):
    def test_a_file_that_cannot_be_read_to_its_end(self) -> None:
        status, said, wrong = self.run_command("value", "/proc/self/mem", SAMPLE / "basis.bin", self.folder / "values.csv")
        self.assertEqual((status, said, wrong), (1, "", "parvusek: the file of members /proc/self/mem: Input/output error\n"))
        self.assertEqual(self.files(), [])

    def test_no_traceback_for_what_is_unforeseen(self) -> None:
        for surprise, wanted in ((MemoryError(), "there is not enough memory"), (RecursionError("deep"), "unforeseen, please")):
            with mock.patch("parvusek.commands.read_basis", side_effect=surprise):
                status, _, wrong = self.value("age,deferment,year\n")
            self.assertEqual(status, 1)
            self.assertIn(wanted, wrong)
            self.assertEqual(self.files(), ["members.csv"])

    def test_a_path_that_is_no_text(self) -> None:
        out = os.fsencode(self.folder) + b"/\xff.csv"
        status, said, wrong = self.run_process("value", SAMPLE / "members.csv", SAMPLE / "basis.bin", os.fsdecode(out))
        self.assertEqual((status, wrong), (0, b""))
        self.assertIn(b"\\udcff.csv: 9 rows", said)
        self.assertTrue(os.path.exists(out) and os.path.exists(out + b".json"))

    def test_help_for_a_reader_that_goes(self) -> None:
        process = self.start("value", "--help")
        assert process.stdout is not None and process.stderr is not None
        process.stdout.close()
        self.assertEqual(process.stderr.read(), b"")
        self.assertIn(process.wait(timeout=60), (0, 141))  # argparse leaves out what it cannot write


class Library(Command):
    def test_a_library_that_is_not_there(self) -> None:
        import parvusek._library as place
        place.library.cache_clear()
        try:
            for named in (self.folder, self.folder / "none.so", __file__):
                with mock.patch.dict(os.environ, PARVUSEK_LIB=str(named)):
                    status, _, wrong = self.run_command("basis", "check", SAMPLE / "basis.bin")
                self.assertEqual(status, 1)
                self.assertTrue(wrong.startswith("parvusek: "), wrong)
                self.assertIn(str(named), wrong)
        finally:
            place.library.cache_clear()

"""The command on bases of either form: which form is made, how it is shown, and the old form of a basis."""

import hashlib
import json
import os
import shutil
from pathlib import Path

from parvusek import Basis
from parvusek.tables import TableError, Tables, basis_of

from . import SAMPLE
from .command import Command
from .forms import age_p, cohort_p, file_of, in_new_form

OLDER = SAMPLE / "older"


class Folder(Command):
    """A folder of the sample's tables, in which single proportions are changed."""

    def setUp(self) -> None:
        super().setUp()
        self.tables = self.folder / "tables"
        shutil.copytree(SAMPLE / "tables", self.tables)
        self.out = self.folder / "m.bin"

    def put(self, file: str, key: int, proportion: str) -> None:
        """Another proportion at an age or a birth year."""
        path = self.tables / file
        lines = path.read_text(encoding="utf-8").splitlines(keepends=True)
        changed = [",".join(line.split(",")[:-1] + [f"{proportion}\n"]) if line.startswith(f"{key},") else line for line in lines]
        self.assertNotEqual(changed, lines)
        path.write_text("".join(changed), encoding="utf-8")

    def set_form(self, form: str) -> None:
        with open(self.tables / "settings.csv", "a", encoding="utf-8") as settings:
            settings.write(f"form,{form}\n")

    def make(self, *options: object) -> tuple[int, str, str]:
        return self.run_command("basis", "make", self.tables, self.out, *options)


class Make(Folder):
    def test_the_old_form_where_it_holds_every_proportion(self) -> None:
        self.put("age_component.csv", 65, "50.00")
        status, said, wrong = self.make()
        self.assertEqual((status, wrong), (0, ""))
        self.assertIn(f"{self.out}: accepted; MPB1, F 2006, B 2008, ", said)
        self.assertEqual(self.out.read_bytes(), (SAMPLE / "basis.bin").read_bytes())

    def test_the_new_form_where_a_proportion_is_no_whole_per_cent(self) -> None:
        self.put("age_component.csv", 65, "62.37")
        self.put("cohort_component.csv", 1931, ".5")
        status, said, wrong = self.make()
        self.assertEqual((status, wrong), (0, ""))
        self.assertIn(f"{self.out}: accepted; MPB2, F 2006, B 2008, ", said)
        old = Basis.read(SAMPLE / "basis.bin")
        wanted = in_new_form(old.run, {age_p(65): 6_237, cohort_p(1931): 50})
        self.assertEqual(self.out.read_bytes(), file_of(wanted))
        self.assertIn(f"{self.out}: SHA-256 {hashlib.sha256(file_of(wanted)).hexdigest()}\n", said)

    def test_the_new_form_if_asked_for(self) -> None:
        wanted = file_of(in_new_form(Basis.read(SAMPLE / "basis.bin").run))
        self.assertEqual(self.make("--form", "MPB2")[0], 0)
        self.assertEqual(self.out.read_bytes(), wanted)
        self.set_form("mpb2")
        self.assertEqual(self.make()[0], 0)
        self.assertEqual(self.out.read_bytes(), wanted)
        self.assertEqual(self.make("--form", "mpb1")[0], 0)
        self.assertEqual(self.out.read_bytes(), (SAMPLE / "basis.bin").read_bytes())

    def test_the_old_form_asked_for_in_vain(self) -> None:
        self.put("age_component.csv", 65, "62.37")
        self.put("cohort_component.csv", 1931, "149.99")
        status, said, wrong = self.make("--form", "MPB1")
        self.assertEqual((status, said), (1, ""))
        self.assertEqual(wrong, "parvusek: age_component.csv, age 65, proportion_remaining: 62.37 is no whole per cent, and "
                                "MPB1 holds no other\n"
                                "parvusek: cohort_component.csv, birth year 1931, proportion_remaining: 149.99 is no whole per "
                                "cent, and MPB1 holds no other\n")
        self.assertEqual(self.files(), ["tables"])
        self.set_form("MPB1")
        self.assertEqual(self.make()[0], 1)
        self.assertEqual(self.make("--form", "MPB2")[0], 0)

    def test_a_form_that_is_none(self) -> None:
        self.assertEqual(self.run_process("basis", "make", self.tables, self.out, "--form", "MPB3")[0], 2)
        self.set_form("MPB3")
        self.assertEqual(self.make()[2], "parvusek: settings.csv, form: 'MPB3' is neither MPB1 nor MPB2\n")
        self.set_form("MPB1")
        self.assertIn("settings.csv, line 7: 'form' is there twice", self.make()[2])

    def test_a_proportion_outside_its_limits(self) -> None:
        for form, proportion, told in (
                ((), "151", "151 is outside its limits, 0 to 150 (refused 5: a field outside its limits (offset 1778))"),
                ((), "150.01", "150.01 is outside its limits, 0.00 to 150.00 (refused 5: a field outside its limits (offset "
                               "1823))"),
                (("--form", "MPB2"), "151", "151.00 is outside its limits, 0.00 to 150.00 (refused 5: a field outside its "
                                            "limits (offset 1823))"),
                (("--form", "MPB1"), "150.01", "150.01 is no whole per cent, and MPB1 holds no other"),
                ((), "-1", "-1 is outside its limits, 0 to 150"),
                ((), "1E3", "1000 is outside its limits, 0 to 150"),
                ((), "62.375", "'62.375' has more than two decimals; --round rounds it to two"),
                ((), "half", "'half' is not a decimal number with at most two decimals, such as 62.37")):
            shutil.copy(SAMPLE / "tables" / "age_component.csv", self.tables)
            self.put("age_component.csv", 65, proportion)
            self.assertEqual(self.make(*form),
                             (1, "", f"parvusek: age_component.csv, age 65, proportion_remaining: {told}\n"))

    def test_limits_of_other_fields_have_the_offsets_of_the_form(self) -> None:
        path = self.tables / "cohort_component.csv"
        text = path.read_text(encoding="utf-8")
        path.write_text(text.replace("\n1931,0.025000000,0.000000000,26,", "\n1931,0.025000000,0.000000000,51,"), encoding="utf-8")
        for form, offset in (("MPB1", 4016 + 89), ("MPB2", 4147 + 89)):
            with self.assertRaisesRegex(TableError, rf"birth year 1931, .*: 51 is outside .*\(offset {offset}\)"):
                basis_of(self.tables, form)

    def test_rounded_only_if_told(self) -> None:
        self.put("age_component.csv", 65, "62.370000000000005")
        self.put("age_component.csv", 66, "62.375")
        self.assertEqual(self.make()[0], 1)
        status, said, _ = self.make("--round")
        self.assertEqual(status, 0)
        self.assertIn(f"{self.out}: rounded to two decimals: 2 proportions\n", said)
        run = Basis.read(self.out).run
        self.assertEqual(run[age_p(65):age_p(67)], (6_237).to_bytes(2, "little") + (6_238).to_bytes(2, "little"))

    def test_parts_of_one_are_taken_for_per_cents_with_a_warning(self) -> None:
        for key in range(20, 151):
            self.put("age_component.csv", key, "0.62")
        status, _, wrong = self.make()
        self.assertEqual(status, 0)
        self.assertEqual(wrong, "parvusek: age_component.csv: the greatest proportion_remaining is 0.62 per cent; is it meant as a "
                                "part of one?\n")

    def test_with_a_history(self) -> None:
        shutil.copytree(OLDER / "tables", self.tables, dirs_exist_ok=True)
        self.put("age_component.csv", 65, "62.37")
        self.assertEqual(self.make()[0], 0)
        self.assertEqual((self.folder / "m.history.bin").read_bytes(), (OLDER / "history.bin").read_bytes())
        status, said, _ = self.run_command("basis", "check", self.out)
        self.assertEqual(status, 0)
        self.assertIn("accepted; MPB2, F 2006, B 2000, ", said)
        self.assertIn("history of 2001 to 2006", said)


class Show(Folder):
    def test_two_decimals_of_the_new_form(self) -> None:
        self.out.write_bytes(file_of(in_new_form(Basis.read(SAMPLE / "basis.bin").run, {age_p(65): 6_237, cohort_p(1842): 5})))
        shown = self.folder / "shown"
        status, said, _ = self.run_command("basis", "show", self.out, shown)
        self.assertEqual(status, 0)
        self.assertIn("accepted; MPB2, ", said)
        rows = [line.split(",") for line in (shown / "age_component.csv").read_text(encoding="utf-8").splitlines()]
        self.assertEqual([row[-1] for row in rows if row[0] in ("64", "65", "66")], ["50.00", "62.37", "50.00"])
        rows = [line.split(",") for line in (shown / "cohort_component.csv").read_text(encoding="utf-8").splitlines()]
        self.assertEqual([row[-1] for row in rows[:3]], ["proportion_remaining", "0.05", "25.00"])
        self.assertTrue((shown / "settings.csv").read_text(encoding="utf-8").endswith("\nform,MPB2\n"))
        self.assertEqual(basis_of(shown).to_file(), self.out.read_bytes())

    def test_made_again_in_its_own_form(self) -> None:
        """Also where the old form would hold every proportion, and with a history."""
        older = Basis.read(OLDER / "basis.bin")
        self.out.write_bytes(file_of(in_new_form(older.run)))
        shutil.copy(OLDER / "history.bin", self.folder / "m.history.bin")
        shown = self.folder / "shown"
        self.assertEqual(self.run_command("basis", "show", self.out, shown)[0], 0)
        again = Tables(shown).basis()
        self.assertEqual((again.to_file(), again.history), (self.out.read_bytes(), (OLDER / "history.bin").read_bytes()))

    def test_the_old_form_is_shown_in_whole_per_cents(self) -> None:
        shown = self.folder / "shown"
        self.assertEqual(self.run_command("basis", "show", SAMPLE / "basis.bin", shown)[0], 0)
        for file in os.listdir(shown):
            self.assertEqual((shown / file).read_bytes(), (SAMPLE / "tables" / file).read_bytes())


class Refused(Folder):
    def test_a_file_in_the_new_form(self) -> None:
        old = Basis.read(SAMPLE / "basis.bin").run
        for run, told in ((in_new_form(old, {age_p(65): 15_001}),
                           "age_component.csv, age 65, proportion_remaining: 150.01 is outside its limits, 0.00 to 150.00 "
                           "(refused 5: a field outside its limits (offset 1823))"),
                          (in_new_form(old, {4_954: 1}), "refused 4: mark or zero bytes wrong (offset 4954)"),
                          (b"MPB1" + in_new_form(old)[4:], "refused 4: mark or zero bytes wrong (offset 3)")):
            self.out.write_bytes(file_of(run))
            self.assertEqual(self.run_command("basis", "check", self.out),
                             (1, "", f"parvusek: {self.out} is refused: {told}\n"))
        self.out.write_bytes(file_of(in_new_form(old)) + bytes(1_000))
        self.assertIn("; it has 6,120 bytes\n", self.run_command("basis", "check", self.out)[2])


class Convert(Folder):
    def setUp(self) -> None:
        super().setUp()
        self.old = Basis.read(SAMPLE / "basis.bin")
        self.into = self.folder / "old.bin"
        self.out.write_bytes(file_of(in_new_form(self.old.run)))
        shutil.rmtree(self.tables)

    def convert(self, *options: object) -> tuple[int, str, str]:
        return self.run_command("basis", "convert", self.out, self.into, *options)

    def test_to_the_old_form(self) -> None:
        status, said, wrong = self.convert()
        sums = [hashlib.sha256(path.read_bytes()).hexdigest() for path in (self.out, self.into)]
        self.assertEqual((status, wrong), (0, ""))
        self.assertEqual(said, f"{self.into}: made from {self.out}, which is MPB2; accepted; MPB1, F 2006, B 2008, addition "
                               f"0.001000000, discount 0.030000000\n{self.out}: SHA-256 {sums[0]}\n{self.into}: SHA-256 {sums[1]}\n")
        self.assertEqual(self.into.read_bytes(), (SAMPLE / "basis.bin").read_bytes())
        self.assertEqual(self.out.read_bytes(), file_of(in_new_form(self.old.run)))

    def test_what_is_in_the_old_form_already(self) -> None:
        shutil.copy(SAMPLE / "basis.bin", self.out)
        self.assertEqual(self.convert()[0], 0)
        self.assertEqual(self.into.read_bytes(), self.out.read_bytes())

    def test_a_proportion_that_is_no_whole_per_cent(self) -> None:
        for proportions, told in (
                ({cohort_p(1931): 6_237, cohort_p(1932): 5, age_p(150): 1},
                 "age_component.csv, age 150, proportion_remaining: 0.01 is no whole per cent, the first of 3 that are none "
                 "(refused 17: a proportion is no whole per cent (offset 1993))"),
                ({cohort_p(1931): 6_237}, "cohort_component.csv, birth year 1931, proportion_remaining: 62.37 is no whole per cent "
                                          "(refused 17: a proportion is no whole per cent (offset 4594))")):
            self.out.write_bytes(file_of(in_new_form(self.old.run, proportions)))
            self.assertEqual(self.convert(), (1, "", f"parvusek: {self.out} cannot be written as MPB1: {told}\n"))
            self.assertEqual(self.files(), ["m.bin"])

    def test_with_its_history(self) -> None:
        older = Basis.read(OLDER / "basis.bin")
        self.out.write_bytes(file_of(in_new_form(older.run)))
        status, _, wrong = self.convert()
        self.assertEqual(status, 1)
        self.assertIn("needs a history", wrong)
        shutil.copy(OLDER / "history.bin", self.folder / "m.history.bin")
        status, said, wrong = self.convert()
        self.assertEqual((status, wrong), (0, ""))
        self.assertIn("history of 2001 to 2006\n", said)
        self.assertEqual(self.files(), ["m.bin", "m.history.bin", "old.bin", "old.history.bin"])
        for made, wanted in (("old.bin", "basis.bin"), ("old.history.bin", "history.bin")):
            self.assertEqual((self.folder / made).read_bytes(), (OLDER / wanted).read_bytes())

    def test_without_its_history(self) -> None:
        older = Basis.read(OLDER / "basis.bin")
        self.out.write_bytes(file_of(in_new_form(older.run)))
        self.assertEqual(self.convert("--no-history")[0], 0)
        self.assertEqual(self.into.read_bytes(), (OLDER / "basis.bin").read_bytes())
        self.assertEqual(self.files(), ["m.bin", "old.bin"])

    def test_nothing_is_written_over_without_being_asked(self) -> None:
        self.into.write_bytes(b"mine")
        status, _, wrong = self.convert()
        self.assertEqual((status, wrong), (1, f"parvusek: {self.into} is there already; name another, or write over with "
                                              "--force\n"))
        self.assertEqual(self.into.read_bytes(), b"mine")
        self.assertEqual(self.convert("--force")[0], 0)
        self.assertEqual(self.into.read_bytes(), (SAMPLE / "basis.bin").read_bytes())

    def test_a_history_that_is_there(self) -> None:
        self.out.write_bytes(file_of(in_new_form(Basis.read(OLDER / "basis.bin").run)))
        shutil.copy(OLDER / "history.bin", self.folder / "m.history.bin")
        (self.folder / "old.history.bin").write_bytes(b"mine")
        status, _, wrong = self.convert()
        self.assertEqual(status, 1)
        self.assertIn("old.history.bin is there already", wrong)
        self.assertEqual((self.folder / "old.history.bin").read_bytes(), b"mine")
        self.assertFalse(self.into.exists())

    def test_never_over_its_inputs(self) -> None:
        before = self.out.read_bytes()
        os.link(self.out, self.into)
        for out in (self.out, self.into):
            for options in ((), ("--force",)):
                status, _, wrong = self.run_command("basis", "convert", self.out, out, *options)
                self.assertEqual((status, wrong), (1, f"parvusek: {out} is the basis file itself; name another\n"))
        self.assertEqual(self.out.read_bytes(), before)

    def test_to_standard_output(self) -> None:
        status, said, wrong = self.run_process("basis", "convert", self.out, "-")
        self.assertEqual((status, said), (0, (SAMPLE / "basis.bin").read_bytes()))
        self.assertIn(b"parvusek: standard output: ", wrong)
        self.out.write_bytes(file_of(in_new_form(Basis.read(OLDER / "basis.bin").run)))
        shutil.copy(OLDER / "history.bin", self.folder / "m.history.bin")
        status, said, wrong = self.run_process("basis", "convert", self.out, "-")
        self.assertEqual((status, said), (1, b""))
        self.assertIn(b"--no-history converts the basis file alone", wrong)


class Used(Folder):
    """The other commands take either form."""

    def test_values_and_record(self) -> None:
        self.assertEqual(self.make("--form", "MPB2")[0], 0)
        values = self.folder / "values.csv"
        self.assertEqual(self.run_command("value", SAMPLE / "members.csv", self.out, values)[0], 0)
        self.assertEqual(values.read_bytes(), (SAMPLE / "values.csv").read_bytes())
        record = json.loads(Path(f"{values}.json").read_text(encoding="utf-8"))
        self.assertEqual((record["basis"]["form"], record["basis"]["sha256"]),
                         ("MPB2", hashlib.sha256(self.out.read_bytes()).hexdigest()))

    def test_a_roll(self) -> None:
        self.assertEqual(self.make("--form", "MPB2")[0], 0)
        totals = self.folder / "totals.csv"
        self.assertEqual(self.run_command("roll", SAMPLE / "roll.csv", self.out, totals, "--year", 2010)[0], 0)
        self.assertEqual(totals.read_bytes(), (SAMPLE / "roll_totals.csv").read_bytes())

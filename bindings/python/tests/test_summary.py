"""What a valuation says when it is done: refusals counted by number, and a status for those who want one."""

import subprocess

from . import REPOSITORY, SAMPLE
from .command import Command, members_of


class Summary(Command):
    def test_refusals_are_counted_by_number(self) -> None:
        status, said, wrong = self.value("age,deferment,year\n65,0,2010\n19,0,2010\n151,0,2010\n148,3,2010\nx,0,2010\n")
        self.assertEqual((status, wrong), (0, ""))
        self.assertIn("values.csv: 5 rows, 1 valued, 4 refused: 2 by 6, 1 by 8, 1 by 12\n", said)

    def test_every_row_refused(self) -> None:
        status, said, wrong = self.value(members_of([19, 19]))
        self.assertEqual(status, 0)
        self.assertIn("2 rows, 0 valued, 2 refused: 2 by 6\n", said)
        self.assertEqual(wrong, "parvusek: every row is refused\n")

    def test_fail_on_refusal(self) -> None:
        for members, wanted in ((members_of([65]), 0), (members_of([65, 19]), 3), (members_of([]), 0)):
            status, _, _ = self.value_bytes(members.encode(), "--fail-on-refusal")
            self.assertEqual(status, wanted)
            self.assertTrue((self.folder / "values.csv").exists())
            self.assertTrue((self.folder / "values.csv.json").exists())

    def test_on_standard_error_where_the_values_go_to_standard_output(self) -> None:
        status, said, wrong = self.run_process("value", "-", SAMPLE / "basis.bin", "-", "--fail-on-refusal",
                                               given=(SAMPLE / "members.csv").read_bytes())
        self.assertEqual((status, said), (3, (SAMPLE / "values.csv").read_bytes()))
        self.assertEqual(wrong, b"parvusek: standard output: 9 rows, 6 valued, 3 refused: 1 by 6, 1 by 7, 1 by 8; "
                                b"no record is written for it\n")

    def test_each_exit_status_stands_in_the_help_and_in_the_manual_page(self) -> None:
        helped = self.run_process("--help")[1].decode() + self.run_process("value", "--help")[1].decode()
        page = (REPOSITORY / "docs" / "man" / "parvusek.1").read_text(encoding="utf-8")
        for status in ("0", "1", "2", "3", "128"):
            self.assertRegex(helped, rf"(?m)^ +{status}\b")
            self.assertRegex(page, rf"(?m)^\.B {status}\b")
        self.assertTrue(helped.startswith("usage: parvusek "), helped[:60])

    def test_the_manual_page_has_every_command_and_option(self) -> None:
        page = (REPOSITORY / "docs" / "man" / "parvusek.1").read_text(encoding="utf-8").replace("\\-", "-")
        for command in (("value",), ("roll",), ("basis", "make"), ("basis", "show"), ("basis", "check"), ("basis", "convert")):
            self.assertIn(" ".join(command), page)
            helped = self.run_process(*command, "--help")[1].decode()
            for word in helped.replace("[", " ").replace("]", " ").split():
                if word.startswith("--") and len(word) > 2:
                    self.assertIn(word.rstrip(",.;"), page, command)

    def test_the_manual_page_is_formatted_without_a_warning(self) -> None:
        try:
            done = subprocess.run(["groff", "-man", "-Tutf8", "-ww", str(REPOSITORY / "docs" / "man" / "parvusek.1")],
                                  capture_output=True, check=True)
        except FileNotFoundError:
            self.skipTest("there is no groff")
        self.assertEqual(done.stderr, b"")

"""Two bases in one folder: each is valued with its own history, and none is ever overwritten by another's."""

import os
import threading
from dataclasses import replace
from pathlib import Path
from typing import Callable, Optional
from unittest import mock

from reference_model.basis import encode, encode_file
from reference_model.older_bases import lent, older_bases
from parvusek import Basis, history_file
from parvusek.basis_files import read_basis, write_basis
from parvusek.outputs import place_of
from parvusek.shown_tables import show

from .command import Command, members_of


class TwoBases(Command):
    """Men and women on a table of 2000, F 2006: the same basis, and other actual improvements."""

    def setUp(self) -> None:
        super().setUp()
        older = older_bases()["2000 table"]
        run, self.mens = map(bytes, lent(older))
        self.womens = history_file([[number + 1_000_000 for number in row] for row in older.rows])
        self.file = bytes(encode_file(run))
        for name, history in (("male", self.mens), ("female", self.womens)):
            show(Basis(run, history), self.folder / name)
        (self.folder / "m.csv").write_text(members_of([65, 80]), encoding="utf-8")
        self.m, self.f = self.folder / "m.bin", self.folder / "f.bin"

    def make(self, name: str, out: Path, *options: object) -> tuple[int, str, str]:
        return self.run_command("basis", "make", self.folder / name, out, *options)

    def value_of(self, basis: Path, *options: object) -> tuple[int, str, str]:
        return self.run_command("value", self.folder / "m.csv", basis, self.folder / "values.csv", *options)

    def annuities(self) -> list[str]:
        return [row["cohort_annuity"] for row in self.values()]

    def test_each_is_valued_with_its_own_history(self) -> None:
        self.assertEqual(self.make("male", self.m)[0], 0)
        self.assertEqual(self.value_of(self.m)[0], 0)
        before = self.annuities()
        self.assertEqual(self.make("female", self.f)[0], 0)
        self.assertEqual(self.value_of(self.m)[0], 0)
        self.assertEqual(self.annuities(), before)
        self.assertEqual(self.value_of(self.f)[0], 0)
        self.assertNotEqual(self.annuities(), before)
        self.assertEqual((self.folder / "m.history.bin").read_bytes(), self.mens)
        self.assertEqual((self.folder / "f.history.bin").read_bytes(), self.womens)

    def test_history_bin_is_taken_beside_basis_bin_only(self) -> None:
        self.m.write_bytes(self.file)
        (self.folder / "history.bin").write_bytes(self.womens)
        status, _, wrong = self.value_of(self.m)
        self.assertEqual(status, 1)
        self.assertIn("there is no m.history.bin beside it", wrong)
        self.assertIn("history.bin is taken beside basis.bin only; --history names it", wrong)
        os.rename(self.m, self.folder / "basis.bin")
        self.assertEqual(self.value_of(self.folder / "basis.bin")[0], 0)

    def test_made_as_basis_bin_it_has_the_name_that_the_points_program_reads(self) -> None:
        self.assertEqual(self.make("male", self.folder / "basis.bin")[0], 0)
        self.assertEqual((self.folder / "history.bin").read_bytes(), self.mens)
        self.assertEqual(self.value_of(self.folder / "basis.bin")[0], 0)

    def test_two_histories_beside_basis_bin(self) -> None:
        (self.folder / "basis.bin").write_bytes(self.file)
        (self.folder / "history.bin").write_bytes(self.mens)
        (self.folder / "basis.history.bin").write_bytes(self.womens)
        for run in (lambda: self.value_of(self.folder / "basis.bin"), lambda: self.make("male", self.folder / "basis.bin")):
            status, _, wrong = run()
            self.assertEqual(status, 1)
            self.assertIn("basis.history.bin and", wrong)
            self.assertIn("--history", wrong)
        self.assertEqual(self.value_of(self.folder / "basis.bin", "--history", self.folder / "history.bin")[0], 0)

    def test_a_history_of_another_basis_is_not_overwritten(self) -> None:
        self.make("male", self.m)
        before = {name: (self.folder / name).read_bytes() for name in ("m.bin", "m.history.bin")}
        for out, options in ((self.f, ("--history", self.folder / "m.history.bin")),
                             (self.f, ("--history", self.folder / "m.history.bin", "--force")),
                             (self.folder / "m.history.bin", ()),
                             (self.f, ("--history", self.m))):
            status, _, wrong = self.make("female", out, *options)
            self.assertEqual(status, 1, wrong)
            self.assertIn("belongs to" if options[1:2] != (self.m,) else "is there already", wrong)
            self.assertFalse(self.f.exists())
        (self.folder / "kept.bin").write_bytes(self.mens)
        status, _, wrong = self.make("female", self.f, "--history", self.folder / "kept.bin")
        self.assertEqual(status, 1)
        self.assertIn("kept.bin is there already", wrong)
        self.assertIn("--force", wrong)
        self.assertEqual((self.folder / "kept.bin").read_bytes(), self.mens)
        self.assertEqual({name: (self.folder / name).read_bytes() for name in before}, before)
        self.assertEqual(self.make("female", self.f, "--history", self.folder / "kept.bin", "--force")[0], 0)
        self.assertEqual((self.folder / "kept.bin").read_bytes(), self.womens)

    def test_made_again(self) -> None:
        for tables in ("male", "male", "female"):
            self.assertEqual(self.make(tables, self.m)[0], 0)
        self.assertEqual((self.folder / "m.history.bin").read_bytes(), self.womens)
        self.assertEqual(self.files(), ["female", "m.bin", "m.csv", "m.history.bin", "male"])

    def two(self) -> list[Basis]:
        """Two bases that differ, each with its history."""
        older = older_bases()["2000 table"]
        runs = [bytes(encode(replace(older.basis, discount_rate=rate))) for rate in (30_000_000, 30_000_001)]
        return [Basis(run, history) for run, history in zip(runs, (self.mens, self.womens))]

    def write(self, basis: Basis) -> None:
        write_basis(basis, place_of(str(self.m)), place_of(str(self.folder / "m.history.bin")))

    def test_no_step_leaves_a_basis_with_a_history_of_another(self) -> None:
        """Looked at after each step that changes a name, as a power failure would leave it: own history, or none."""
        seen: list[tuple[bytes, Optional[bytes]]] = []

        def looked_at(call: Callable[..., None]) -> Callable[..., None]:
            def step(*arguments: object) -> None:
                call(*arguments)
                beside = self.folder / "m.history.bin"
                seen.append((self.m.read_bytes(), beside.read_bytes() if beside.exists() else None))
            return step

        first, second = self.two()
        self.write(first)
        with mock.patch("os.replace", looked_at(os.replace)), mock.patch("os.unlink", looked_at(os.unlink)):
            self.write(second)
        self.assertEqual(seen, [(first.to_file(), None), (second.to_file(), None), (second.to_file(), second.history)])
        # With the same history nothing has to go.
        seen.clear()
        third = Basis(first.run, second.history)
        with mock.patch("os.replace", looked_at(os.replace)), mock.patch("os.unlink", looked_at(os.unlink)):
            self.write(third)
        self.assertEqual(seen, [(third.to_file(), third.history)] * 2)

    def test_the_command_reads_both_of_one_making(self) -> None:
        pairs = {basis.to_file(): basis.history for basis in self.two()}
        self.write(self.two()[0])

        def make() -> None:
            for basis in self.two() * 25:
                self.write(basis)

        maker = threading.Thread(target=make)
        maker.start()
        reads = 0
        while maker.is_alive():
            read = read_basis(str(self.m))
            self.assertEqual(pairs[read.basis.to_file()], read.basis.history)
            reads += 1
        maker.join()
        self.assertGreater(reads, 0)

    def test_a_link_to_a_basis(self) -> None:
        self.make("male", self.m)
        link = self.folder / "current.bin"
        link.symlink_to("m.bin")
        self.assertEqual(self.value_of(link)[0], 0)
        (self.folder / "current.history.bin").write_bytes(self.womens)
        status, _, wrong = self.value_of(link)
        self.assertEqual(status, 1)
        self.assertIn("current.history.bin and", wrong)

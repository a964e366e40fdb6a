"""Every enquiry against the reference model, and what the binding itself refuses."""

import doctest
import os
import random
import threading
import unittest
from typing import Any, Callable, Optional

from reference_model import bases, engine, points
from reference_model.basis import encode, short_form, write_file, write_old_form
from reference_model.finer_bases import finer_bases, fitted_table_of_2000
from reference_model.older_bases import lent, older_bases
from reference_model.refusals import Refusal as ReferenceRefusal
from parvusek import Basis, Kind, Question, Refusal, Results, Standing, UNIT
import parvusek.history
import parvusek.refusals
import parvusek.decimals

from . import SAMPLE

KINDS = ((Kind.PERIOD, engine.PERIOD), (Kind.COHORT, engine.COHORT))


def outcome(call: Callable[..., Any], *arguments: Any) -> Any:
    """The value of a call, or its refusal as three numbers."""
    try:
        return call(*arguments)
    except Refusal as refusal:
        return "refused", refusal.number, refusal.first, refusal.second
    except ReferenceRefusal as refusal:
        return ("refused",) + tuple(refusal.numbers())


def drawn_questions(draw: random.Random, count: int) -> list[Question]:
    """Mostly well-formed questions, some at and beyond each edge."""
    ages = [0, 19, 20, 65, 149, 150, 151, 2**32 - 1] + list(range(20, 151, 7))
    years = [0, 1999, 2000, 2001, 2005, 2006, 2007, 2008, 2130, 2131, 2**32 - 1] + list(range(2010, 2130, 17))
    return [Question(draw.choice(ages), draw.choice([0, 0, 1, 20, 85, 131, 2**32 - 1]), draw.choice(years))
            for _ in range(count)]


class Enquiries(unittest.TestCase):
    named = {"sample": bases.sample(), "realistic": bases.realistic(), "exactly four": bases.exactly_four(),
             "limits": bases.limits_basis(1), "random": bases.random_basis(2, -200_000_000, 200_000_000),
             "below zero": bases.named_bases()["lowest discount"],
             **{name: finer_bases()[name] for name in ("fitted", "widest", "finer 10 in mid-course", "finer random wide")}}

    # Bases with a history: a realistic one, one stopped in the years of the history, one after them.
    older = {**{name: older_bases()[name] for name in ("2000 table", "10 in mid-history", "9 after the history")},
             "fitted 2000 table": fitted_table_of_2000()}

    def each_basis(self) -> Any:
        """The data run, the history and the basis of each."""
        for name, reference_basis in self.named.items():
            run = bytes(encode(reference_basis))
            with self.subTest(basis=name):
                yield run, b"", Basis(run)
        for name, older in self.older.items():
            run, history = map(bytes, lent(older))
            with self.subTest(basis=name):
                yield run, history, Basis(run, history)

    def test_cells(self) -> None:
        for run, history, basis in self.each_basis():
            for age, _, year in drawn_questions(random.Random(1), 60):
                for name in ("improvement", "factor", "rate"):
                    self.assertEqual(outcome(getattr(basis, name), age, year),
                                     outcome(getattr(engine, name), run, history, age, year), (name, age, year))

    def test_values(self) -> None:
        for run, history, basis in self.each_basis():
            for question in drawn_questions(random.Random(2), 25):
                for name in ("survivorship", "expectation", "annuity"):
                    for kind, reference_kind in KINDS:
                        self.assertEqual(outcome(getattr(basis, name), kind, *question),
                                         outcome(getattr(engine, name), run, history, reference_kind, *question),
                                         (name, kind, question))

    def test_points(self) -> None:
        for run, history, basis in self.each_basis():
            questions = drawn_questions(random.Random(3), 131)
            wanted = [outcome(points.point, run, history, *question) for question in questions]
            answered = [tuple(answer) if isinstance(answer, Results)
                        else ("refused", answer.number, answer.first, answer.second)
                        for answer in basis.value(questions)]
            self.assertEqual(answered, wanted)
            self.assertEqual(basis.grid(questions), basis.value(questions[:119]))
            self.assertEqual(basis.small_set(questions[:6]), basis.value(questions[:6]))

    def test_lifeline(self) -> None:
        for run, history, basis in self.each_basis():
            # From the base year on where there is a history, so that its years are lived through.
            year = basis.base_year if history else 2100
            reference_line, refusal = points.start_lifeline(run, history, 60, year)
            self.assertIsNone(refusal)
            line = basis.lifeline(60, year)
            self.assertEqual(line.standing, Standing(60, year, UNIT))
            while (wanted := outcome(points.step_lifeline, reference_line, history)) == points.STEPPED:
                self.assertEqual(next(line),
                                 Standing(reference_line.age, reference_line.year, reference_line.survivors))
            if wanted == points.ENDED:
                self.assertEqual(list(line), [])
                self.assertEqual(line.standing.age, 150)
            else:
                self.assertEqual(outcome(line.step), wanted)

    def test_small_set_and_grid_of_another_length(self) -> None:
        basis = Basis.read(SAMPLE / "basis.bin")
        question = Question(65, 0, 2010)
        with self.assertRaises(ValueError):
            basis.small_set([question] * 5)
        self.assertEqual(outcome(basis.grid, [question] * 118), ("refused", 11, 119, 0))
        self.assertEqual(len(basis.grid([question] * 120)), 119)
        self.assertEqual(basis.value([]), [])

    def test_numbers_that_do_not_fit(self) -> None:
        basis = Basis.read(SAMPLE / "basis.bin")
        for age in (-1, 2**32 + 65):
            with self.assertRaises(ValueError):
                basis.rate(age, 2010)
            with self.assertRaises(ValueError):
                basis.value([Question(age, 0, 2010)])
        for odd in (65.0, "65", None, True):
            with self.assertRaises(TypeError):
                basis.rate(odd, 2010)  # type: ignore[arg-type]
        with self.assertRaises(ValueError):
            basis.short_form(2**31)


class Files(unittest.TestCase):
    def test_read_and_write(self) -> None:
        file = (SAMPLE / "basis.bin").read_bytes()
        self.assertEqual(file, bytes(write_file(bytes(encode(bases.realistic())))))
        basis = Basis.from_file(file)
        self.assertEqual(basis.to_file(), file)
        self.assertEqual(basis, Basis(basis.run))
        self.assertEqual(repr(basis), "<Basis MPB1, F 2006, B 2008>")
        self.assertEqual((basis.constant_addition, basis.discount_rate), (1_000_000, 30_000_000))
        below = Basis(bytes(encode(bases.named_bases()["lowest discount"])))
        self.assertEqual(below.discount_rate, -10_000_000)

    def test_damaged(self) -> None:
        file = (SAMPLE / "basis.bin").read_bytes()
        self.assertEqual(outcome(Basis.from_file, b""), ("refused", 1, 0, 0))
        self.assertEqual(outcome(Basis.from_file, file + b"\0"), ("refused", 1, 0, 0))
        self.assertEqual(outcome(Basis.from_file, file[:700] + b"\xff" + file[701:]), ("refused", 2, 1, 0))
        run = Basis.from_file(file).run
        self.assertEqual(outcome(Basis, run[:-1]), ("refused", 1, 0, 0))
        self.assertEqual(outcome(Basis, b"MPB2" + run[4:]), ("refused", 4, 3, 0))
        self.assertEqual(outcome(Basis, run[:1602] + b"\0" + run[1603:]), ("refused", 5, 1602, 0))

    def test_short_form(self) -> None:
        for path in ("basis.bin", "finer/basis.bin"):
            basis = Basis.read(SAMPLE / path)
            for rate in (-200_000_000, -1, 0, 10_000_000, 200_000_000):
                self.assertEqual(basis.short_form(rate).run, bytes(short_form(basis.run, rate)))
            self.assertEqual(outcome(basis.short_form, 200_000_001), ("refused", 5, 1078, 0))

    def test_old_form(self) -> None:
        runs = [bytes(encode(basis)) for basis in (bases.realistic(), *finer_bases().values())]
        runs += [bytes(short_form(run, 10_000_000)) for run in runs]
        found = [outcome(Basis(run).to_old_form) for run in runs]
        self.assertEqual(found, [outcome(lambda: bytes(write_old_form(run))) for run in runs])
        self.assertTrue(any(isinstance(file, bytes) and len(run) == 5_060 for file, run in zip(found, runs)))
        self.assertTrue(any(isinstance(file, tuple) and file[1] == 17 for file in found))


class Threads(unittest.TestCase):
    def test_two_threads_on_one_basis(self) -> None:
        basis = Basis.read(SAMPLE / "basis.bin")
        questions = [Question(age, 0, 2010) for age in range(20, 151)]
        wanted = basis.value(questions)
        found: list[Optional[list[Any]]] = [None, None]

        def work(place: int) -> None:
            found[place] = basis.value(questions)

        threads = [threading.Thread(target=work, args=(place,)) for place in range(2)]
        for thread in threads:
            thread.start()
        for thread in threads:
            thread.join()
        self.assertEqual(found, [wanted, wanted])


class Examples(unittest.TestCase):
    def test_examples_of_the_documentation(self) -> None:
        before = os.getcwd()
        os.chdir(SAMPLE)
        try:
            for module in (parvusek, parvusek.history, parvusek.refusals, parvusek.decimals):
                tested = doctest.testmod(module)
                self.assertGreater(tested.attempted, 0, module.__name__)
                self.assertEqual(tested.failed, 0, module.__name__)
        finally:
            os.chdir(before)

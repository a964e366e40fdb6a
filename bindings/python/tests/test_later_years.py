"""Years after 2130: values against the reference model, single cells, and the annuity that tells of every 9 and 10."""

import random
import unittest
from typing import Any, Callable

from reference_model import engine, points
from reference_model.bases import named_bases
from reference_model.basis import encode
from reference_model.later_bases import later_bases
from reference_model.older_bases import lent, table_of_2000
from parvusek import Basis, Kind, Question, Results, Roll, Standing, UNIT

from .test_basis import KINDS, outcome


def late_questions(draw: random.Random, base_year: int, count: int) -> list[Question]:
    """Members from 20 on in 2130 or not long before it, every other one deferred, in even years and odd ones."""
    ages = [draw.choice((20, 21, draw.randint(20, 149))) for _ in range(count)]
    return [Question(age, place % 2 and draw.randint(0, 150 - age), draw.randint(max(base_year, 2110), 2130))
            for place, age in enumerate(ages)]


class LaterYears(unittest.TestCase):
    # Each with its data run and its history; the last is a table of 2000.
    bases = {**{name: (bytes(encode(basis)), b"") for name, basis in later_bases().items()},
             "2000 table": tuple(map(bytes, lent(table_of_2000())))}

    def of_each(self, check: Callable[[bytes, bytes, Basis], None]) -> None:
        for name, (run, history) in self.bases.items():
            with self.subTest(basis=name):
                check(run, history, Basis(run, history))

    def test_values(self) -> None:
        def check(run: bytes, history: bytes, basis: Basis) -> None:
            for question in late_questions(random.Random(1), basis.base_year, 25):
                for name in ("survivorship", "expectation", "annuity"):
                    for kind, reference_kind in KINDS:
                        self.assertEqual(outcome(getattr(basis, name), kind, *question),
                                         outcome(getattr(engine, name), run, history, reference_kind, *question),
                                         (name, kind, question))
        self.of_each(check)

    def test_points(self) -> None:
        def check(run: bytes, history: bytes, basis: Basis) -> None:
            questions = late_questions(random.Random(2), basis.base_year, 131)
            wanted = [outcome(points.point, run, history, *question) for question in questions]
            answered: list[Any] = [tuple(answer) if isinstance(answer, Results)
                                   else ("refused", answer.number, answer.first, answer.second)
                                   for answer in basis.value(questions)]
            self.assertEqual(answered, wanted)
            self.assertEqual(basis.small_set(questions[:6]), basis.value(questions[:6]))
        self.of_each(check)

    def test_lifelines(self) -> None:
        """From 20 in 2130 to 150 in 2260, or to a refusal, with the survivors of so many years."""
        def check(run: bytes, history: bytes, basis: Basis) -> None:
            reference_line, _ = points.start_lifeline(run, history, 20, 2130)
            line = basis.lifeline(20, 2130)
            while (wanted := outcome(points.step_lifeline, reference_line, history)) == points.STEPPED:
                standing = Standing(reference_line.age, reference_line.year, reference_line.survivors)
                self.assertEqual(next(line), standing)
                self.assertEqual(basis.survivorship(Kind.COHORT, 20, standing.age - 20, 2130), standing.survivors)
            self.assertEqual(outcome(line.step), False if wanted == points.ENDED else wanted)
        self.of_each(check)

    def test_single_cells(self) -> None:
        """They end in 2130, also where a value takes a later one."""
        def check(run: bytes, history: bytes, basis: Basis) -> None:
            for age, year in ((21, 2131), (60, 2131), (149, 2259), (150, 2260)):
                for cell in (basis.improvement, basis.factor, basis.rate):
                    self.assertEqual(outcome(cell, age, year), ("refused", 7, year, 0))
        self.of_each(check)

    def test_a_join(self) -> None:
        """The liability of a member of 20 in 2130 is by the annuity of the years to 2259."""
        def check(run: bytes, history: bytes, basis: Basis) -> None:
            annuity = outcome(engine.annuity, run, history, engine.COHORT, 20, 0, 2130)
            pence = annuity if isinstance(annuity, tuple) else (2 * 10_000_000 * annuity + UNIT) // (2 * UNIT)
            self.assertEqual(outcome(Roll(2130).join, basis, 7, 20, 10_000_000), pence)
        self.of_each(check)


class OneAnnuity(unittest.TestCase):
    def test_it_tells_whether_any_value_is_refused(self) -> None:
        """That of 20 in 2130 takes every age in its last year: where it is answered, 9 and 10 are given to nobody."""
        found = set()
        for name, reference_basis in {**named_bases(), **later_bases()}.items():
            basis = Basis(bytes(encode(reference_basis)))
            told = outcome(basis.annuity, Kind.COHORT, 20, 0, 2130)
            draw = random.Random(3)
            questions = [Question(age, draw.randint(0, 150 - age), draw.randint(basis.base_year, 2130))
                         for age in range(20, 151)]
            refused = [answer for answer in basis.value(questions) if not isinstance(answer, Results)]
            with self.subTest(basis=name):
                self.assertTrue(isinstance(told, tuple) or not refused)
            found.add(isinstance(told, tuple))
        self.assertEqual(found, {False, True})

"""The sentences of the refusals are those of docs/REFUSALS.md."""

import pickle
import re
import unittest

from parvusek import Refusal
from parvusek.refusals import PLACES, SENTENCES

from . import REPOSITORY


class Refusals(unittest.TestCase):
    def test_sentences(self) -> None:
        text = (REPOSITORY / "docs" / "REFUSALS.md").read_text(encoding="utf-8")
        in_short = text.partition("\n## In short\n")[2].partition("\n## ")[0]
        rows = re.findall(r"^\| (\d+) \| (.*?) \| (.*?) \|", in_short, re.MULTILINE)
        self.assertEqual(SENTENCES, {int(number): sentence for number, sentence, _ in rows})
        for number, _, places in rows:
            named = [place for place in places.split(", ") if place != "0"]
            self.assertEqual(len(PLACES[int(number)]), len(named), f"the places of {number}")

    def test_message(self) -> None:
        self.assertEqual(str(Refusal(1)), "refused 1: file not 4,608 or 5,120 bytes, or data run not 4,554 or 5,060")
        self.assertEqual(str(Refusal(6, 19)), "refused 6: age outside 20 to 150 (age 19)")
        self.assertEqual(str(Refusal(13, 6_144)),
                         "refused 13: history not 1,024 bytes for each year from B + 1 to F (needed 6144)")
        self.assertEqual(str(Refusal(14, 1001)), "refused 14: the roll is full (member 1001)")
        self.assertEqual(str(Refusal(15, 1001)), "refused 15: the member number is not on the roll (member 1001)")
        self.assertEqual(str(Refusal(16, 0)), "refused 16: the member number is on the roll already (member 0)")
        self.assertEqual(str(Refusal(17, 1823)), "refused 17: a proportion is no whole per cent (offset 1823)")
        self.assertEqual(Refusal(9, 70, 2031).message,
                         "an improvement needed is beyond ±500,000,000 (age 70, year 2031)")

    def test_is_an_exception_with_its_numbers(self) -> None:
        refusal = Refusal(8, 148, 3)
        self.assertEqual((refusal.number, refusal.first, refusal.second), (8, 148, 3))
        self.assertEqual(pickle.loads(pickle.dumps(refusal)), refusal)
        self.assertNotEqual(refusal, Refusal(8, 148, 4))

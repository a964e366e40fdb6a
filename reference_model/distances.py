"""Judges the answers of the program `check_answers` by the paper's distances from the exact model.

Run with `python3 -m reference_model.distances` from the folder that holds `crates/`. It reads the program's
input and output, `crates/check_answers/stdin` and `stdout`; that the program writes this output is
the gate's to say. For each of the six kinds it prints how many answers were checked and how near to
its bound the worst one came; annuities at a rate of discount below zero, whose bound is four times
as much, are a kind of their own here. Answers that take actual improvements into a factor are
counted a second time, under a name of their own, and so are those that take improvements of years
after 2130, and those on bases in the new form. It ends with status 1 if a bound is broken or cannot
be decided, or if fewer answers under a name than `LEAST_CHECKED` says could be checked.
"""

import struct
import sys
from collections import Counter, namedtuple
from functools import cache
from pathlib import Path

from reference_model.basis import decode
from reference_model.distance import distance, takes_actual, takes_later
from reference_model.enquiries import (ANNUITY, EXPECTATION, FACTOR, IMPROVEMENT, KINDS, RATE,
                                       SURVIVORSHIP)
from reference_model.exact import ExactModel
from reference_model.history import decode_history
from reference_model.layout import MPB2, form_of_run
from reference_model.make_answer_cases import CASE

FOLDER = Path("crates/check_answers")
BELOW_ZERO = "annuity below 0"  # an annuity whose rate of discount is below zero
ACTUAL = "actual years"  # an answer of any kind that takes actual improvements into a factor
LATER = "later years"  # an answer of any kind that takes improvements of years after 2130 into a factor
NEW_FORM = "new form"  # an answer of any kind on a basis in the new form

# What is judged, and the least number of each; for an improvement no premise can fail.
LEAST_CHECKED = {IMPROVEMENT: 700, FACTOR: 700, RATE: 700, SURVIVORSHIP: 700, EXPECTATION: 700,
                 ANNUITY: 700, BELOW_ZERO: 300, ACTUAL: 700, LATER: 700, NEW_FORM: 700}

# Of one case: its kind, the place of its basis among the data runs in the order in which they are asked
# about, age, deferment and year, its history, and its line of output.
Case = namedtuple("Case", "kind place question history line")


def read_cases(asked, answered):
    """The data runs, each once, and the cases, each with its line."""
    end = 4 + int.from_bytes(asked[:4], "little")
    lent = asked[4:end]
    cases = list(struct.iter_unpack(CASE, asked[end:]))
    *lines, last = answered.decode("ascii").splitlines()
    if len(lines) != len(cases) or last != "cases %d" % len(cases):
        raise ValueError("the output is not that of %d cases" % len(cases))
    places, read = {}, []
    for (kind, *question, start, length, history_start, history_length), line in zip(cases, lines):
        place = places.setdefault(stretch(lent, start, length), len(places))
        read.append(Case(KINDS[kind], place, tuple(question),
                         stretch(lent, history_start, history_length), line))
    return list(places), read


def stretch(lent, start, length):
    """The bytes of a stretch; none where it does not lie within those that are lent."""
    return lent[start:start + length] if start + length <= len(lent) else b""


class Tally:
    """Of one kind: how many, the worst share of its bound, and the cases that break theirs."""

    def __init__(self):
        self.counts = Counter()
        self.worst, self.worst_case = 0, None
        self.faults = []

    def add(self, found, case):
        if not found.premise:
            self.counts["premise fails"] += 1
            return
        self.counts["checked"] += 1
        if found.upper > found.bound:
            word = "broken" if found.lower > found.bound else "undecided"
            self.faults.append("%s: %s" % (word, described(case)))
        if found.bound and found.upper / found.bound > self.worst:
            self.worst, self.worst_case = found.upper / found.bound, case


def described(case):
    return "%s, basis %d, age %d, deferment %d, year %d: %s" % (
        " ".join(word for word in reversed(case.kind) if word), case.place, *case.question,
        case.line)


def judged_as(case, below_zero):
    """The name of a case's tally; `below_zero` has the places of the bases with such a discount."""
    name = case.kind[0]
    return BELOW_ZERO if name == ANNUITY and case.place in below_zero else name


def judged(asked, answered):
    """A tally for each name that is judged."""
    runs, cases = read_cases(asked, answered)
    model_of = cache(lambda place, history: ExactModel(decode(runs[place]),
                                                       decode_history(history)))
    forms = [form_of_run(len(run)) for run in runs]
    below_zero = {place for place, run in enumerate(runs)
                  if forms[place] and decode(run).discount_rate < 0}
    tallies = {name: Tally() for name in LEAST_CHECKED}
    for case in cases:
        tally = tallies[judged_as(case, below_zero)]
        word, *numbers = case.line.split()
        if word != "value":
            tally.counts["refused"] += 1
            continue
        model, (answer,) = model_of(case.place, case.history), map(int, numbers)
        found = distance(model, case.kind, *case.question, answer)
        tally.add(found, case)
        if takes_actual(model, case.kind, *case.question):
            tallies[ACTUAL].add(found, case)
        if takes_later(case.kind, *case.question):
            tallies[LATER].add(found, case)
        if forms[case.place] == MPB2:
            tallies[NEW_FORM].add(found, case)
    return tallies


def main():
    try:
        tallies = judged((FOLDER / "stdin").read_bytes(), (FOLDER / "stdout").read_bytes())
    except (OSError, ValueError, struct.error) as error:
        return "distances: %s" % error
    status = 0
    for name, tally in tallies.items():
        # Refused enquiries are counted by their kind alone.
        refused = "" if name in (ACTUAL, LATER, NEW_FORM) else ", refused %d" % tally.counts["refused"]
        print("%-15s checked %d (premise fails %d%s), worst distance / bound %.6f" % (
            name, tally.counts["checked"], tally.counts["premise fails"], refused, tally.worst))
        if tally.worst_case:
            print("%-15s at %s" % ("", described(tally.worst_case)))
        for fault in tally.faults:
            print(fault)
            status = 1
        if tally.counts["checked"] < LEAST_CHECKED[name]:
            print("%s: fewer than %d could be checked" % (name, LEAST_CHECKED[name]))
            status = 1
    return status


if __name__ == "__main__":
    sys.exit(main())

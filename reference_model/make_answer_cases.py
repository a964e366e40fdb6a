"""Writes the cases of `check_answers`: enquiries of all nine kinds, with the answers.

Run with `python3 -m reference_model.make_answer_cases [folder]` from the folder that holds `crates/`.

Standard input, all numbers little-endian: the number of bytes that are lent (4 bytes), and as many
bytes, data runs of either form and history files one after the other; then cases to the end. A case is
its kind (1 byte, its place in `enquiries.KINDS`), age, deferment and year (4 each, unsigned), where its
data run starts in those bytes (4) and its length (4), and the same of its history. A stretch that does
not lie within the bytes stands for no bytes. Expected, a line a case: `value` and the number, or
`refused` and the refusal's number and places.
"""

import random
import struct

from reference_model.bases import discounted_bases, gentle_bases, named_bases, realistic
from reference_model.basis import decode, encode
from reference_model.damage import other_lengths, proportions_of_two_bytes, tails, with_number
from reference_model.enquiries import ANNUITY, IMPROVEMENT, KINDS, SURVIVORSHIP, ask
from reference_model.finer_bases import (finer_bases, finer_celled_bases, fitted, fitted_table_of_2000,
                                         gentle_finer_bases)
from reference_model.history import NO_HISTORY
from reference_model.history_cases import (REFUSED, Group, along_history, beyond_the_bytes,
                                           groups_with_history, in_turn, without_history)
from reference_model.later_bases import later_bases, rounded_one_way_later
from reference_model.layout import form_of_run
from reference_model.older_bases import gentle_older_bases, lent, table_of_2000
from reference_model.refusals import Refusal, outcome
from reference_model.rounding_bases import ONE_WAY_AGE, ONE_WAY_YEARS, celled_bases, rounded_one_way
from reference_model.units import LAST_AGE, LAST_YEAR
from reference_model.vectors import command, expected_output, write

GREATEST = 4_294_967_295
MOST_BYTES = 1_048_576  # the program's room for what is lent
CASE = "<BIIIIIII"

CHOSEN = ("sample", "realistic", "improvements high", "all limits low", "P 150", "B 2130", "F 2080",
          "9 in mid-course", "9 and 10 in one year", "10 in mid-course", "exactly four",
          "just beyond low", "random gentle", "random mixed", "random wide")

# At the limits of the rate of discount and just below zero.
DISCOUNTED = ("nobody dies, lowest discount", "nobody dies, discount -1",
              "nobody dies, greatest discount", "lowest discount")

# In the new form, the edges on the first of them.
FINER = ("fitted", "finer 9 in mid-course", "finer 10 in mid-course", "finer random gentle",
         "finer random mixed", "finer random wide", "finer random limits")


# ---- the questions

def edges(base_year, foundation_year):
    """Ages, deferments and years at and beyond each end, and numbers that fill four bytes."""
    last = LAST_YEAR
    yield from [(20, 0, base_year), (150, 0, base_year), (150, 0, last), (20, 0, last),
                (20, 130, base_year), (20, 130, last), (149, 1, last), (149, 0, last),
                (149, 1, base_year), (100, 50, last), (100, 49, last), (21, 128, base_year)]
    yield from [(19, 0, last), (151, 0, last), (0, 0, last), (GREATEST, 0, last),
                (GREATEST, GREATEST, GREATEST), (19, 132, last + 1)]
    yield from [(20, 131, last), (150, 1, last), (149, 2, last), (60, GREATEST, last),
                (150, GREATEST - 149, last), (60, GREATEST - 30, 0), (60, 91, last + 1)]
    yield from [(60, 0, base_year - 1), (60, 0, last + 1), (60, 0, 0), (60, 0, GREATEST),
                (60, 0, foundation_year), (60, 0, foundation_year - 1), (60, 90, last + 1),
                (20, 0, foundation_year), (150, 0, foundation_year), (60, 20, GREATEST - 19)]


def ordinary(draw, base_year):
    """A question that 6, 8 and 7 do not refuse; young ages and late years often among them."""
    age = draw(20, 150)
    deferment = draw(0, 150 - age) if draw(0, 2) else 0
    first = base_year if draw(0, 2) else max(base_year, 2100)
    return age, deferment, draw(first, min(2130, first + 40))


def stopping(kind, basis, draw):
    """Ordinary questions, the first years in order, and the ages and years at which bases stop."""
    for _ in range(14):
        yield ordinary(draw, basis.base_year)
    if kind[1] is None:
        first = basis.foundation_year if kind[0] == IMPROVEMENT else basis.base_year
        for years in range(10):
            yield 80, 0, first + years
    # Just before and at the ages that stop the chosen bases, and past them by deferment.
    for age in (79, 80, 97, 110):
        yield age, 1, min(LAST_YEAR, basis.base_year + 10)
        yield age - 3, 6, min(LAST_YEAR, basis.base_year + 1)


def stopping_and_edges(kind, basis, draw):
    yield from edges(basis.base_year, basis.foundation_year)
    yield from stopping(kind, basis, draw)


def answerable(kind, basis, draw):
    """Any that 6, 8 and 7 do not refuse; every other one not deferred, every third soon after B."""
    for _ in range(60):
        age = draw(20, LAST_AGE)
        deferment = draw(0, 1) and draw(0, LAST_AGE - age)
        last_year = LAST_YEAR if draw(0, 2) else min(LAST_YEAR, basis.base_year + 3)
        yield age, deferment, draw(basis.base_year, last_year)


def whole_lives(kind, basis, draw):
    """Annuities from age 20, over which the discount runs to its end; a few of the other kinds."""
    for year in (basis.base_year, LAST_YEAR):
        for deferment in (0, 1, 45, 129, 130) if kind[0] == ANNUITY else (45,):
            yield 20, deferment, year


def whole_lives_and_more(kind, basis, draw):
    yield from whole_lives(kind, basis, draw)
    if kind[0] == ANNUITY:
        yield from answerable(kind, basis, draw)


def all_but_reached(kind, basis, draw):
    """Where the distances are, after few years and after all; each year's improvement is a tie."""
    years = range(1, ONE_WAY_YEARS + 1) if kind[0] == IMPROVEMENT else (1, 2, 3, 10, ONE_WAY_YEARS)
    for each in years:
        yield ONE_WAY_AGE, 1 if kind[0] == SURVIVORSHIP else 0, basis.base_year + each
    yield from answerable(kind, basis, draw)


def at_cells(cells):
    """Each cell's own age and year, so that its improvement is in the first rate that is used."""
    return lambda kind, basis, draw: [(age, 1 if kind[0] == SURVIVORSHIP else 0, year)
                                      for age, year, _ in cells]


def along_convergence(kind, basis, draw):
    """One age in every year of the longest period of convergence and just after it; of the kinds
    that go on to other ages, a few.
    """
    years = range(52) if kind[1] is None else (1, 24, 25, 48)
    for each in years:
        yield 60, 1 if kind[0] == SURVIVORSHIP else 0, basis.foundation_year + each


# Ages and deferments in 2130, most of whose years are later: whole lives of the last birth year, the last
# rates of all, and deferments that end on either side of them.
YOUNG_IN_2130 = ((20, 0), (20, 2), (20, 45), (20, 128), (20, 129), (20, 130), (21, 128), (60, 5), (100, 49),
                 (147, 2), (148, 1), (148, 2), (149, 1))

# Each annuity goes on to 150, so of them there are fewer.
ANNUITIES_IN_2130 = ((20, 0), (20, 129), (60, 5), (120, 29), (147, 2), (148, 2), (149, 1))

# Single cells, of which those after 2130 are refused, also where the birth year is one of the table's.
CELLS_TO_2130 = ((20, 2130), (149, 2130), (150, 2130), (20, 2131), (21, 2131), (149, 2259), (150, 2260))


def after_the_last_year(kind, basis, draw):
    """Members who are young in 2130 or not long before it, and deferments that lead past it."""
    if kind[1] is None:
        for age, year in CELLS_TO_2130:
            yield age, 0, year
        return
    for age, deferment in ANNUITIES_IN_2130 if kind[0] == ANNUITY else YOUNG_IN_2130:
        yield age, deferment, LAST_YEAR
    yield 45, 20, max(basis.base_year, LAST_YEAR - 15)
    age = draw(20, 100)
    yield age, draw(0, LAST_AGE - age), draw(max(basis.base_year, 2100), LAST_YEAR)


def members_in_2130(kind, basis, draw):
    """A few, as the base year is long past and each of them takes many years."""
    if kind[1] is not None:
        yield from [(20, 45, LAST_YEAR), (60, 5, LAST_YEAR), (100, 35, 2100)]


def refused(kind, basis, draw):
    """The data run's refusal comes before what could be said of the question."""
    yield from [(60, 0, 2020), (19, 0, 2020), (150, 1, 2020), (60, 0, 2131)]


# ---- the cases

def bases():
    """Each data run with its questions: accepted ones by choice, with the edges on every third; one
    refused by 4 and one by 5; the gentle ones, for the distances; the rates of discount; the ways
    to join two components.
    """
    by_name = named_bases()
    return ([(encode(by_name[name]), stopping_and_edges if place % 3 == 1 else stopping)
             for place, name in enumerate(CHOSEN)]
            + [(with_number(encode(realistic()), 20, 1, 1), refused),
               (with_number(encode(realistic()), 554 + 4 * 40, 4, 200_000_001), refused)]
            + [(encode(basis), answerable) for basis in gentle_bases().values()]
            + [(encode(rounded_one_way()), all_but_reached)]
            + [(encode(by_name[name]), whole_lives) for name in DISCOUNTED]
            + [(encode(basis), whole_lives_and_more) for basis in discounted_bases().values()]
            + [(encode(basis), at_cells(cells)) for basis, cells in celled_bases().values()]
            + [(b"", refused)])


def groups_in_the_new_form():
    """Each data run with its history and its questions; refused ones too, of every length."""
    by_name = finer_bases()
    for place, name in enumerate(FINER):
        yield Group(encode(by_name[name]), NO_HISTORY, stopping if place else stopping_and_edges)
    yield Group(encode(by_name["realistic in the new form"]), NO_HISTORY, stopping)
    yield Group(encode(by_name["widest"]), NO_HISTORY, along_convergence)
    for basis in gentle_finer_bases().values():
        yield Group(encode(basis), NO_HISTORY, answerable)
    for basis, cells in finer_celled_bases().values():
        yield Group(encode(basis), NO_HISTORY, at_cells(cells))
    yield Group(*lent(fitted_table_of_2000()), along_history)
    run, history = encode(fitted()), lent(fitted_table_of_2000())[1]
    yield Group(run, history, refused)
    damages = (*other_lengths(run), *tails(run), *list(proportions_of_two_bytes(run))[::3])
    for place, damage in enumerate(damages):
        yield Group(damage.content, NO_HISTORY, in_turn(place, REFUSED))


def groups_of_later_years():
    """The later bases, and some that are lent already: the samples, and gentle ones, one with the
    longest history.
    """
    for basis in (*later_bases().values(), rounded_one_way_later()):
        yield Group(encode(basis), NO_HISTORY, after_the_last_year)
    for basis in (realistic(), fitted(), gentle_bases()["random small 100"], gentle_bases()["one unit"],
                  discounted_bases()["random small, lowest discount"]):
        yield Group(encode(basis), NO_HISTORY, members_in_2130)
    for older in (table_of_2000(), gentle_older_bases()["longest history"]):
        yield Group(*lent(older), members_in_2130)


def line_of(answer):
    return str(answer) if isinstance(answer, Refusal) else "value %d" % answer


class Cases:
    """The data runs and histories that are asked about, and the cases, each with its line."""

    def __init__(self):
        self.lent, self.starts = b"", {}
        self.asked, self.lines = [], []

    def stretch_of(self, content):
        """Where these bytes stand and how many they are, at most once each; they may be within
        others.
        """
        if content not in self.starts:
            if content not in self.lent:
                self.lent += content
            self.starts[content] = self.lent.index(content)
        return self.starts[content], len(content)

    def add(self, group, kind, question, stretch=None):
        """Asks about a group's data run and history, or about a stretch that stands for none."""
        age, deferment, year = question
        if kind[1] is None:
            deferment = 0
        self.asked.append(struct.pack(CASE, KINDS.index(kind), age, deferment, year,
                                      *self.stretch_of(group.run),
                                      *(stretch or self.stretch_of(group.history))))
        self.lines.append(line_of(outcome(ask, group.run, group.history, kind, age, deferment,
                                          year)))

    def add_all(self, groups, seed):
        draw = random.Random(seed).randint
        for kind in KINDS:
            for group in groups:
                basis = decode(group.run) if form_of_run(len(group.run)) else None
                for question in group.questions(kind, basis, draw):
                    self.add(group, kind, question)

    def input_and_output(self):
        assert len(self.lent) <= MOST_BYTES
        return (len(self.lent).to_bytes(4, "little") + self.lent + b"".join(self.asked),
                expected_output(self.lines))


def input_and_output():
    """The bytes of standard input and of the expected standard output."""
    cases = Cases()
    cases.add_all([Group(run, NO_HISTORY, questions) for run, questions in bases()], 20_060_101)
    cases.add_all(list(groups_with_history(edges)), 20_000_101)
    # What is lent from here on stands already, so that these stretches are beyond it.
    new_form, later = list(groups_in_the_new_form()), list(groups_of_later_years())
    for group in new_form + later:
        cases.stretch_of(group.run)
        cases.stretch_of(group.history)
    for place, stretch in enumerate(beyond_the_bytes(len(cases.lent))):
        for group, kind, question in without_history(place):
            cases.add(group, kind, question, stretch)
    cases.add_all(new_form, 20_070_101)
    cases.add_all(later, 21_300_101)
    return cases.input_and_output()


def main():
    options = command("Writes the cases of check_answers.", "crates/check_answers").parse_args()
    write(options.folder, *input_and_output())


if __name__ == "__main__":
    main()

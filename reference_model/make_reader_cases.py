"""Writes the cases of `check_readers`: the nine tables of data runs, and lifelines followed over them.

Run with `python3 -m reference_model.make_reader_cases [folder]` from the folder that holds `crates/`.

Standard input, all numbers little-endian: cases to the end. A case is the number of bytes of its
data run (4) and of its history (4), the data run, the history, the number of its lifelines (2), and
for each lifeline its age, its year and a number of steps (4 each). Expected, nine lines for the
tables of a case, in the order in which they stand: the number of bytes handed back, the sum of these
bytes, and the sum of those sums, byte by byte, modulo 2^32. Then a line for each lifeline, so many
steps from its start: its age, year and survivors.
"""

import struct
from itertools import accumulate

from reference_model.bases import named_bases, realistic
from reference_model.basis import decode, encode, table
from reference_model.damage import damaged_runs
from reference_model.finer_bases import finer_bases, fitted, fitted_table_of_2000
from reference_model.history import NO_HISTORY
from reference_model.later_bases import later_bases
from reference_model.layout import MPB1, form_of_run
from reference_model.older_bases import lent, older_bases
from reference_model.points import start_lifeline, step_lifeline
from reference_model.refusals import outcome
from reference_model.units import LAST_YEAR
from reference_model.vectors import command, write

LONGEST_RUN, LONGEST_HISTORY = 5_200, 90_112  # the program's room

# Lifelines that go to their end, and that stop by 9 or 10 on the way; B from 1992 to 2130.
CHOSEN = ("sample", "realistic", "9 in mid-course", "10 in mid-course", "exactly four",
          "just beyond low", "B 2130", "F 2080", "random gentle", "random wide")

FINER = ("fitted", "widest", "finer 9 in mid-course", "finer 10 in mid-course", "finer random gentle",
         "finer random wide", "finer random limits")


# ---- what is asked

def lifelines(base_year):
    """Ages, years and numbers of steps: none, one, to the end and past it, and refused starts."""
    last = LAST_YEAR
    yield from [(20, base_year, 0), (20, base_year, 1), (20, base_year, 130), (20, base_year, 131)]
    yield from [(65, base_year, 7), (65, last, 20), (65, last, 85), (79, base_year, 30)]
    yield from [(149, last, 1), (149, last, 2), (150, base_year, 0), (150, base_year, 3)]
    yield from [(19, base_year, 1), (151, base_year, 1), (65, base_year - 1, 2), (65, last + 1, 2)]
    yield from [(20, last, 90), (95, base_year, 12)]


def later_lifelines():
    """Most of their years are after 2130: up to the last rate but one, past the end, and near it."""
    last = LAST_YEAR
    return (20, last, 1), (20, last, 129), (20, last, 131), (60, last, 89), (100, last, 49), (147, last, 3)


def accepted_cases():
    by_name = named_bases()
    for name in CHOSEN:
        yield encode(by_name[name]), NO_HISTORY
    for older in older_bases().values():
        yield lent(older)


def in_the_new_form():
    by_name = finer_bases()
    for name in FINER:
        yield encode(by_name[name]), NO_HISTORY
    yield lent(fitted_table_of_2000())


def damaged_cases(run):
    """Data runs of every damage, whole and too short or too long."""
    for place, damage in enumerate(damaged_runs(run)):
        if place % 5 == 0 or len(damage.content) != len(run):
            yield damage.content, NO_HISTORY


def refused_cases():
    """Damaged data runs, and histories that are not theirs."""
    run = encode(realistic())
    yield from damaged_cases(run)
    older, history = lent(next(iter(older_bases().values())))
    yield from [(older, NO_HISTORY), (run, history), (older, history[:-1]),
                (older, history[:-1] + bytes([history[-1] ^ 1]))]


# ---- the lines

def table_line(run, name):
    sums = list(accumulate(table(run, name)))
    return "%d %d %d" % (len(sums), sums[-1] if sums else 0, sum(sums) % 2 ** 32)


def line_of(run, history, age, year, steps):
    """A refused start stands at 0, and a step that ends or is refused changes nothing."""
    lifeline, _ = start_lifeline(run, history, age, year)
    for _ in range(steps):
        outcome(step_lifeline, lifeline, history)
    return "%d %d %d" % (lifeline.age, lifeline.year, lifeline.survivors)


def cases():
    """Each data run with its history and its lifelines."""
    for run, history in (*accepted_cases(), *refused_cases(), *in_the_new_form(),
                         *damaged_cases(encode(fitted()))):
        base_year = decode(run).base_year if form_of_run(len(run)) else 0
        yield run, history, list(lifelines(base_year or 2006))
    for basis in later_bases().values():
        yield encode(basis), NO_HISTORY, later_lifelines()


def input_and_output():
    """The bytes of standard input and of the expected standard output."""
    asked, lines = b"", []
    for run, history, followed in cases():
        assert len(run) <= LONGEST_RUN and len(history) <= LONGEST_HISTORY
        asked += struct.pack("<II", len(run), len(history)) + run + history
        asked += len(followed).to_bytes(2, "little")
        lines += [table_line(run, each.name) for each in MPB1.tables]  # the names are either form's
        for age, year, steps in followed:
            asked += struct.pack("<III", age, year, steps)
            lines.append(line_of(run, history, age, year, steps))
    return asked, ("\n".join(lines) + "\n").encode("ascii")


if __name__ == "__main__":
    write(command(__doc__.split("\n")[0], "crates/check_readers").parse_args().folder,
          *input_and_output())

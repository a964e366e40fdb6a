"""Writes the cases of `check_sweep`: bases with their histories, and every state of the year sweep.

Run with `python3 -m reference_model.make_sweep_cases [folder]` from the folder that holds `crates/`.

Standard input, all numbers little-endian: cases to the end. A case is the number of bytes of its data
run (4) and of its history (4), the data run and the history. Expected, a line a state, from B to 2260
and after one step more: the year, and the sum of age x number over the ages, a number being the factor
of that age and year (of the age's last year, if that is earlier), or for its first refusal up to then
4 x U + 10,000 x the refusal's number + its year. A refused basis has the line of its refusal alone.
"""

import struct

from reference_model.bases import named_bases, realistic
from reference_model.basis import encode
from reference_model.damage import with_number
from reference_model.engine import accepted
from reference_model.finer_bases import finer_bases, fitted_table_of_2000
from reference_model.history import NO_HISTORY
from reference_model.later_bases import later_bases
from reference_model.older_bases import lent, older_bases
from reference_model.refusals import Refusal, outcome
from reference_model.units import FACTOR_LIMIT, FIRST_AGE, LAST_AGE, last_year_at
from reference_model.vectors import command, write

LAST_SWEPT = 2260

# Some ages stop by 9 or 10 and others go on, all stop, none stops; B from 1992 to 2130.
CHOSEN = ("sample", "realistic", "9 in mid-course", "9 and 10 in one year", "10 in mid-course",
          "exactly four", "just beyond low", "all limits low", "B 2130", "F 2080", "random gentle",
          "random mixed", "random wide")

FINER = ("fitted", "widest", "finer 9 in mid-course", "finer 10 in mid-course", "finer random mixed",
         "finer random wide", "finer random limits")


def number(projection, age, year):
    """The factor, or what stands for the refusal; its year is that of the refusal.

    The factor stands from the year on whose next birth year would be after 2110.
    """
    try:
        return projection.factor(age, min(year, last_year_at(age)))
    except Refusal as refusal:
        return FACTOR_LIMIT + 10_000 * refusal.number + refusal.second


def states(run, history):
    """The lines of a case: age 150 moves in 2260, the last of all, and a step after it moves nothing."""
    projection = accepted(run, history)
    for year in range(projection.basis.base_year, LAST_SWEPT + 2):
        weighed = sum(age * number(projection, age, year) for age in range(FIRST_AGE, LAST_AGE + 1))
        yield "%d %d" % (year, weighed)


def lines(run, history):
    said = outcome(lambda: list(states(run, history)))
    return [str(said)] if isinstance(said, Refusal) else said


def cases():
    """Bases by choice, all that have a history, and some that are refused; then in the new form; then
    those that turn on the years after 2130.
    """
    by_name = named_bases()
    chosen = [(encode(by_name[name]), NO_HISTORY) for name in CHOSEN]
    older = [lent(each) for each in older_bases().values()]
    run, history = older[0]
    return (chosen + older
            + [(with_number(encode(realistic()), 20, 1, 1), NO_HISTORY), (run, NO_HISTORY),
               (run, history[:-1] + bytes([history[-1] ^ 1])), (encode(realistic()), history)]
            + cases_in_the_new_form(history)
            + [(encode(basis), NO_HISTORY) for basis in later_bases().values()])


def cases_in_the_new_form(other_history):
    by_name = finer_bases()
    run, history = lent(fitted_table_of_2000())
    return ([(encode(by_name[name]), NO_HISTORY) for name in FINER]
            + [(run, history), (run, NO_HISTORY), (run, history[:-1]),
               (run[:-1], history), (run[:4_554], history), (with_number(run, 5_059, 1, 1), history),
               (with_number(run, 1_733, 2, 15_001), history),
               (encode(by_name["fitted"]), other_history)])


def input_and_output():
    """The bytes of standard input and of the expected standard output."""
    asked = b"".join(struct.pack("<II", len(run), len(history)) + run + history
                     for run, history in cases())
    expected = [line for run, history in cases() for line in lines(run, history)]
    return asked, ("\n".join(expected) + "\n").encode("ascii")


if __name__ == "__main__":
    write(command(__doc__.split("\n")[0], "crates/check_sweep").parse_args().folder,
          *input_and_output())

"""The points program's output, worked out by the reference model: a basis, its history and lines in, a table out.

Run with `python3 -m reference_model.points_program` in a folder with `basis.bin` and, where the basis needs
one, `history.bin`, the lines on standard input. A missing file counts as length 0.
"""

import re
import sys

from reference_model.basis import read_file
from reference_model.engine import accepted
from reference_model.points import point
from reference_model.refusals import Refusal
from reference_model.units import UNIT

HEADER = "age deferment year period_ex cohort_ex period_annuity cohort_annuity"
_NUMBER = rb"(0|[1-9][0-9]{0,3})"
_LINE = re.compile(_NUMBER + b" " + _NUMBER + b" " + _NUMBER)


def _decimal(units):
    return "%d.%09d" % divmod(units, UNIT)


def lines_of(text):
    """Each line ends in byte 10; the last may lack it, and nothing at all is no line."""
    lines = text.split(b"\n")
    return lines[:-1] if lines[-1] == b"" else lines


def answered_line(run, history, number, line):
    """One line of the answer; lines are numbered from 1, the refused ones counted."""
    match = _LINE.fullmatch(line)
    try:
        if match is None:
            raise Refusal(12, number)
        question = [int(digits) for digits in match.groups()]
        results = point(run, history, *question)
    except Refusal as refusal:
        return str(refusal)
    return " ".join([str(each) for each in question] + [_decimal(each) for each in results])


def points_output(file, history, text):
    """All of standard output, every line ended; a refused history counts as a refused basis."""
    try:
        run = read_file(file)
        accepted(run, history)
    except Refusal as refusal:
        return "%s\n" % refusal
    answered = [answered_line(run, history, number, line)
                for number, line in enumerate(lines_of(text), start=1)]
    return "\n".join([HEADER] + answered) + "\n"


def content_of(name):
    try:
        with open(name, "rb") as lent:
            return lent.read()
    except FileNotFoundError:
        return b""


def main():
    sys.stdout.write(points_output(content_of("basis.bin"), content_of("history.bin"),
                                   sys.stdin.buffer.read()))


if __name__ == "__main__":
    main()

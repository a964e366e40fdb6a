"""The command line: its commands, their options, and what the help says of them."""

import argparse
import re
from typing import Any, Callable, Mapping

from . import __version__
from .layout import FORMS

REFUSED_ROWS = 3

STATUSES = """exit status:
  0      done; a refused row is not an error
  1      an error, which is said on standard error; no output has taken its place, unless the error says
         so or is that the summary itself cannot be written
  2      a wrong command line
  3      done, with --fail-on-refusal and at least one refused row
  128+n  stopped by signal n, such as 130 by Ctrl-C and 143 by SIGTERM; no output has taken its place.
         141: the reader of standard output has gone; the outputs are there if only the summary goes
         to it"""

_DESCRIPTION = """Values pension members, keeps a roll of pensions in payment and makes bases, by the proved engine.

  parvusek basis make TABLES basis.bin
  parvusek value members.csv basis.bin values.csv
  parvusek roll calls.csv basis.bin rows.csv --year 2010
"""

_HISTORY = """The history of m.bin is m.history.bin beside it, if it is there and no other is named; history.bin is
taken beside a file called basis.bin only."""

_VALUE = f"""Values each member of a CSV against a basis file.

MEMBERS.csv has a header row with the columns age, deferment and year, in any order and case and beside
any others. OUT.csv has the same rows as they stand and in the same order, with eight more columns:

  period_expectation, cohort_expectation, period_annuity, cohort_annuity
      the four results with nine decimals, or nothing where the row is refused
  refusal, first, second, message
      the refusal's number, its two places and what it says, or nothing where the row is answered

A row that is not of the form is refused as 12 with its line; the other refusals are the engine's.
Cells beyond the header stand behind the added columns of their row, which is refused. Blank lines are
passed over and counted. The summary counts refusals by number. A last line without a line end is taken as
it stands; the file may have been cut short, so a warning says so, and the record.

The separator is a comma, a semicolon or a tab, or what a first line such as sep=; says. The text is
UTF-8, or what its byte order mark or --encoding says. OUT.csv has the mark, the encoding, the separator
and the line ends of MEMBERS.csv.

OUT.csv is there only once it is whole, and keeps the mode and the owner of the file that it replaces. A
pipe, a device or standard output is written to directly. No output may be one of the inputs.

Beside OUT.csv stands its record, OUT.csv.json: the version, the time, the SHA-256 of the basis, the
history, the members and the values, the encoding, and the counts. There is none where OUT.csv is not a
regular file and --record names none. A file of that name that is not such a record is never replaced.

{_HISTORY} A basis whose base year is before its foundation year is
valued with its history. One that does not belong to the basis is an error."""

_ROLL = f"""Makes the calls of a CSV on a roll of pensions in payment, and keeps the running total.

CALLS.csv has a header row with the columns call, number, age and pension, in any order and case and beside
any others. A call is join or leave; number is the member number; pension is a yearly one, in whole pence,
of at most 10,000,000. Of a leave age and pension are not looked at, and its row may end before them. The
calls are made in the order of the rows, on a roll of at most 500 members. A liability is pension x cohort
annuity in the roll's year, in whole pence; it is set at the join and stays.

OUT.csv has the same rows as they stand and in the same order, with seven more columns:

  liability   of the member who joins by this row, in pence; nothing otherwise
  members     how many are on the roll after this row
  total       the total after this row, in pence; after a refused row it is what it was
  refusal, first, second, message
      the refusal's number, its two places and what it says, or nothing where the call is made

A refused row changes nothing on the roll. A row that is not of the form is refused as 12 with its line: the
numbers are whole, 0 to 4,294,967,295 without a needless leading zero. The other refusals are the engine's.

A column basis, if there is one, names the basis of a join by a NAME of --basis NAME=FILE; where it is empty,
it is BASIS.bin. A NAME that no --basis gives makes the row 12, and the summary tells the first. With a --basis
the column must be there. Every basis is read and checked before the first call, each with the history beside
it; --history and --no-history are of BASIS.bin alone. So are --expect and --expect-history, unless a NAME of
--basis stands before the SHA-256: --expect NAME=SHA256.

--keep FILE keeps the roll as it stands after the last row, for a later run to continue with --roll FILE. It
is there only once OUT.csv is whole. No file that is there is written over, so that no run is lost and each
can be made again: name another, and move it once the run has ended well. The record of a run has the
SHA-256 of the roll that it kept.

Separators, encodings, blank lines, a last line without its end, outputs, the record OUT.csv.json and histories
are as in 'parvusek value'.
"""

_MAKE = """Makes a basis file, and its history file, from a folder of CSV tables; the engine checks both.

  settings.csv           setting,value with the rows foundation_year, base_year, constant_addition,
                         discount_rate, and a row form, which may be left out: MPB1 or MPB2
  base_rates.csv         age,base_rate for the ages 20 to 150
  age_component.csv      age,initial_rate,long_term_rate,convergence_period,proportion_remaining
  cohort_component.csv   birth_year and the same columns, for the birth years 1842 to 2110
  actual_improvements.csv
                         only where the base year is before the foundation year: age,year,improvement
                         for the ages 20 to 150 in each year from the one after the base year to the
                         foundation year, ages ascending within years ascending

Rates are decimal numbers with at most nine decimals (0.0125 or 1.25E-2 is 1.25 per cent), convergence
periods whole years of 1 to 50, proportions remaining at mid-point per cent of 0 to 150 with at most two
decimals (62.37). The discount rate is -0.01 to 0.2, an actual improvement -0.5 to 0.5. All that is wrong
is told in one go. A table whose last line has no line end may have been cut short, so a warning says so.

The basis has the form MPB1, which every version reads, if each proportion is a whole per cent, and MPB2
otherwise; the summary says which. --form, or else the setting form, names one: with MPB1 a proportion
that is no whole per cent is an error, with MPB2 whole ones stand in the new form, too.

The actual improvements go into the history file: m.history.bin with m.bin, history.bin with basis.bin,
or what --history names. A history that may be another basis's is not written over. A basis whose base
year is not before its foundation year has none, and no history file is written."""

_SHOW = f"""Writes the tables of a basis file and its history into a folder, in the form that 'basis make' reads.

Making the basis again from the folder gives the same files, byte for byte. Proportions are in per cent: whole
ones of an MPB1 basis, with two decimals those of an MPB2 basis, whose settings.csv names its form.
{_HISTORY}"""

_CHECK = f"""Says whether the engine accepts a basis file, with its history, and what their SHA-256 are.

{_HISTORY}"""


_CONVERT = f"""Writes a basis file in the old form, MPB1, for programs that read no other.

OUT.bin answers as BASIS.bin does: it holds the same fields, each proportion in whole per cent. Nothing is
rounded: if one is no whole per cent nothing is written, and the error names its age or birth year, its
value and how many there are. A basis that is MPB1 already is written as it is.

The history goes with the basis unchanged, under the name that belongs to OUT.bin; --no-history converts the
basis file alone. Nothing that is there is written over without --force, and never BASIS.bin itself.

{_HISTORY}"""


def parser(commands: Mapping[str, Callable[[argparse.Namespace], int]]) -> argparse.ArgumentParser:
    """The parser; each command sets the function of its name."""
    top = argparse.ArgumentParser(prog="parvusek", description=_DESCRIPTION, epilog=STATUSES,
                                  formatter_class=argparse.RawDescriptionHelpFormatter)
    top.add_argument("--version", action="version", version=f"parvusek {__version__}")
    choices = top.add_subparsers(required=True, metavar="COMMAND")
    _value(choices).set_defaults(command=commands["value"])
    _roll(choices).set_defaults(command=commands["roll"])
    parts = _add(choices, "basis", "Makes, shows, checks and converts basis files.").add_subparsers(required=True, metavar="COMMAND")
    _make(parts).set_defaults(command=commands["make"])
    _show(parts).set_defaults(command=commands["show"])
    check = _add(parts, "check", _CHECK, ("BASIS.bin", "the basis file"))
    _add_history(check)
    check.set_defaults(command=commands["check"])
    _convert(parts).set_defaults(command=commands["convert"])
    return top


def _add(commands: Any, name: str, text: str, *paths: tuple[str, str]) -> argparse.ArgumentParser:
    added: argparse.ArgumentParser = commands.add_parser(
        name, help=text.splitlines()[0], description=text, epilog=STATUSES,
        formatter_class=argparse.RawDescriptionHelpFormatter)
    for path, help_text in paths:
        added.add_argument(path.partition(".")[0].lower(), metavar=path, help=help_text)
    return added


def _add_history(added: argparse.ArgumentParser) -> None:
    """For a command that is lent the history of a basis."""
    history = added.add_mutually_exclusive_group()
    history.add_argument("--history", metavar="FILE", help="the history file, instead of the one beside BASIS.bin")
    history.add_argument("--no-history", action="store_true", help="lend no history, also where one is there")


def _add_encoding(added: argparse.ArgumentParser, what: str) -> None:
    added.add_argument("--encoding", metavar="NAME",
                       help=f"the encoding of {what}, such as cp1252; otherwise UTF-8, or what a byte order mark says")


def _value(commands: Any) -> argparse.ArgumentParser:
    added = _add(commands, "value", _VALUE, ("MEMBERS.csv", "the members; - reads standard input"),
                 ("BASIS.bin", "the basis file"), ("OUT.csv", "the values; - writes standard output"))
    _add_run(added, "MEMBERS.csv and OUT.csv")
    for option, help_text in _EXPECTED.items():
        added.add_argument(option, metavar="SHA256", type=_sha256, help=help_text)
    return added


def _roll(commands: Any) -> argparse.ArgumentParser:
    added = _add(commands, "roll", _ROLL, ("CALLS.csv", "the calls; - reads standard input"),
                 ("BASIS.bin", "the basis file"), ("OUT.csv", "the rows with the total; - writes standard output"))
    added.add_argument("--year", type=_year, help="the valuation year of a roll that is opened empty")
    added.add_argument("--roll", metavar="FILE", help="continue the roll that an earlier run has kept, in its year")
    added.add_argument("--keep", metavar="FILE", help="keep the roll as it stands after the last row, in a new file")
    added.add_argument("--basis", metavar="NAME=FILE", dest="bases", type=_named, action="append", default=[],
                       help="a basis file that the column basis names; may be given again")
    _add_run(added, "CALLS.csv and OUT.csv")
    for option, help_text in _EXPECTED.items():
        added.add_argument(option, metavar="[NAME=]SHA256", type=_named_sha256, action="append", default=[],
                           help=f"{help_text}; may be given again, with the NAME of a --basis")
    added.set_defaults(wrong=added.error)
    return added


def _add_run(added: argparse.ArgumentParser, what: str) -> None:
    """For a command that carries the rows of a CSV over into another."""
    _add_history(added)
    _add_encoding(added, what)
    added.add_argument("--fail-on-refusal", action="store_true",
                       help=f"end with status {REFUSED_ROWS} if a row is refused; OUT.csv is written all the same")
    record = added.add_mutually_exclusive_group()
    record.add_argument("--record", metavar="FILE", help="where the record goes, instead of OUT.csv.json")
    record.add_argument("--no-record", action="store_true", help="write no record")


def _make(commands: Any) -> argparse.ArgumentParser:
    added = _add(commands, "make", _MAKE, ("FOLDER", "the folder of the tables"), ("OUT.bin", "the basis file to write"))
    added.add_argument("--history", metavar="FILE", help="the history file to write, if the basis has one")
    added.add_argument("--force", action="store_true",
                       help="write over a file that --history names, unless it is named as another basis's history")
    added.add_argument("--round", action="store_true",
                       help="round rates to nine decimals and proportions to two, ties up, and say how many")
    added.add_argument("--form", type=str.upper, choices=[form.mark for form in FORMS],
                       help="the form of the basis, instead of what the proportions need")
    _add_encoding(added, "the tables")
    return added


def _show(commands: Any) -> argparse.ArgumentParser:
    added = _add(commands, "show", _SHOW, ("BASIS.bin", "the basis file"), ("FOLDER", "the folder to write, made if need be"))
    _add_history(added)
    added.add_argument("--force", action="store_true", help="write over tables that are there")
    return added


def _convert(commands: Any) -> argparse.ArgumentParser:
    added = _add(commands, "convert", _CONVERT, ("BASIS.bin", "the basis file"), ("OUT.bin", "the basis file to write"))
    _add_history(added)
    added.add_argument("--force", action="store_true", help="write over an OUT.bin, and its history, that is there")
    return added


_EXPECTED = {"--expect": "value only with the basis file that has this SHA-256",
             "--expect-history": "and with the history that has this one"}


def _sha256(text: str) -> str:
    if not re.fullmatch(r"[0-9a-fA-F]{64}", text):
        raise argparse.ArgumentTypeError(f"{text!r} is not a SHA-256 digest, which has 64 hexadecimal digits")
    return text.lower()


def _named_sha256(text: str) -> tuple[str, str]:
    """Without a name it is that of BASIS.bin, whose name is empty."""
    name, equals, digest = text.rpartition("=")
    if equals and not name.strip():
        raise argparse.ArgumentTypeError(f"{text!r} has no name before the equals sign")
    return name.strip(), _sha256(digest)


def _year(text: str) -> int:
    """Any year that a roll can be opened in: what it is good for shows at each join."""
    if not re.fullmatch(r"0|[1-9][0-9]{0,9}", text) or int(text) >= 2**32:
        raise argparse.ArgumentTypeError(f"{text!r} is not a year")
    return int(text)


def _named(text: str) -> tuple[str, str]:
    name, _, path = text.partition("=")
    if not name.strip() or not path:
        raise argparse.ArgumentTypeError(f"{text!r} is not a name and a basis file, such as 2012=basis-2012.bin")
    return name.strip(), path

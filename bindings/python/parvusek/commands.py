"""What each command does, and its exit status: value, and basis make, show, check and convert; roll has a file of its own."""

import argparse
import contextlib
import os
from pathlib import Path
from typing import NamedTuple, Optional, Sequence

from . import provenance
from .basis import Basis
from .basis_files import (ReadBasis, history_beside, histories_of, not_anothers, not_there, places_to_make, read_alone,
                          read_basis, sha256, write_basis, write_new_basis)
from .carried import Counts
from .csv_source import Source
from .decimals import decimal
from .errors import Collected, CommandError
from .explained import actual_years, explained
from .layout import ACTUAL_FILE, FILES, OLD_FORM, form_of_run
from .members import value_members
from .options import REFUSED_ROWS
from .outputs import Place, apart, drafted, not_an_input, place_of, put_all
from .progress import Progress
from .refusals import Refusal
from .roll_command import roll
from .runs import (Hashed, expected, lines_said, number_of, opened, refusals_said, say, source_of, warn, warn_of_last_line,
                   warn_of_rows)
from .shown_tables import show
from .tables import Tables


# ---- value

def value(options: argparse.Namespace) -> int:
    started = provenance.now()
    with contextlib.ExitStack() as stack:
        prepared = _prepared(options, stack)
        source, values, record = prepared.source, prepared.values, prepared.record
        drafts = stack.enter_context(drafted(record, values))
        written = Hashed(drafts[-1])
        try:
            counts = value_members(prepared.read.basis, source, written.write, prepared.progress)
        finally:
            prepared.progress.end()
        if record is not None:
            drafts[0].write(provenance.record(started, prepared.read, (options.members, source.sha256),
                                              source.encoding, (options.out, written.sha256), counts))
            provenance.not_the_users(record)  # it may have come while the members were valued
        put_all(drafts)
    _tell(options, values, record, counts)
    return REFUSED_ROWS if options.fail_on_refusal and counts.refused else 0


class _Prepared(NamedTuple):
    """What a valuation stands on: the basis, the members, and where values and record go."""

    read: ReadBasis
    source: Source
    progress: Progress
    values: Place
    record: Optional[Place]


def _prepared(options: argparse.Namespace, stack: contextlib.ExitStack) -> _Prepared:
    """All that is wrong is told at once, before anything is opened for writing."""
    wrong = Collected()
    members = read = values = record = None
    with wrong.check():
        members = stack.enter_context(opened(options.members, "members"))
    with wrong.check():
        read = read_basis(options.basis, options.history, options.no_history)
        expected(read, options.expect, options.expect_history)
    with wrong.check():
        values = place_of(options.out)
        not_an_input(values, _inputs(options))
        record = provenance.record_place(values, options.record, options.no_record)
        if record is not None:
            not_an_input(record, _inputs(options))
            apart(record, values)
    wrong.end()
    assert members is not None and read is not None and values is not None
    raw, size = members
    source = source_of(raw, options.members, "members", options.encoding)
    return _Prepared(read, source, Progress(raw if size else None, size), values, record)


def _inputs(options: argparse.Namespace) -> list[tuple[str, Optional[str]]]:
    histories = [options.history] if options.history is not None else histories_of(options.basis)
    return [("file of members", options.members), ("basis file", options.basis)] + [("history", path) for path in histories]


def _tell(options: argparse.Namespace, values: Place, record: Optional[Place], counts: Counts) -> None:
    """What was done: on standard output, or on standard error where the values may have gone to standard output."""
    tell = say if values.is_file else warn
    without = "" if record is not None or options.no_record else "; no record is written for it"
    tell(f"{values.spoken}: {number_of(counts.rows, 'row')}, {counts.valued:,} valued, {refusals_said(counts)}"
         f"{lines_said(counts)}{without}")
    if record is not None:
        tell(f"{record.name}: the record of this valuation")
    warn_of_rows(counts, options.members)


# ---- basis make, show, check and convert

def make(options: argparse.Namespace) -> int:
    tables = Tables(Path(options.folder), options.encoding, options.round, options.form)
    basis = tables.basis()
    place, history = places_to_make(options.out, options.history, basis)
    _apart_from(place, history, [(f"table {file}", os.path.join(options.folder, file)) for file in FILES + (ACTUAL_FILE,)])
    not_anothers(place, history, options.force)
    write_basis(basis, place, history)
    tell = say if place.is_file else warn
    tell(f"{place.spoken}: {_summary(basis)}")
    if history is not None:
        tell(f"{history.name}: {_years(basis)}")
    if tables.rounded[9]:
        tell(f"{place.spoken}: rounded to nine decimals: {number_of(tables.rounded[9], 'rate')}")
    if tables.rounded[2]:
        tell(f"{place.spoken}: rounded to two decimals: {number_of(tables.rounded[2], 'proportion')}")
    _tell_sums(basis, place, history)
    _warn_of_proportions(basis)
    for file in tables.without_line_end:
        warn_of_last_line(os.path.join(options.folder, file))
    return 0


def convert(options: argparse.Namespace) -> int:
    read = read_alone(options.basis) if options.no_history else read_basis(options.basis, options.history)
    basis = _in_old_form(read)
    place, history = places_to_make(options.out, None, basis, "--no-history converts the basis file alone")
    _apart_from(place, history, [("basis file", read.path), ("history", read.history_path)])
    not_anothers(place, history, options.force)
    if options.force:
        write_basis(basis, place, history)
    else:
        not_there(place, history)
        write_new_basis(basis, place, history)
    tell = say if place.is_file else warn
    tell(f"{place.spoken}: made from {read.path}, which is {read.basis.form}; {_summary(basis)}")
    tell(f"{read.path}: SHA-256 {read.sha256}")
    _tell_sums(basis, place, history)
    return 0


def _in_old_form(read: ReadBasis) -> Basis:
    """The same basis as programs read it that know no other form."""
    try:
        return Basis.from_file(read.basis.to_old_form(), read.basis.history or None)
    except Refusal as refusal:
        why = explained(refusal, read.basis.run)
        raise CommandError(f"{read.path} cannot be written as {OLD_FORM.mark}: {why}") from refusal


def _tell_sums(basis: Basis, place: Place, history: Optional[Place]) -> None:
    """Of what was written; and whether a history stands beside it that is another's."""
    tell = say if place.is_file else warn
    tell(f"{place.spoken}: SHA-256 {sha256(basis.to_file())}")
    if history is not None:
        tell(f"{history.name}: SHA-256 {sha256(basis.history)}")
    elif place.is_file and not basis.history_needed:
        _foreign_history(place.name)


def _warn_of_proportions(basis: Basis) -> None:
    """Proportions that were written as parts of one are within their limits, and a hundredth of what was meant."""
    for column in form_of_run(basis.run).proportions:
        greatest = max(column.numbers(basis.run))
        if 0 < greatest <= column.high // 100:
            warn(f"{column.file}: the greatest {column.name} is {column.text(greatest)} per cent; is it meant as a part of "
                 "one?")


def _apart_from(place: Place, history: Optional[Place], inputs: Sequence[tuple[str, Optional[str]]]) -> None:
    """Neither output is an input, and they are two."""
    wrong = Collected()
    for each in (place, history):
        if each is not None:
            with wrong.check():
                not_an_input(each, inputs)
    if history is not None:
        with wrong.check():
            apart(history, place)
    wrong.end()


def _foreign_history(out: str) -> None:
    """A history beside a basis that has none would keep it from being valued."""
    try:
        found = history_beside(out)
    except CommandError as error:
        warn(str(error))
        return
    if found is not None:
        warn(f"{found} does not belong to this basis, which has no history; remove it, or value with --no-history")


def show_tables(options: argparse.Namespace) -> int:
    read = read_basis(options.basis, options.history, options.no_history)
    show(read.basis, Path(options.folder), options.force, (("basis file", read.path), ("history", read.history_path)))
    say(f"{options.folder}: the tables of {options.basis}, {_summary(read.basis)}")
    _say_sums(read)
    return 0


def check(options: argparse.Namespace) -> int:
    read = read_basis(options.basis, options.history, options.no_history)
    say(f"{options.basis}: {_summary(read.basis)}")
    _say_sums(read)
    return 0


def _say_sums(read: ReadBasis) -> None:
    say(f"{read.path}: SHA-256 {read.sha256}")
    if read.history_path is not None:
        say(f"{read.history_path}: SHA-256 {read.history_sha256}")


def _summary(basis: Basis) -> str:
    history = f", {_years(basis)}" if basis.history else ""
    return (f"accepted; {basis.form}, F {basis.foundation_year}, B {basis.base_year}, "
            f"addition {decimal(basis.constant_addition)}, discount {decimal(basis.discount_rate)}{history}")


def _years(basis: Basis) -> str:
    years = actual_years(basis)
    return f"history of {years[0]} to {years[-1]}"


COMMANDS = {"value": value, "roll": roll, "make": make, "show": show_tables, "check": check, "convert": convert}

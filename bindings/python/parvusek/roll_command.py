"""The command roll: calls from a CSV on a roll that is opened empty or was kept, and the roll kept for the next run."""

import argparse
import contextlib
import copy
from typing import NamedTuple, Optional

from . import provenance
from .basis_files import ReadBasis, histories_of, read_basis, sha256
from .calls import DEFAULT, CallCounts, make_calls
from .csv_source import Source
from .errors import Collected, CommandError, naming
from .options import REFUSED_ROWS
from .outputs import STANDARD, Draft, Place, apart, drafted, not_an_input, place_of, put_all
from .progress import Progress
from .roll import ROLL_FILE_LENGTH, Roll
from .runs import Hashed, expected, lines_said, number_of, opened, refusals_said, say, source_of, warn, warn_of_rows


def roll(options: argparse.Namespace) -> int:
    started = provenance.now()
    _whole_command_line(options)
    with contextlib.ExitStack() as stack:
        prepared = _prepared(options, stack)
        outputs = prepared.outputs
        # In this order they take their places: a kept roll that may not replace another keeps back the rest.
        drafts = stack.enter_context(drafted(outputs.keep, outputs.record, outputs.out))
        written = Hashed(drafts[-1])
        after = copy.copy(prepared.before.roll)
        bases = {name: read.basis for name, read in prepared.bases.items()}
        try:
            counts = make_calls(after, bases, prepared.source, written.write, prepared.progress)
        finally:
            prepared.progress.end()
        kept = after.to_file()
        files = provenance.RollFiles((options.calls, prepared.source.sha256), prepared.before.file,
                                     (options.out, written.sha256),
                                     None if outputs.keep is None else (options.keep, sha256(kept)))
        record = provenance.roll_record(started, prepared.bases, files, prepared.source.encoding, prepared.before.roll,
                                        after, counts)
        _write_beside(outputs, drafts, kept, record)
        put_all(drafts)
    _tell(options, prepared, after, counts)
    return REFUSED_ROWS if options.fail_on_refusal and counts.refused else 0


def _whole_command_line(options: argparse.Namespace) -> None:
    """What argparse does not see; it ends as every wrong command line does."""
    if options.year is None and options.roll is None:
        options.wrong("one of --year and --roll is needed")
    named = [name for name, _ in options.bases]
    for option, pairs in (("--basis", options.bases), ("--expect", options.expect),
                          ("--expect-history", options.expect_history)):
        names = [name for name, _ in pairs]
        for name in names:
            if names.count(name) > 1:
                options.wrong(f"argument {option}: {name or 'BASIS.bin'} is named more than once")
            if name not in (DEFAULT, *named):
                options.wrong(f"argument {option}: no --basis names {name}")


# ---- before the first call

class _Before(NamedTuple):
    """The roll before the first call and, where it was kept, its file by path and SHA-256."""

    roll: Roll
    file: Optional[tuple[str, str]]


class _Outputs(NamedTuple):
    out: Place
    record: Optional[Place]
    keep: Optional[Place]


class _Prepared(NamedTuple):
    """What a run stands on: the bases by their names, the roll, the calls, and where the outputs go."""

    bases: dict[str, ReadBasis]
    before: _Before
    source: Source
    progress: Progress
    outputs: _Outputs


def _prepared(options: argparse.Namespace, stack: contextlib.ExitStack) -> _Prepared:
    """All that is wrong is told at once, before anything is opened for writing."""
    wrong = Collected()
    calls = before = outputs = None
    bases: dict[str, ReadBasis] = {}
    with wrong.check():
        calls = stack.enter_context(opened(options.calls, "calls"))
    with wrong.check():
        bases[DEFAULT] = read_basis(options.basis, options.history, options.no_history)
    for name, path in options.bases:
        with wrong.check():
            bases[name] = read_basis(path)
    for name, read in bases.items():
        with wrong.check():
            expected(read, dict(options.expect).get(name), dict(options.expect_history).get(name))
    with wrong.check():
        before = _before(options)
    with wrong.check():
        outputs = _outputs(options)
    wrong.end()
    assert calls is not None and before is not None and outputs is not None
    raw, size = calls
    source = source_of(raw, options.calls, "calls", options.encoding)
    return _Prepared(bases, before, source, Progress(raw if size else None, size), outputs)


def _before(options: argparse.Namespace) -> _Before:
    if options.roll is None:
        return _Before(Roll(options.year), None)
    with naming(f"the kept roll {options.roll}"), open(options.roll, "rb") as file:
        content = file.read(ROLL_FILE_LENGTH + 1)
    try:
        found = Roll.from_file(content)
    except ValueError as error:
        raise CommandError(f"{options.roll} cannot be continued: {error}") from error
    if options.year is not None and options.year != found.year:
        raise CommandError(f"{options.roll} is a roll of the year {found.year}, and --year says {options.year}")
    return _Before(found, (options.roll, sha256(content)))


def _outputs(options: argparse.Namespace) -> _Outputs:
    out = place_of(options.out)
    not_an_input(out, _inputs(options))
    record = provenance.record_place(out, options.record, options.no_record)
    keep = _keep_place(options)
    outputs = _Outputs(out, record, keep)
    if record is not None:
        not_an_input(record, _inputs(options))
    for place, others in ((record, (out,)), (keep, (out, record))):
        if place is not None:
            for other in others:
                if other is not None:
                    apart(place, other)
    return outputs


def _keep_place(options: argparse.Namespace) -> Optional[Place]:
    """Where the roll is kept. A roll that is there is not written over: a run that was not seen to would be lost."""
    if options.keep is None:
        return None
    place = None if options.keep == STANDARD else place_of(options.keep)
    if place is None or not place.is_file:
        raise CommandError(f"{options.keep} is not a regular file; the roll is kept in a file of its own, which --keep names")
    not_an_input(place, _inputs(options))
    if place.found is not None:
        raise CommandError(f"{place.name} is there already, and no kept roll is written over; name another with --keep, or "
                           "move it once you know which run it is from: the record of the run that kept a roll, OUT.csv.json, "
                           "has its SHA-256")
    return place


def _inputs(options: argparse.Namespace) -> list[tuple[str, Optional[str]]]:
    histories = [options.history] if options.history is not None else histories_of(options.basis)
    inputs: list[tuple[str, Optional[str]]] = [("file of calls", options.calls), ("basis file", options.basis),
                                               ("roll that is continued", options.roll)]
    for _, path in options.bases:
        inputs.append(("basis file", path))
        histories += histories_of(path)
    return inputs + [("history", path) for path in histories]


# ---- after the last

def _write_beside(outputs: _Outputs, drafts: list[Draft], kept: bytes, record: bytes) -> None:
    """The kept roll and the record, into the drafts that come before that of the output."""
    contents = [content for place, content in ((outputs.keep, kept), (outputs.record, record)) if place is not None]
    for draft, content in zip(drafts, contents):
        draft.write(content)
        draft.must_be_new = draft.place is outputs.keep
    if outputs.record is not None:
        provenance.not_the_users(outputs.record)  # it may have come while the calls were made


def _tell(options: argparse.Namespace, prepared: _Prepared, after: Roll, counts: CallCounts) -> None:
    """What was done: on standard output, or on standard error where the rows may have gone to standard output."""
    out, record, keep = prepared.outputs
    tell = say if out.is_file else warn
    before = prepared.before
    if before.file is not None:
        tell(f"{options.roll}: continued, {_standing(before.roll)}")
    without = "" if record is not None or options.no_record else "; no record is written for it"
    tell(f"{out.spoken}: {number_of(counts.rows, 'row')}, {sum(counts.joined.values()):,} joined, {counts.left:,} left, "
         f"{refusals_said(counts)}{lines_said(counts)}; {_standing(after)}{without}")
    if keep is not None:
        tell(f"{keep.name}: the roll as it stands now")
    if record is not None:
        tell(f"{record.name}: the record of this run")
    if counts.unknown_bases:
        warn(f"refused for a basis that no --basis names: {number_of(counts.unknown_bases, 'row')}, the first in "
             f"{counts.first_unknown_basis}")
    warn_of_rows(counts, options.calls)


def _standing(standing: Roll) -> str:
    return f"{number_of(len(standing), 'member')} on the roll of {standing.year}, total {standing.total:,} pence"

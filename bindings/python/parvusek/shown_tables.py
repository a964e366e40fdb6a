"""The tables of a basis and its history, written into a folder in the form of which a basis is made."""

import csv
import io
import os
from pathlib import Path
from typing import Iterable, Iterator, Optional, Sequence

from .basis import Basis
from .errors import Collected, naming
from .explained import actual_years
from .history import improvements_of
from .layout import (ACTUAL_FILE, FILES, FIRST_AGE, IMPROVEMENT, NEW_FORM, SETTINGS, SETTINGS_FILE, TABLE_FILES,
                     form_of_run)
from .outputs import drafted, not_an_input, place_of, put_all
from .tables import ACTUAL_HEADER, FORM_SETTING, TableError


def show(basis: Basis, folder: Path, overwrite: bool = False, inputs: Sequence[tuple[str, Optional[str]]] = ()) -> None:
    """Writes the tables of a basis and its history into a folder, which is made if it is not there.

    All are on the disk before the first takes its place. None may be an input, of which a basis was read.
    """
    there = [file for file in FILES + (ACTUAL_FILE,) if (folder / file).exists()]
    if there and not overwrite:
        raise TableError(f"{folder} has {' and '.join(there)} already; --force writes over")
    with naming(str(folder)):
        folder.mkdir(parents=True, exist_ok=True)
    tables = dict(_tables(basis))
    wrong = Collected()
    places = [place_of(str(folder / file)) for file in tables]
    for place in places + ([place_of(str(folder / ACTUAL_FILE))] if ACTUAL_FILE in there else []):
        with wrong.check():
            not_an_input(place, inputs)
    wrong.end()
    with drafted(*places) as drafts:
        for draft, content in zip(drafts, tables.values()):
            draft.write(content.encode())
        put_all(drafts)
    if not basis.history and ACTUAL_FILE in there:
        # One that is left from another basis would be taken for this one's.
        with naming(str(folder / ACTUAL_FILE)):
            os.unlink(folder / ACTUAL_FILE)


def _tables(basis: Basis) -> Iterator[tuple[str, str]]:
    """Each table's file and its text."""
    form = form_of_run(basis.run)
    settings = [(column.name, column.text(column.numbers(basis.run)[0])) for column in SETTINGS]
    if form is NEW_FORM:
        # Its proportions may all be whole per cents, of which the old form would be made.
        settings.append((FORM_SETTING, form.mark))
    yield SETTINGS_FILE, _text(("setting", "value"), settings)
    for file in TABLE_FILES:
        columns = form.columns_of(file)
        texts = [[column.text(number) for number in column.numbers(basis.run)] for column in columns]
        keys = range(columns[0].first_key, columns[0].first_key + columns[0].entries)
        yield file, _text((columns[0].key,) + tuple(column.name for column in columns), zip(map(str, keys), *texts))
    if basis.history:
        yield ACTUAL_FILE, _text(ACTUAL_HEADER, _actual_rows(basis))


def _actual_rows(basis: Basis) -> Iterable[tuple[str, str, str]]:
    for year, improvements in zip(actual_years(basis), improvements_of(basis.history)):
        for age, improvement in enumerate(improvements, FIRST_AGE):
            yield str(age), str(year), IMPROVEMENT.text(improvement)


def _text(header: Sequence[str], rows: Iterable[Sequence[str]]) -> str:
    text = io.StringIO()
    writer = csv.writer(text, lineterminator="\n")
    writer.writerow(header)
    writer.writerows(rows)
    return text.getvalue()

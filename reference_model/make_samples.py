"""Writes the samples that ship with the project: a realistic basis and a list of model points; in
the folder `older` the same with a base table of 2000 and its history; and in the folder `finer` the
first with proportions that are fitted to a hundredth of a per cent, in the new form.

Run with `python3 -m reference_model.make_samples [folder]` from the folder that holds `samples/`. The bases
are `bases.realistic`, `older_bases.table_of_2000` and `finer_bases.fitted`, whose numbers are worked
out from the formulas given there: synthetic numbers of a realistic size, no published table and no
scheme's experience.
"""

import sys
from pathlib import Path

from reference_model.bases import realistic
from reference_model.basis import encode, encode_file
from reference_model.finer_bases import fitted
from reference_model.history import encode_history
from reference_model.older_bases import table_of_2000

# Members in payment, active members and deferred ones, and two questions that are refused.
POINTS = (
    (65, 0, 2010), (70, 0, 2010), (80, 0, 2010), (95, 0, 2010), (60, 5, 2010), (45, 20, 2010),
    (30, 35, 2010), (20, 45, 2010), (65, 0, 2030), (45, 20, 2030), (150, 0, 2010), (148, 3, 2010),
    (65, 0, 2007),
)


# Some of them for the years from B to F, and a question that is refused: 1999 is before B.
OLDER_POINTS = (
    (65, 0, 2000), (65, 0, 2003), (65, 0, 2006), (65, 0, 2010), (80, 0, 2003), (85, 0, 2001),
    (60, 5, 2003), (45, 20, 2000), (45, 20, 2010), (150, 0, 2000), (65, 0, 1999),
)


def write_sample(folder, basis, points):
    folder.mkdir(parents=True, exist_ok=True)
    (folder / "basis.bin").write_bytes(encode_file(encode(basis)))
    (folder / "points.txt").write_text("".join("%d %d %d\n" % point for point in points), "ascii")
    print("%s: basis.bin and %d model points" % (folder, len(points)))


def main():
    folder = Path(sys.argv[1] if len(sys.argv) > 1 else "samples")
    older = table_of_2000()
    write_sample(folder, realistic(), POINTS)
    write_sample(folder / "older", older.basis, OLDER_POINTS)
    (folder / "older" / "history.bin").write_bytes(encode_history(older.rows))
    write_sample(folder / "finer", fitted(), POINTS)


if __name__ == "__main__":
    main()

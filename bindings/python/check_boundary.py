"""Checks the boundary from Python by ctypes: the engine's structs lie where these classes put them, and each function
answers and refuses as the definitions say on a few cases worked by hand.

Usage: check_boundary.py LIBRARY    (a shared library made from libengine.a)
Prints one line, and each check that failed.
"""
import struct
import sys
from ctypes import sizeof
from pathlib import Path

import boundary
from boundary import (FILE, FURTHER, GRID, KEPT, LAYOUTS, ROLL, RUN, UNIT, Engine, Point, Question, Questions,
                      answers_of_grid, asked_of_grid, beyond, file_of, lent, opened, places, position, same, sample, worsening)
from check_forms import check_forms
from check_histories import check_histories
from check_later_years import check_later_years


def check_version(e):
    """The library tells the version of bindings/VERSION: 10,000 for a major, 100 for a minor version, 1 for a patch."""
    with open(Path(__file__).parents[1] / "VERSION", encoding="ascii") as file:
        major, minor, patch = map(int, file.read().split("."))
    same("the version", e.version(), 10_000 * major + 100 * minor + patch)


def check_layouts():
    for cls, size, offsets in LAYOUTS:
        same(f"size of {cls.__name__}", sizeof(cls), size)
        same(f"offsets of {cls.__name__}", [getattr(cls, name).offset for name, _ in cls._fields_], offsets)


def check_bases(e):
    run = sample()
    same("an accepted run", places(e.check_basis(run)), (0, 0, 0))
    same("a short run", places(e.check_basis(run[1:])), (1, 0, 0))
    same("no run", places(e.check_basis(b"")), (1, 0, 0))
    same("a wrong mark", places(e.check_basis(b"MPB2" + run[4:])), (4, 3, 0))
    same("the lowest discount", places(e.check_basis(sample(discount=-10_000_000))), (0, 0, 0))
    same("a discount below it", places(e.check_basis(sample(discount=-10_000_001))), (5, 12, 0))
    same("the lowest base year", places(e.check_basis(sample(base_year=1992))), (0, 0, 0))
    same("a base year below it", places(e.check_basis(sample(base_year=1991))), (5, 6, 0))

    file = lent(FILE + FURTHER)
    same("room for a file", places(e.write_basis(b"", file, FILE - 1)), (11, FILE, 0))
    same("no file of a refused run", places(e.write_basis(run[1:], file, len(file))), (1, 0, 0))
    same("unchanged by refusals", bytes(file), bytes([KEPT]) * (FILE + FURTHER))
    same("a file", places(e.write_basis(run, file, len(file))), (0, 0, 0))
    same("its bytes", bytes(file), file_of(run) + bytes([KEPT]) * FURTHER)

    back = lent(RUN + FURTHER)
    good = file_of(run)
    wrong = bytearray(good)
    wrong[512 * 8 + 100] ^= 255
    same("room for a run", places(e.read_basis(good, back, RUN - 1)), (11, RUN, 0))
    same("a wrong check", places(e.read_basis(bytes(wrong), back, len(back))), (2, 8, 0))
    same("unchanged by refusals", bytes(back), bytes([KEPT]) * (RUN + FURTHER))
    same("a run", places(e.read_basis(good, back, len(back))), (0, 0, 0))
    same("its bytes", bytes(back), run + bytes([KEPT]) * FURTHER)

    short = lent(RUN + FURTHER)
    same("a rate beyond", places(e.short_form(run, -200_000_001, short, RUN)), (5, 1078, 0))
    same("unchanged by refusals", bytes(short), bytes([KEPT]) * (RUN + FURTHER))
    other = sample(long_term=7, birth_year=9, period=3, remaining=0)
    same("a short form", places(e.short_form(other, -1, short, len(short))), (0, 0, 0))
    rates = struct.unpack("<131i", bytes(short)[1078:1602])
    same("its long-term rates", rates, tuple(-1 if age < 105 else 0 for age in range(20, 151)))
    falling = [period for period in range(19, 5, -1) for _ in range(2)]  # two ages each, from 62 to 89
    same("its periods by age", bytes(short)[1602:1733], bytes([20] * 42 + falling + [5] * 61))
    same("its periods by birth year", bytes(short)[4016:4285], bytes([20]) * 269)
    same("what is kept of the run", bytes(short)[:1078] + bytes(short)[1864:2940], other[:1078] + other[1864:2940])
    same("its further bytes", bytes(short)[RUN:], bytes([KEPT]) * FURTHER)


def check_enquiries(e):
    def case(name, run, question, value, refusal=(0, 0, 0)):
        a = getattr(e, name)(run, *question)
        same(f"{name} {question}", (a.value, places(a.refusal)), (value, refusal))

    run, most = sample(), 2**32 - 1
    case("improvement", run, (148, 2010), 0)
    case("factor", run, (148, 2010), 1_000_000_000)
    case("rate", run, (148, 2010), 100_000_000)
    case("factor", run, (most, most), 0, (6, most, 0))
    case("rate", run, (20, 2005), 0, (7, 2005, 0))
    case("period_survivorship", run, (148, 2, 2010), 810_000_000)
    case("period_expectation", run, (148, 0, 2010), 2_210_000_000)
    case("cohort_expectation", run, (148, 1, 2130), 1_400_000_000)
    case("period_annuity", run, (148, 1, 2010), 1_710_000_000)
    case("cohort_annuity", run, (148, 3, 2131), 0, (8, 148, 3))
    case("cohort_survivorship", run, (150, most, 2010), 0, (8, 150, most))
    case("period_annuity", run, (148, 2, 2131), 0, (7, 2131, 0))
    case("cohort_annuity", b"", (19, 200, 0), 0, (1, 0, 0))

    improving = sample(addition=10_000_000)
    case("improvement", improving, (60, 2007), 10_000_000)
    case("factor", improving, (60, 2009), 970_299_000)
    case("cohort_survivorship", improving, (148, 2, 2006), 810_900_000)
    case("cohort_annuity", improving, (148, 0, 2006), 2_710_900_000)
    case("improvement", worsening(), (60, 2007), -500_000_000)
    case("factor", worsening(), (60, 2009), 3_375_000_000)
    case("rate", worsening(), (60, 2010), 0, (10, 60, 2010))
    case("improvement", beyond(), (60, 2007), 0, (9, 60, 2007))
    case("period_annuity", sample(discount=200_000_000), (149, 0, 2010), 1_750_000_000)

    # The discount grows: 1,010,101,010 after a year and 1,020,304,051 after two, of which 0.9 and 0.81 are paid.
    growing = sample(discount=-10_000_000)
    case("period_annuity", growing, (149, 0, 2010), 1_909_090_909)
    case("cohort_annuity", growing, (148, 1, 2010), 1_735_537_190)


def check_small_sets(e):
    def asked(*questions):
        return Questions((Question * 6)(*[Question(*q) for q in questions]))

    def points(s):
        return [(list(p.results), places(p.refusal)) for p in s.points]

    questions = asked((148, 0, 2010), (150, 0, 2010), (148, 3, 2010), (19, 0, 2010), (148, 0, 2131), (149, 1, 2010))
    found = e.small_set(sample(), questions)
    same("a small set's refusal", places(found.refusal), (0, 0, 0))
    half, nothing = 500_000_000, [0, 0, 0, 0]
    same("its points", points(found), [
        ([2_210_000_000, 2_210_000_000, 2_710_000_000, 2_710_000_000], (0, 0, 0)),
        ([half, half, 2 * half, 2 * half], (0, 0, 0)),
        (nothing, (8, 148, 3)),
        (nothing, (6, 19, 0)),
        (nothing, (7, 2131, 0)),
        ([half, half, 900_000_000, 900_000_000], (0, 0, 0)),
    ])
    moving = e.small_set(sample(addition=10_000_000), asked(*[(148, 0, 2006)] * 6))
    same("period and cohort", points(moving), [([2_210_000_000, 2_210_900_000, 2_710_000_000, 2_710_900_000], (0, 0, 0))] * 6)
    refused = e.small_set(sample(discount=-10_000_001), questions)
    same("a refused set", (places(refused.refusal), points(refused)), ((5, 12, 0), [(nothing, (0, 0, 0))] * 6))


HALF, NOTHING = UNIT // 2, [0, 0, 0, 0]
AT_LAST_AGE = ([HALF, HALF, UNIT, UNIT], (0, 0, 0))

# Questions of a grid on the sample, each with its answer.
GRID_CASES = [
    ((148, 0, 2010), ([2_210_000_000, 2_210_000_000, 2_710_000_000, 2_710_000_000], (0, 0, 0))),
    ((150, 0, 2010), AT_LAST_AGE),
    ((148, 3, 2131), (NOTHING, (8, 148, 3))),
    ((19, 200, 2010), (NOTHING, (6, 19, 0))),
    ((148, 0, 2131), (NOTHING, (7, 2131, 0))),
    ((149, 1, 2010), ([HALF, HALF, 900_000_000, 900_000_000], (0, 0, 0))),
    ((148, 2, 2005), (NOTHING, (7, 2005, 0))),
]


def check_records(e):
    questions = [q for q, _ in GRID_CASES]
    further = GRID * sizeof(Point)
    for count in (GRID, GRID + 2):
        records = asked_of_grid(questions)
        before = bytes(records)
        same(f"a grid of {count}", places(e.grid(sample(), records, count)), (0, 0, 0))
        same("its answers", answers_of_grid(records, GRID), [a for _, a in GRID_CASES] * 17)
        same("its questions", [(p.age, p.deferment, p.year) for p in records[:GRID]], questions * 17)
        same("its further records", bytes(records)[further:], before[further:])


def check_records_again(e):
    """One list on one basis after another: what stood in a record does not matter."""
    records = asked_of_grid([(148, 0, 2006), (149, 1, 2010), (150, 0, 2010)])
    same("a worsening grid", places(e.grid(worsening(), records, GRID)), (0, 0, 0))
    same("its answers", answers_of_grid(records, 3),
         [([2_210_000_000, 2_165_000_000, 2_710_000_000, 2_665_000_000], (0, 0, 0)), (NOTHING, (10, 149, 2010)), AT_LAST_AGE])
    same("a grid beyond", places(e.grid(beyond(), records, GRID)), (0, 0, 0))
    same("its answers", answers_of_grid(records, 3), [(NOTHING, (9, 149, 2007)), (NOTHING, (9, 149, 2007)), AT_LAST_AGE])
    same("the sample's grid", places(e.grid(sample(), records, GRID)), (0, 0, 0))
    same("its answers", answers_of_grid(records, 3), [GRID_CASES[0][1], GRID_CASES[5][1], AT_LAST_AGE])


def check_refused_grids(e):
    records = asked_of_grid([(148, 0, 2010)])
    before = bytes(records)
    same("a list of 118", places(e.grid(sample(), records, GRID - 1)), (11, GRID, 0))
    same("11 before a short run", places(e.grid(b"", records, GRID - 1)), (11, GRID, 0))
    same("11 before a field", places(e.grid(sample(discount=-10_000_001), records, GRID - 1)), (11, GRID, 0))
    same("no list", places(e.grid(b"", None, 0)), (11, GRID, 0))
    same("a short run", places(e.grid(sample()[1:], records, GRID)), (1, 0, 0))
    same("a field", places(e.grid(sample(discount=-10_000_001), records, GRID + 2)), (5, 12, 0))
    same("unchanged by refusals", bytes(records), before)


def check_grids(e):
    check_records(e)
    check_records_again(e)
    check_refused_grids(e)


def check_starts(e):
    def start(run, question, where, refusal=(0, 0, 0)):
        line = e.lifeline_start(run, *question)
        same(f"lifeline_start {question}", (position(line), places(line.refusal)), (where, refusal))

    run, nowhere = sample(), (0, 0, 0, 0)
    start(run, (148, 2010), (148, 2010, UNIT, 0))
    start(run, (20, 2130), (20, 2130, UNIT, 0))
    start(run, (19, 2131), nowhere, (6, 19, 0))
    start(run, (148, 2131), nowhere, (7, 2131, 0))
    start(run, (148, 2005), nowhere, (7, 2005, 0))
    start(b"", (19, 2005), nowhere, (1, 0, 0))
    start(sample(discount=-10_000_001), (148, 2010), nowhere, (5, 12, 0))


def check_steps(e):
    def step(run, given, where, refusal=(0, 0, 0)):
        line = e.lifeline_step(run, *given)
        same(f"lifeline_step {given}", (position(line), places(line.refusal)), (where, refusal))

    def stays(run, given, refusal):
        step(run, given, given + (0,), refusal)

    run, most = sample(), 2**32 - 1
    step(run, (148, 2010, UNIT), (149, 2011, 900_000_000, 0))
    step(run, (149, 2011, 900_000_000), (150, 2012, 810_000_000, 0))
    step(run, (150, 2012, 810_000_000), (150, 2012, 810_000_000, 1))
    step(run, (149, 2259, UNIT), (150, 2260, 900_000_000, 0))
    step(run, (150, 2260, UNIT), (150, 2260, UNIT, 1))
    step(run, (60, 2010, 5), (61, 2011, 5, 0))
    step(sample(addition=10_000_000), (149, 2007, 900_000_000), (150, 2008, 810_900_000, 0))
    step(worsening(), (100, 2009, UNIT), (101, 2010, 662_500_000, 0))

    stays(b"", (19, 2005, 2**64 - 1), (1, 0, 0))
    stays(sample(discount=-10_000_001), (19, 2005, UNIT), (5, 12, 0))
    stays(run, (0, 0, 0), (6, 0, 0))
    stays(run, (151, 2261, UNIT + 1), (6, 151, 0))
    stays(run, (148, 2005, UNIT + 1), (7, 2005, 0))
    stays(run, (150, 2261, UNIT), (7, 2261, 0))
    stays(run, (150, most, UNIT), (7, most, 0))
    stays(run, (148, 2010, UNIT + 1), (5, RUN, 0))
    stays(run, (150, 2260, 2**64 - 1), (5, RUN, 0))
    stays(beyond(), (101, 2007, 0), (9, 101, 2007))
    stays(worsening(), (101, 2010, 662_500_000), (10, 101, 2010))


def check_whole_lives(e):
    """So many steps are so many years of cohort survivorship, on base rates that differ by age."""
    run = sample(addition=10_000_000)
    run = run[:30] + struct.pack("<131i", *[1_000_000 * (i + 1) for i in range(131)]) + run[554:]
    line = e.lifeline_start(run, 20, 2130)
    for n in range(131):
        same(f"a life after {n} years", position(line), (20 + n, 2130 + n, e.cohort_survivorship(run, 20, n, 2130).value, 0))
        line = e.lifeline_step(run, line.age, line.year, line.survivors)
    same("a life's end", (line.age, line.year, line.ended), (150, 2260, 1))


def check_lifelines(e):
    check_starts(e)
    check_steps(e)
    check_whole_lives(e)


def check_roll(e):
    """The four calls take and give what is declared; an age of 148 is worth 2.71 a year, one of 149 1.9."""
    def answer(what, a, value, refusal=(0, 0, 0)):
        same(what, (a.value, places(a.refusal)), (value, refusal))

    most, run, roll = 2**32 - 1, sample(), opened(e, 2010)
    answer("a join", e.roll_join(run, roll, ROLL, 1001, 148, 100), 271)
    answer("another", e.roll_join(run, roll, ROLL, most, 149, 5), 281)
    answer("the same number", e.roll_join(b"", roll, ROLL, most, 19, most), 0, (16, most, 0))
    answer("a pension above its limit", e.roll_join(b"", roll, ROLL, 7, 19, 10_000_001), 0, (5, 7, 0))
    answer("no run", e.roll_join(b"", roll, ROLL, 7, 19, 10_000_000), 0, (1, 0, 0))
    answer("the total", e.roll_total(roll, ROLL), 281)
    same("its numbers", [roll[i] for i in (0, 1, 2, 3, 502, 503, 1002, 1003, 1502, 1503)],
         [2010, 2, 1001, most, 148, 149, 100, 5, 271, 10])
    answer("a leave", e.roll_leave(roll, ROLL, 1001), 10)
    answer("a leave of nobody", e.roll_leave(roll, ROLL, 1001), 0, (15, 1001, 0))
    answer("a short roll", e.roll_total(roll, ROLL - 1), 0, (11, 8 * ROLL, 0))
    same("what is behind it", roll[ROLL:], [KEPT, KEPT])
    same("its numbers after a leave", [roll[i] for i in (0, 1, 2, 502, 1002, 1502)], [2010, 1, most, 149, 5, 10])


def main():
    engine = Engine(sys.argv[1])
    check_version(engine)
    check_layouts()
    check_bases(engine)
    check_forms(engine)
    check_enquiries(engine)
    check_later_years(engine)
    check_small_sets(engine)
    check_grids(engine)
    check_lifelines(engine)
    check_roll(engine)
    check_histories(engine)
    print(f"boundary, Python: {boundary.checks} checks, {boundary.failures} failed")
    return boundary.failures != 0


if __name__ == "__main__":
    sys.exit(main())

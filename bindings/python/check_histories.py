"""Checks of the boundary where a history is lent: what is answered from it, and what is refused of it by every call.
The numbers are worked by hand; check_boundary.py runs these checks with its own."""
import struct

from boundary import (GRID, OF_A_BASIS, ROLL, UNIT, Question, Questions, answers_of_grid, asked_of_grid, file_of, opened,
                      places, position, same, sample)


def history_data(*years):
    """The joined data of a history whose years, from B + 1 on, have one improvement each at every age."""
    return b"".join((struct.pack("<i", n) * ages).ljust(506, b"\0") for n in years for ages in (66, 65))


def actual(*years, **settings):
    """A basis of so many actual years to 2006, with its history."""
    return sample(base_year=2006 - len(years), **settings), file_of(history_data(*years))


def check_actual_years(e):
    """Improvements to F by the history, after it by the addition; the factors are those of the paper's figures."""
    def case(name, question, value, refusal=(0, 0, 0), basis=actual(10_000_000, 10_000_000, 10_000_000, addition=20_000_000)):
        a = getattr(e, name)(basis, *question)
        same(f"with a history, {name} {question}", (a.value, places(a.refusal)), (value, refusal))

    case("improvement", (60, 2003), 0, (7, 2003, 0))
    case("improvement", (60, 2004), 10_000_000)
    case("improvement", (150, 2006), 10_000_000)
    case("improvement", (60, 2007), 20_000_000)
    case("factor", (60, 2002), 0, (7, 2002, 0))
    case("factor", (60, 2003), UNIT)
    case("factor", (60, 2006), 970_299_000)
    case("factor", (60, 2007), 950_893_020)
    case("rate", (60, 2004), 99_000_000)
    case("period_survivorship", (148, 2, 2004), 811_801_000)
    case("cohort_survivorship", (148, 2, 2003), 810_900_000)
    case("period_expectation", (148, 0, 2004), 2_212_801_000)
    case("cohort_expectation", (148, 0, 2003), 2_210_900_000)
    case("period_annuity", (148, 0, 2004), 2_712_801_000)
    case("cohort_annuity", (148, 0, 2003), 2_710_900_000)
    falling = actual(*[-500_000_000] * 4)
    case("factor", (60, 2005), 3_375_000_000, basis=falling)
    case("rate", (60, 2006), 0, (10, 60, 2006), basis=falling)

    # Each age has its own improvement: the first and the last of either block, in the second of two years.
    data = bytearray(history_data(0, 0))
    for offset, n in ((1012, 1), (1012 + 260, -2), (1012 + 506, 3), (1012 + 762, -4)):
        data[offset:offset + 4] = struct.pack("<i", n)
    own = sample(base_year=2004), file_of(bytes(data))
    for age, n in ((20, 1), (21, 0), (84, 0), (85, -2), (86, 3), (87, 0), (149, 0), (150, -4)):
        case("improvement", (age, 2006), n, basis=own)
        case("improvement", (age, 2005), 0, basis=own)


def check_sets_with_a_history(e):
    basis = actual(10_000_000)
    answer = ([2_210_000_000, 2_210_900_000, 2_710_000_000, 2_710_900_000], (0, 0, 0))
    found = e.small_set(basis, Questions((Question * 6)(*[Question(148, 0, 2005)] * 6)))
    same("a small set with a history", [(list(p.results), places(p.refusal)) for p in found.points], [answer] * 6)
    records = asked_of_grid([(148, 0, 2005)])
    same("a grid with a history", places(e.grid(basis, records, GRID)), (0, 0, 0))
    same("its answers", answers_of_grid(records, GRID), [answer] * GRID)

    line = e.lifeline_start(basis, 148, 2005)
    same("a lifeline with a history", (position(line), places(line.refusal)), ((148, 2005, UNIT, 0), (0, 0, 0)))
    line = e.lifeline_step(basis, 149, 2006, 900_000_000)
    same("its step in F", (position(line), places(line.refusal)), ((150, 2007, 810_900_000, 0), (0, 0, 0)))
    # Another history of the same length, lent to the same step.
    other = basis[0], file_of(history_data(-10_000_000))
    line = e.lifeline_step(other, 149, 2006, 900_000_000)
    same("its step by another", (position(line), places(line.refusal)), ((150, 2007, 809_100_000, 0), (0, 0, 0)))


def refused_histories():
    """Each with the refusal that every call gives; B is 2004 and F 2006."""
    run, data = sample(base_year=2004), history_data(1, 2)
    good = file_of(data)
    bad_check = good[:1536 + 100] + b"\xff" + good[1536 + 101:]
    unclean = data[:1012 + 264] + b"\1" + data[1012 + 265:]

    def beyond(rest, n):
        """Another improvement at age 88, in the first year."""
        return file_of(rest[:514] + struct.pack("<i", n) + rest[518:])

    return [
        ((run, b""), (13, 2048, 0)), ((run, good[1:]), (13, 2048, 0)), ((run, good + b"\0"), (13, 2048, 0)),
        ((sample(), good), (13, 0, 0)),
        ((run, bad_check), (2, 3, 0)),
        ((run, good[512:1024] + good[:512] + bad_check[1024:]), (3, 0, 0)),
        ((run, file_of(unclean)), (4, 1276, 0)),
        ((run, beyond(unclean, 500_000_001)), (4, 1276, 0)),
        ((run, beyond(data, 500_000_001)), (5, 514, 0)), ((run, beyond(data, -500_000_001)), (5, 514, 0)),
        ((sample(base_year=2004, discount=-10_000_001), b""), (5, 12, 0)),
    ]


def check_refused_histories(e):
    for basis, refusal in refused_histories():
        for name, (_, takes) in OF_A_BASIS.items():
            if name not in ("small_set", "grid", "roll_join"):
                a = getattr(e, name)(basis, *[0] * len(takes))
                same(f"{name} with a refused history", places(a.refusal), refusal)
        found = e.small_set(basis, Questions())
        same("a small set with it",
             (places(found.refusal), [(list(p.results), places(p.refusal)) for p in found.points]),
             (refusal, [([0] * 4, (0, 0, 0))] * 6))
        records = asked_of_grid([(148, 0, 2010)])
        before = bytes(records)
        same("a grid with it", places(e.grid(basis, records, GRID)), refusal)
        same("a short list with it", places(e.grid(basis, records, GRID - 1)), (11, GRID, 0))
        same("unchanged by refusals", bytes(records), before)
        roll = opened(e, 2003)
        before = bytes(roll)
        join = e.roll_join(basis, roll, ROLL, 7, 151, 0)
        same("a join with it", (join.value, places(join.refusal), bytes(roll)), (0, refusal, before))
        step = e.lifeline_step(basis, 151, 2003, UNIT + 1)
        same("a step with it", (position(step), places(step.refusal)), ((151, 2003, UNIT + 1, 0), refusal))


def check_histories(e):
    check_actual_years(e)
    check_sets_with_a_history(e)
    check_refused_histories(e)

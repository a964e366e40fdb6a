"""Checks of the boundary in the years after 2130, which values of a life and the lifeline take and single cells do not. The
numbers are worked by hand: B is 2130, and one in ten dies then. check_boundary.py runs these checks with its own."""
import struct

from boundary import (GRID, ROLL, UNIT, Question, Questions, answers_of_grid, asked_of_grid, later, opened, places, position,
                      same, sample)

NOTHING = [0, 0, 0, 0]

# 2 per cent by age, 1 by birth year and 0.5 of the addition: 0.0965 die in 2131, and 0.0931225 in 2132.
IMPROVING = later(20_000_000, 10_000_000, 5_000_000)

# Half as much again each year, 1.5 and 2.25 and 3.375, so that 0.15 and 0.225 and 0.3375 die, and 2134 is above 4.
WORSENING = later(-200_000_000, -200_000_000, -100_000_000)


def with_numbers(run, *changes):
    """The run with other numbers of four bytes in some places."""
    changed = bytearray(run)
    for offset, number in changes:
        struct.pack_into("<i", changed, offset, number)
    return bytes(changed)


# Nobody dies before 149 and one in two there, but 10 per cent fewer of birth year 2110: the rate of 149 in 2259, the latest.
LATEST = with_numbers(later(), *[(30 + 4 * i, 0) for i in range(129)], (30 + 4 * 129, 500_000_000),
                      (2940 + 4 * 268, 100_000_000))


def check_values(e):
    def case(name, run, question, value, refusal=(0, 0, 0)):
        a = getattr(e, name)(run, *question)
        same(f"after 2130, {name} {question}", (a.value, places(a.refusal)), (value, refusal))

    # 1 per cent by age, by birth year or of the addition: 0.9 x 0.901 are left of the cohort.
    for run in (later(10_000_000), later(0, 10_000_000), later(0, 0, 10_000_000)):
        case("cohort_survivorship", run, (148, 2, 2130), 810_900_000)
        case("period_survivorship", run, (148, 2, 2130), 810_000_000)
    # B 2129, and a factor runs on: 0.099 die in 2130, 0.09801 in 2131.
    case("cohort_survivorship", later(addition=10_000_000, base_year=2129), (148, 2, 2130), 812_692_990)
    case("cohort_survivorship", IMPROVING, (148, 2, 2130), 813_150_000)  # 0.9 x 0.9035
    case("cohort_expectation", IMPROVING, (148, 0, 2130), 2_213_150_000)
    case("cohort_annuity", IMPROVING, (148, 0, 2130), 2_713_150_000)
    case("period_expectation", IMPROVING, (147, 1, 2130), 2_219_812_250)  # 0.9035, and 0.9035 x 0.9035
    case("cohort_expectation", IMPROVING, (147, 1, 2130), 2_222_863_821)  # 0.9035, and 0.9035 x 0.9068775
    case("cohort_survivorship", LATEST, (20, 129, 2130), UNIT)
    case("cohort_survivorship", LATEST, (20, 130, 2130), 550_000_000)
    case("cohort_survivorship", LATEST, (21, 129, 2130), 500_000_000)

    case("cohort_survivorship", WORSENING, (60, 4, 2130), 392_779_688)
    case("cohort_survivorship", WORSENING, (60, 5, 2130), 0, (10, 64, 2134))
    case("cohort_annuity", WORSENING, (60, 20, 2130), 0, (10, 64, 2134))
    case("period_expectation", WORSENING, (60, 7, 2130), 0, (10, 67, 2134))
    # 1.006 to the power of 231 is below 4, to that of 232, 232 years after 2006, above.
    case("cohort_annuity", sample(addition=-6_000_000), (20, 0, 2130), 0, (10, 128, 2238))
    # The limits add up to those of 9: 0.05 die in 2131.
    case("cohort_survivorship", later(200_000_000, 200_000_000, 100_000_000), (148, 2, 2130), 855_000_000)
    case("improvement", WORSENING, (60, 2130), -500_000_000)
    for cell in ("improvement", "factor", "rate"):
        case(cell, WORSENING, (60, 2131), 0, (7, 2131, 0))
        case(cell, IMPROVING, (149, 2259), 0, (7, 2259, 0))


# Bases with their base year, and points in 2130 worked by hand. On the last one, 2 per cent more each year, some are refused.
BY_HAND = [
    (IMPROVING, 2130, {
        (147, 1, 2130): ([2_219_812_250, 2_222_863_821, 2_439_000_000, 2_450_577_439], (0, 0, 0)),
        (148, 0, 2130): ([2_210_000_000, 2_213_150_000, 2_710_000_000, 2_713_150_000], (0, 0, 0)),
        (148, 0, 2131): (NOTHING, (7, 2131, 0)),
    }),
    (WORSENING, 2130, {
        (147, 1, 2130): ([2_072_500_000, 2_008_750_000, 2_439_000_000, 2_257_875_000], (0, 0, 0)),
        (148, 0, 2130): ([2_210_000_000, 2_165_000_000, 2_710_000_000, 2_665_000_000], (0, 0, 0)),
        (100, 40, 2130): (NOTHING, (10, 140, 2134)),
        (100, 0, 2130): (NOTHING, (10, 104, 2134)),
    }),
    (LATEST, 2130, {(20, 129, 2130): ([1_050_000_000, 1_050_000_000, 1_500_000_000, 1_550_000_000], (0, 0, 0))}),
    (later(20_000_000, 10_000_000, 5_000_000, base_year=2125), 2125, {}),
    (later(-20_000_000, 1_000_000, -1_000_000, base_year=2125), 2125, {}),
]


def single(e, run, question):
    """What the four enquiries answer: their values, or the first refusal."""
    names = ("period_expectation", "cohort_expectation", "period_annuity", "cohort_annuity")
    four = [getattr(e, name)(run, *question) for name in names]
    refused = [places(a.refusal) for a in four if a.refusal.number]
    return (NOTHING, refused[0]) if refused else ([a.value for a in four], (0, 0, 0))


def check_sets(e):
    """By hand, and as the enquiries answer: young and old, in even years and odd ones, deferred past 2130 and not."""
    for run, base_year, by_hand in BY_HAND:
        years = range(base_year, 2131)
        drawn = [(age, 17 * age % (151 - age), years[age % len(years)]) for age in range(20, 126)]
        questions = [*by_hand, *drawn]
        records = asked_of_grid(questions)
        same("a grid after 2130", places(e.grid(run, records, GRID)), (0, 0, 0))
        answers = answers_of_grid(records, len(questions))
        for question, found in zip(questions, answers):
            same(f"its record {question}", found, by_hand.get(question) or single(e, run, question))
        six = e.small_set(run, Questions((Question * 6)(*[Question(*question) for question in questions[:6]])))
        same("a small set after 2130", [(list(p.results), places(p.refusal)) for p in six.points], answers[:6])


def check_lives(e):
    def step(run, given, where, refusal=(0, 0, 0)):
        line = e.lifeline_step(run, *given)
        same(f"lifeline_step {given}", (position(line), places(line.refusal)), (where, refusal))

    step(IMPROVING, (148, 2130, UNIT), (149, 2131, 900_000_000, 0))
    step(IMPROVING, (149, 2131, 900_000_000), (150, 2132, 813_150_000, 0))
    step(LATEST, (149, 2259, UNIT), (150, 2260, 550_000_000, 0))
    step(LATEST, (150, 2260, UNIT), (150, 2260, UNIT, 1))
    step(LATEST, (150, 2261, UNIT), (150, 2261, UNIT, 0), (7, 2261, 0))
    step(WORSENING, (64, 2133, UNIT), (65, 2134, 662_500_000, 0))
    step(WORSENING, (64, 2134, 7), (64, 2134, 7, 0), (10, 64, 2134))

    roll = opened(e, 2130)
    same("a join after 2130", e.roll_join(IMPROVING, roll, ROLL, 7, 148, 10_000_000).value, 27_131_500)
    same("a join that is refused", places(e.roll_join(WORSENING, roll, ROLL, 8, 60, 0).refusal), (10, 64, 2134))


def check_later_years(e):
    check_values(e)
    check_sets(e)
    check_lives(e)

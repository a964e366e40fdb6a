"""Model points with four results each: a point, the small set, the grid; and the lifeline."""

from dataclasses import dataclass, field

from reference_model.basis import check_output
from reference_model.engine import COHORT, PERIOD, accepted, check_age, check_question
from reference_model.refusals import Refusal, outcome
from reference_model.units import LAST_AGE, LAST_BIRTH_YEAR, UNIT, rounded

SMALL_SET_POINTS = 6
GRID_RECORDS = 119


def _four_results(projection, age, deferment, year):
    check_question(projection, age, deferment, year)
    return (projection.expectation(PERIOD, age, deferment, year),
            projection.expectation(COHORT, age, deferment, year),
            projection.annuity(PERIOD, age, deferment, year),
            projection.annuity(COHORT, age, deferment, year))


def point(run, history, age, deferment, year):
    """Period and cohort expectation, then annuity, or the first refusal of the four."""
    return _four_results(accepted(run, history), age, deferment, year)


@dataclass
class ModelPoint:
    """A point record: its question, its results, and its refusal and places."""

    age: int = 0
    deferment: int = 0
    year: int = 0
    results: tuple = (0, 0, 0, 0)
    refusal: tuple = (0, 0, 0)


def _fill(projection, record):
    answer = outcome(_four_results, projection, record.age, record.deferment, record.year)
    if isinstance(answer, Refusal):
        record.results, record.refusal = (0, 0, 0, 0), answer.numbers()
    else:
        record.results, record.refusal = answer, (0, 0, 0)


def small_set(run, history, questions):
    """Six answered points, and the refusal of the whole set or None."""
    assert len(questions) == SMALL_SET_POINTS
    records = [ModelPoint(*question) for question in questions]
    try:
        projection = accepted(run, history)
    except Refusal as refusal:
        return records, refusal.again()
    for record in records:
        _fill(projection, record)
    return records, None


def grid(run, history, records):
    """Fills the first 119 records in place; 11 comes before the basis is looked at."""
    check_output(GRID_RECORDS, len(records))
    projection = accepted(run, history)
    for record in records[:GRID_RECORDS]:
        _fill(projection, record)


# ---- the lifeline: one life followed along its cohort

STEPPED, ENDED = "stepped", "ended"


@dataclass
class Lifeline:
    """The lent data run with an age, a year and the survivors. The history is lent to each call."""

    run: bytes = field(repr=False)
    age: int = 0
    year: int = 0
    survivors: int = 0


def start_lifeline(run, history, age, year):
    """The lifeline, and its refusal or None. A refused start holds 0, 0 and 0."""
    try:
        check_question(accepted(run, history), age, 0, year)
    except Refusal as refusal:
        return Lifeline(run), refusal.again()
    return Lifeline(run, age, year, UNIT), None


def step_lifeline(lifeline, history):
    """One year of cohort survivorship in place; says stepped or ended, or gives its refusal."""
    projection = accepted(lifeline.run, history)
    check_age(lifeline.age)
    # A year after 2130 may stand, as long as the birth year is one of the table's.
    if (lifeline.year < projection.basis.base_year
            or lifeline.year - lifeline.age > LAST_BIRTH_YEAR):
        raise Refusal(7, lifeline.year)
    if lifeline.survivors > UNIT:
        raise Refusal(5, len(lifeline.run))
    if lifeline.age == LAST_AGE:
        return ENDED
    rate = projection.rate(lifeline.age, lifeline.year)
    lifeline.survivors = rounded(lifeline.survivors * (UNIT - rate), UNIT)
    lifeline.age += 1
    lifeline.year += 1
    return STEPPED

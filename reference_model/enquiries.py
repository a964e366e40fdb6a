"""The nine kinds of enquiry under their names, and one way to ask any of them."""

from reference_model import engine

IMPROVEMENT, FACTOR, RATE = "improvement", "factor", "rate"
SURVIVORSHIP, EXPECTATION, ANNUITY = "survivorship", "expectation", "annuity"

# In the order of the answer cases: a kind is its place here.
KINDS = (
    (IMPROVEMENT, None), (FACTOR, None), (RATE, None),
    (SURVIVORSHIP, engine.PERIOD), (SURVIVORSHIP, engine.COHORT),
    (EXPECTATION, engine.PERIOD), (EXPECTATION, engine.COHORT),
    (ANNUITY, engine.PERIOD), (ANNUITY, engine.COHORT),
)

_SINGLE = {IMPROVEMENT: engine.improvement, FACTOR: engine.factor, RATE: engine.rate}
_ALONG_AGES = {SURVIVORSHIP: engine.survivorship, EXPECTATION: engine.expectation,
               ANNUITY: engine.annuity}


def ask(run, history, kind, age, deferment, year):
    """The answer, or its refusal raised. An improvement, factor or rate has no deferment."""
    name, course = kind
    if name in _SINGLE:
        return _SINGLE[name](run, history, age, year)
    return _ALONG_AGES[name](run, history, course, age, deferment, year)

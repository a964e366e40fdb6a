"""The distance of an answered number from the exact model, the paper's bound on it, its premise."""

from collections import namedtuple
from fractions import Fraction

from reference_model.exact import SCALE, rates_used
from reference_model.history import actual_years
from reference_model.units import LAST_AGE, LAST_YEAR, UNIT

# Of one answered enquiry: does the premise hold, the distance's two bounds, the paper's bound.
Distance = namedtuple("Distance", "premise lower upper bound")


def exact_answer(model, kind, age, deferment, year):
    """An enclosure of the model's answer, as a multiple of U; of any kind but an improvement."""
    name = kind[0]
    if name == "factor":
        return model.factor(age, year)
    if name == "rate":
        return model.rate(age, year)
    used = rates_used(kind, age, deferment, year)
    if name == "survivorship":
        return model.survivors(used)[-1]
    if name == "expectation":
        return model.expectation(used)
    return model.annuity(used, deferment)


def factors_used(kind, age, deferment, year):
    """The (age, year) of each factor that the answer or one of its rates uses."""
    return [(age, year)] if kind[0] == "factor" else rates_used(kind, age, deferment, year)


def improvements_taken(model, kind, age, deferment, year):
    """The exact improvements that enter one of the factors used."""
    return [improvement for each in factors_used(kind, age, deferment, year)
            for improvement in model.improvements_into_factor(*each)]


def takes_actual(model, kind, age, deferment, year):
    """Whether an actual improvement is among those taken: that of B + 1 comes first, if any."""
    return len(actual_years(model.basis)) > 0 and any(
        model.years_from_base(each) > 0 for _, each in factors_used(kind, age, deferment, year))


def takes_later(kind, age, deferment, year):
    """Whether an improvement of a year after 2130 is among those taken."""
    return any(each > LAST_YEAR for _, each in factors_used(kind, age, deferment, year))


def premise_holds(model, kind, age, deferment, year):
    """No exact improvement taken into the answer, actual or projected, is below zero.

    An improvement takes none into it: what is claimed of it needs no premise.
    """
    return all(model.none_below_zero(*each) for each in factors_used(kind, age, deferment, year))


def improvement_bound(model, year):
    """Half a unit for the one rounding of a projected improvement; an actual one is exact."""
    return Fraction(0) if year in actual_years(model.basis) else Fraction(1, 2)


def annuity_bound(n, largest_k, discount_rate):
    """Four times as much where the rate of discount is below zero."""
    usual = Fraction((n + 1) * (n * (2 * largest_k + 3) + 2), 4)
    return 4 * usual if discount_rate < 0 else usual


def bound(model, kind, age, deferment, year):
    """In units, with k of the year or K the largest k among the rates used, 0 if there is none."""
    name = kind[0]
    if name == "improvement":
        return improvement_bound(model, year)
    k = model.years_from_base(year)
    if name == "factor":
        return Fraction(k)
    if name == "rate":
        return Fraction(2 * k + 1, 2)
    largest_k = max((model.years_from_base(each) for _, each
                     in rates_used(kind, age, deferment, year)), default=0)
    if name == "survivorship":
        return Fraction(deferment * (largest_k + 1))
    if name == "expectation":
        n = LAST_AGE - age - deferment
        return Fraction(n * (n + 1) * (largest_k + 1), 2)
    return annuity_bound(LAST_AGE - age, largest_k, model.basis.discount_rate)


def distance_from(exact, answered):
    """The two bounds of the distance, in units, of an answered number from an enclosure."""
    least = answered * SCALE - exact.upper * UNIT
    most = answered * SCALE - exact.lower * UNIT
    lower = 0 if least <= 0 <= most else min(abs(least), abs(most))
    return Fraction(lower, SCALE), Fraction(max(abs(least), abs(most)), SCALE)


def distance(model, kind, age, deferment, year, answered):
    """Of an answered number; where the engine refuses there is none to ask for.

    If `upper` is within the bound the distance is; if `lower` is above the bound it is broken. The
    distance of an improvement is known itself: a tie's is its bound, which no enclosure could tell.
    """
    if kind[0] == "improvement":
        lower = upper = Fraction(abs(answered - model.improvement(age, year)))
    else:
        lower, upper = distance_from(exact_answer(model, kind, age, deferment, year), answered)
    return Distance(
        premise=premise_holds(model, kind, age, deferment, year), lower=lower, upper=upper,
        bound=bound(model, kind, age, deferment, year))

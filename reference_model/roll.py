"""A roll of pensions in payment: its members and their total, worked out from the list of calls.

There are no places here and no numbers kept from call to call but the members themselves, in the
order in which they joined. `roll_numbers` writes them down as the surface does.
"""

from collections import namedtuple
from functools import lru_cache

from reference_model import engine
from reference_model.refusals import Refusal, outcome
from reference_model.units import UNIT, rounded

MOST_MEMBERS = 500
GREATEST_PENSION = 10_000_000  # pence a year

Member = namedtuple("Member", "number age pension liability")

# A call and what it is given: Join(run, history, number, age, pension), Leave(number).
Join = namedtuple("Join", "run history number age pension")
Leave = namedtuple("Leave", "number")


# The answer depends on what is lent and asked alone, so that keeping it is as good as asking again.
@lru_cache(maxsize=4096)
def _kept_annuity(run, history, age, year):
    return outcome(engine.annuity, run, history, engine.COHORT, age, 0, year)


def liability(run, history, age, year, pension):
    """Pension x cohort annuity / U in whole pence; a pension of 0 needs its annuity as well."""
    annuity = _kept_annuity(bytes(run), bytes(history), age, year)
    if isinstance(annuity, Refusal):
        raise annuity.again()
    return rounded(pension * annuity, UNIT)


class Roll:
    """Opened empty for one valuation year, which is not looked at before a member joins."""

    def __init__(self, year, members=()):
        self.year = year
        self.members = list(members)

    def has(self, number):
        return any(member.number == number for member in self.members)

    def total(self):
        return sum(member.liability for member in self.members)

    def join(self, run, history, number, age, pension):
        """Gives 16, 14, the pension's 5, then what the basis or the annuity is refused by."""
        if self.has(number):
            raise Refusal(16, number)
        if len(self.members) >= MOST_MEMBERS:
            raise Refusal(14, number)
        if pension > GREATEST_PENSION:
            raise Refusal(5, number)
        value = liability(run, history, age, self.year, pension)
        self.members.append(Member(number, age, pension, value))
        return self.total()

    def leave(self, number):
        """Gives 15. Those who joined later stay in their order."""
        for place, member in enumerate(self.members):
            if member.number == number:
                del self.members[place]
                return self.total()
        raise Refusal(15, number)

    def call(self, call):
        """A Join or a Leave."""
        return self.join(*call) if isinstance(call, Join) else self.leave(*call)


def answers(year, calls):
    """What each of these calls answers, or its refusal, on a roll that was opened for this year."""
    roll = Roll(year)
    return [outcome(roll.call, call) for call in calls]

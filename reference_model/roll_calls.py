"""Lists of calls on rolls, drawn from a seed, and the numbers on which they begin.

What is called next depends on who is on the roll, so that rolls fill up, stay full and empty again,
and that the first, the last and anyone between them leave.
"""

from collections import namedtuple

from reference_model.bases import named_bases
from reference_model.basis import encode
from reference_model.damage import with_number
from reference_model.damaged_files import bad_check, swapped
from reference_model.damaged_histories import with_data
from reference_model.finer_bases import fitted, fitted_table_of_2000
from reference_model.history import NO_HISTORY
from reference_model.older_bases import lent, older_bases
from reference_model.roll import GREATEST_PENSION, MOST_MEMBERS, Join, Leave
from reference_model.roll_numbers import COUNT, HALF_WORD, LENGTH, MEMBERS, WORD, YEAR
from reference_model.units import LAST_YEAR

Open = namedtuple("Open", "year")
Total = namedtuple("Total", "")

MOST = HALF_WORD - 1
AGES = (20, 37, 60, 61, 65, 80, 85, 86, 97, 110, 149, 150)
BAD_AGES = (0, 19, 151, MOST)
YEARS = (2008, 2010, 2026, 2090, LAST_YEAR)
BAD_YEARS = (0, 1991, 2005, LAST_YEAR + 1, MOST)


# ---- bases, each a data run and its history

def sound_bases():
    """All joins of the usual ages in the usual years are answered."""
    bases = named_bases()
    plain = [(encode(bases[name]), NO_HISTORY)
             for name in ("sample", "realistic", "nobody dies, lowest discount", "P 150")]
    return plain + [lent(older_bases()["2000 table"]), (encode(fitted()), NO_HISTORY),
                    lent(fitted_table_of_2000())]


def stopping_bases():
    """9 or 10 stops the annuities of some ages or of all."""
    bases, older = named_bases(), older_bases()
    return ([(encode(bases[name]), NO_HISTORY) for name in (
        "9 in mid-course", "10 in mid-course", "rising rates", "just beyond high")]
        + [lent(older[name]) for name in ("10 in mid-history", "9 after the history")])


def refused_bases():
    """The own 1, 4 and 5 of runs of both forms, and the history's 13, 2, 3, 4 and 5."""
    run, history = lent(older_bases()["2000 table"])
    runs = [b"", run[:-1], with_number(run, 3, 1, 0), with_number(run, 29, 1, 1),
            with_number(run, 6, 2, LAST_YEAR + 1), with_number(run, 4_553, 1, 151)]
    finer = lent(fitted_table_of_2000())[0]
    runs += [finer[:4_554], run + bytes(506), with_number(finer, 5_059, 1, 1),
             with_number(finer, 4_952, 2, 15_001)]
    histories = [NO_HISTORY, history[:-1], bad_check(history, 11), swapped(history, 0, 1),
                 with_data(history, (264, 1, 1)), with_data(history, (506, 4, 500_000_001))]
    return ([(bad, history) for bad in runs] + [(run, bad) for bad in histories]
            + [(encode(named_bases()["sample"]), history)])


# ---- what is called

# How often a join is meant, in a hundred calls, and how often it is meant to be answered.
Mood = namedtuple("Mood", "joins sound")
FILLING, FULL, EMPTYING, MIXED = Mood(96, 92), Mood(60, 60), Mood(8, 50), Mood(55, 40)


class Caller:
    """Draws calls. The numbers are few, so that those who left come back."""

    SOUND, STOPPING, REFUSED = sound_bases(), stopping_bases(), refused_bases()

    def __init__(self, draw, numbers):
        self.draw = draw
        self.numbers = [0, MOST, *draw.sample(range(1, 4 * numbers), numbers - 2)]
        self.basis = draw.choice(self.SOUND)

    def one_in(self, count):
        return self.draw.randrange(count) == 0

    def call(self, roll, mood):
        if self.one_in(40):
            return Total()
        if self.draw.randrange(100) < mood.joins:
            return self.join(roll, mood)
        return Leave(self.leaver(roll))

    def leaver(self, roll):
        """The first, the last or anyone on the roll; now and then any number at all."""
        if not roll.members or self.one_in(6):
            return self.draw.choice((*self.numbers[:3], self.draw.randrange(HALF_WORD)))
        place = self.draw.choice((0, -1, self.draw.randrange(len(roll.members))))
        return roll.members[place].number % HALF_WORD

    def join(self, roll, mood):
        """Mostly on a basis that stays for a while."""
        if self.one_in(30):
            self.basis = self.draw.choice(self.SOUND)
        number = self.comer(roll)
        if self.draw.randrange(100) < mood.sound:
            return Join(*self.basis, number, self.draw.choice(AGES), self.pension())
        basis = self.draw.choice(self.draw.choice((self.SOUND, self.STOPPING, self.REFUSED)))
        return Join(*basis, number, self.draw.choice(self.draw.choice((AGES, AGES, BAD_AGES))),
                    self.draw.choice((self.pension(), self.pension(), GREATEST_PENSION + 1, MOST)))

    def comer(self, roll):
        """Mostly a number that is not on the roll, if there is one."""
        here = {member.number for member in roll.members}
        absent = [number for number in self.numbers if number not in here]
        return self.draw.choice(self.numbers if self.one_in(4) or not absent else absent)

    def pension(self):
        return self.draw.choice((0, 1, 5, GREATEST_PENSION, self.draw.randint(0, GREATEST_PENSION)))


# ---- numbers on which no roll was opened

def any_numbers(draw, length):
    """Numbers of all sizes, those of members often alike and within 32 bits."""
    numbers = [draw.randrange(2 ** draw.choice((8, 32, 64))) for _ in range(length)]
    if length >= LENGTH:
        numbers[YEAR] = (draw.choice((draw.choice(YEARS), draw.randrange(HALF_WORD)))
                         + draw.choice((0, 5)) * HALF_WORD)
        numbers[COUNT] = draw.choice((0, 1, 7, 60, MOST_MEMBERS - 1, MOST_MEMBERS, MOST_MEMBERS + 1,
                                      HALF_WORD, HALF_WORD + 7, WORD - 1))
        for place in range(MEMBERS, MEMBERS + MOST_MEMBERS):
            numbers[place] = draw.choice((draw.randrange(12), draw.randrange(WORD),
                                          draw.randrange(12) + HALF_WORD))
    return numbers

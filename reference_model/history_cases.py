"""What `make_answer_cases` asks with a history: a good one, a damaged one, one that is not needed.

Each group is a data run, a history and a function of kind, basis and draw that gives the questions.
"""

from collections import namedtuple

from reference_model.bases import level, realistic, sample
from reference_model.basis import encode
from reference_model.damage import Damage, with_number
from reference_model.damaged_files import bad_check, single_blocks
from reference_model.damaged_histories import (at_limits, just_beyond, not_needed, several_across_years,
                                               several_in_a_year, unseen, with_data, wrong_lengths,
                                               zero_bytes)
from reference_model.enquiries import IMPROVEMENT, KINDS
from reference_model.history import NO_HISTORY
from reference_model.older_bases import (each_cell_its_own, gentle_older_bases, lent, older_bases,
                                         table_of_2000)
from reference_model.refusals import Refusal
from reference_model.units import FIRST_YEAR, LAST_AGE, LAST_YEAR

Group = namedtuple("Group", "run history questions")

# For what is refused by its basis or history: what 6, 8 and 7 would refuse besides, and before them
# a question that they would not.
REFUSED = ((60, 0, 2020), (19, 132, 2131), (150, 1, 0), (60, 0, 2131))


def in_turn(place, questions):
    """One question for each kind, another one for the next group and for the next kind."""
    return lambda kind, basis, draw: [questions[(place + KINDS.index(kind)) % len(questions)]]


# ---- good histories

def along_history(kind, basis, draw):
    """Either side of B and of F, ages either side of a year's two blocks, and starts in between."""
    base, foundation = basis.base_year, basis.foundation_year
    if kind[1] is None:
        for age in (20, 85, 86, 150):
            yield age, 0, base + 1
            yield age, 0, foundation
        yield from [(60, 0, base - 1), (85, 0, base), (80, 0, foundation + 1),
                    (81, 0, foundation + 1), (97, 0, foundation - 1), (60, 0, LAST_YEAR)]
    else:
        yield from [(60, 0, base - 1), (60, 0, base), (84, 3, base), (85, 1, base + 1),
                    (86, 2, foundation), (79, 1, foundation + 1), (20, 65, base)]
    for _ in range(2):
        age = draw(20, LAST_AGE)
        yield age, draw(0, LAST_AGE - age), draw(base, foundation + draw(0, 1))


def answerable(kind, basis, draw):
    """Any that 6, 8 and 7 do not refuse, most of them for the years from B to F."""
    if kind[0] == IMPROVEMENT:
        yield from [(85, 0, basis.base_year + 1), (86, 0, basis.foundation_year)]
        return
    for _ in range(10):
        age = draw(20, LAST_AGE)
        last_year = basis.foundation_year if draw(0, 2) else LAST_YEAR
        yield age, draw(0, 1) and draw(0, LAST_AGE - age), draw(basis.base_year, last_year)


def sound(edges):
    """The older bases, and the edges of every number on one of them."""
    yield Group(*lent(table_of_2000()), lambda kind, basis, draw: edges(basis.base_year,
                                                                        basis.foundation_year))
    for older in older_bases().values():
        yield Group(*lent(older), along_history)
    for older in gentle_older_bases().values():
        yield Group(*lent(older), answerable)


# ---- damaged histories

def _older(base_year, foundation_year=2006):
    """A basis whose history is the beginning of that of one with more years."""
    return lent(each_cell_its_own(level(foundation_year, base_year)))


def late_damages():
    """One file whose last three years are refused by 5, by 4 and by 2, and its first years alone.

    Each decides although the one before it comes earlier in the file; seven years are accepted.
    """
    years = 10
    _, history = _older(FIRST_YEAR, FIRST_YEAR + years)
    history = with_data(history, (1_012 * (years - 3) + 762, 4, -500_000_001),
                        (1_012 * (years - 2) + 1_011, 1, 1))
    history = bad_check(history, 2 * years - 1)
    for place, fewer in enumerate((0, 1, 2, 3)):
        foundation_year = FIRST_YEAR + years - fewer
        yield Group(encode(level(foundation_year, FIRST_YEAR)), history[:1_024 * (years - fewer)],
                    in_turn(place, ((150, 0, foundation_year), (85, 9, 2020), (60, 0, 2130))))


def damaged():
    """On a history of one year what a year can show, on one of two years the rest."""
    one, two, more = _older(2005), _older(2004), _older(2002)[1]
    of_one = [*wrong_lengths(one[1], more), *single_blocks(one[1]), *zero_bytes(one[1]),
              *unseen(one[1]), *several_in_a_year(one[1]), *at_limits(one[1], 0)]
    of_two = [*wrong_lengths(two[1], more), *several_across_years(two[1]), *just_beyond(two[1], 1)]
    met = ((20, 5, 2006), (85, 1, 2006), (86, 1, 2006), (150, 0, 2006))
    longest = lent(gentle_older_bases()["longest history"])
    of_longest = [Damage("cut", longest[1][:length], Refusal(13, 90_112))
                  for length in (90_111, 89_600, 89_088)]
    for (run, _), damages in ((one, of_one), (two, of_two), (longest, of_longest)):
        for place, damage in enumerate(damages):
            yield Group(run, damage.content, in_turn(place, REFUSED if damage.expected else met))


# ---- whose history it is

def other_bases():
    """B at F or later, where none is needed; the history of another basis; a refused basis."""
    run, history = _older(2004)
    for basis in (sample(), realistic()):
        for place, damage in enumerate(not_needed(history)):
            yield Group(encode(basis), damage.content, in_turn(place, REFUSED))
    # A history of as many years serves any basis.
    yield Group(encode(level(2030, 2028)), history, in_turn(0, ((86, 5, 2030), (85, 0, 2029))))
    for place, (offset, width, number) in enumerate(((29, 1, 1), (6, 2, 1991), (6, 2, 2131),
                                                     (8, 4, -2 ** 31))):
        for content in (history[1:], bad_check(history, 0)):
            yield Group(with_number(run, offset, width, number), content, in_turn(place, REFUSED))


def groups_with_history(edges):
    """`edges` gives questions at and beyond each end, for a base year and a foundation year."""
    yield from sound(edges)
    for kind in (late_damages, damaged, other_bases):
        yield from kind()


def beyond_the_bytes(total):
    """Where a history would start and its length, of stretches not within so many bytes."""
    greatest = 4_294_967_295
    return ((total, 1), (total - 1, 2), (0, total + 1), (total + 1, 0), (greatest, 1),
            (1, greatest), (greatest, greatest), (1_024, greatest - 1_023))


def without_history(place):
    """A stretch beyond the bytes is no history: 13 with B before F, and none is needed after it.

    The two are asked about in turn along kinds and stretches.
    """
    older, _ = lent(table_of_2000())
    for number, kind in enumerate(KINDS):
        run = older if (place + number) % 2 else encode(realistic())
        yield Group(run, NO_HISTORY, None), kind, REFUSED[(place + number) // 2 % len(REFUSED)]

"""Lists of calls on rolls, each worked out from its calls alone by reference_model/, against the library: after every call the
answer, and all the numbers that are lent, with further ones before and behind them.

Usage: check_rolls.py LIBRARY [SEED]    (a shared library made from libengine.a)
Prints one line, and before it of a few lists the first call on which the two differ. It fails also where a kind of
answer that is promised below never came up.
"""
import random
import sys
from collections import Counter
from ctypes import CDLL, POINTER, addressof, c_char_p, c_size_t, c_uint32, c_uint64, cast
from pathlib import Path

from boundary import Answer, Engine, Refusal, places, with_lengths

sys.path.insert(0, str(Path(__file__).parents[2]))
from reference_model.basis import check_run
from reference_model.refusals import Refusal as Refused, outcome
from reference_model.roll import GREATEST_PENSION, MOST_MEMBERS, Join, Leave, Roll
from reference_model.roll_calls import BAD_YEARS, EMPTYING, FILLING, FULL, MIXED, YEARS, Caller, Open, Total, any_numbers
from reference_model.roll_numbers import COUNT, LENGTH, check_length, open_numbers, read_numbers, wrapped, write_members

GUARD = [0xA5A5A5A5A5A5A5A5] * 64  # before and behind what is lent
NUMBERS = POINTER(c_uint64)

# What each call gives, and what it takes.
BASIS = [c_char_p, c_size_t]
FUNCTIONS = {
    Open: ("roll_open", Refusal, [c_uint32, NUMBERS, c_size_t]),
    Join: ("roll_join", Answer, BASIS + BASIS + [NUMBERS, c_size_t] + [c_uint32] * 3),
    Leave: ("roll_leave", Answer, [NUMBERS, c_size_t, c_uint32]),
    Total: ("roll_total", Answer, [NUMBERS, c_size_t]),
}

# What must have come up in a run, or it has shown too little.
JOIN_REFUSALS = (11, 16, 14, "pension's 5", 1, 4, 5, 13, 2, 3, "history's 4", "history's 5", 6, 7, 9, 10)
PROMISED = (
    ["Open answered", "Open 11", "Total answered", "Total 11", "Leave answered", "Leave 11", "Leave 15", "Join answered"]
    + ["Join %s" % refusal for refusal in JOIN_REFUSALS]
    + ["the first left", "the last left", "one between left", "the only one left", "one who left came back",
       "another basis than the member's before", "a pension of 0", "9 or 10 of a pension of 0", "16 on a full roll",
       "an opened roll filled up", "an opened roll full again after a leave", "a leave where the count is above 500",
       "a sum above 8 bytes"])


def kind_of(call, refusal):
    """A refusal by its number, and whose it is where the number does not say it."""
    if isinstance(call, Join) and refusal.number == 5 and call.pension > GREATEST_PENSION:
        return "pension's 5"
    if isinstance(call, Join) and refusal.number in (4, 5) and outcome(check_run, call.run) is None:
        return "history's %d" % refusal.number
    return str(refusal.number)


class Walk:
    """One list of numbers, lent to one call after another, and the roll that these calls lead to."""

    def __init__(self, functions, seen, numbers):
        self.functions, self.seen = functions, seen
        self.numbers = list(numbers)
        self.lent = (c_uint64 * (len(numbers) + 2 * len(GUARD)))(*GUARD, *numbers, *GUARD)
        self.roll = read_numbers(numbers) if len(numbers) >= LENGTH else Roll(0)
        self.opened = self.was_full = False
        self.left, self.bases = set(), {}

    def worked_out(self, call):
        """The answer, a number, or the refusal; of an answered call the numbers are written down."""
        check_length(len(self.numbers))
        if isinstance(call, Open):
            self.roll = Roll(call.year)
            open_numbers(call.year, self.numbers)
            return 0
        if isinstance(call, Total):
            return wrapped(self.roll.total())
        value = wrapped(self.roll.call(call))
        write_members(self.roll, self.numbers)
        return value

    def asked(self, call):
        """What the library gives: number and places, and the value, 0 of an opening."""
        numbers = cast(addressof(self.lent) + 8 * len(GUARD), NUMBERS), len(self.numbers)
        function = self.functions[type(call)]
        if isinstance(call, Open):
            return places(function(call.year, *numbers)), 0
        lent = with_lengths(call.run, call.history) if isinstance(call, Join) else []
        rest = {Join: call[2:], Leave: call[:], Total: ()}[type(call)]
        answer = function(*lent, *numbers, *rest)
        return places(answer.refusal), answer.value

    def differs(self, call):
        """The call to both; what differs, or nothing."""
        before, count = list(self.roll.members), self.numbers[COUNT] if len(self.numbers) > COUNT else 0
        wanted = outcome(self.worked_out, call)
        self.note(call, wanted, before, count)
        found = self.asked(call)
        expected = (wanted.numbers(), 0) if isinstance(wanted, Refused) else ((0, 0, 0), wanted)
        if found != expected:
            return f"{found}, not {expected}"
        numbers = GUARD + self.numbers + GUARD
        if self.lent[:] != numbers:
            place = next(i for i, (one, other) in enumerate(zip(self.lent, numbers)) if one != other)
            return f"number {place - len(GUARD)} is {self.lent[place]}, not {numbers[place]}"
        return None

    def note(self, call, answer, before, count):
        """Counts what came up in this call, before which these members were on the roll, of this count."""
        seen, name = self.seen, type(call).__name__
        if isinstance(answer, Refused):
            seen[f"{name} {kind_of(call, answer)}"] += 1
            seen["16 on a full roll"] += answer.number == 16 and len(before) == MOST_MEMBERS
            seen["9 or 10 of a pension of 0"] += answer.number in (9, 10) and call.pension == 0
            return
        seen[f"{name} answered"] += 1
        seen["a sum above 8 bytes"] += self.roll.total() != wrapped(self.roll.total())
        if isinstance(call, Open):
            self.opened, self.was_full = True, False
            self.left, self.bases = set(), {}
        if isinstance(call, Leave):
            seen["a leave where the count is above 500"] += count > MOST_MEMBERS
            self.note_leave(call, before)
        if isinstance(call, Join):
            self.note_join(call, before)

    def note_leave(self, call, before):
        place = next(i for i, member in enumerate(before) if member.number == call.number)
        where = {(True, True): "the only one", (True, False): "the first", (False, True): "the last"}
        self.seen[where.get((place == 0, place == len(before) - 1), "one between") + " left"] += 1
        self.left.add(call.number)

    def note_join(self, call, before):
        basis = (call.run, call.history)
        fills = self.opened and len(before) == MOST_MEMBERS - 1
        self.seen["an opened roll filled up"] += fills and not self.was_full
        self.seen["an opened roll full again after a leave"] += fills and self.was_full
        self.was_full = self.was_full or fills
        self.seen["one who left came back"] += call.number in self.left
        self.seen["another basis than the member's before"] += self.bases.get(call.number, basis) != basis
        self.seen["a pension of 0"] += call.pension == 0
        self.bases[call.number] = basis


class Check:
    """Lists of calls, until all are done; a list ends at its first difference."""

    def __init__(self, path, seed):
        library = CDLL(path)
        self.functions = {call: Engine.declared(library, *how) for call, how in FUNCTIONS.items()}
        self.draw, self.seed = random.Random(seed), seed
        self.seen, self.lists, self.calls, self.failures = Counter(), 0, 0, 0

    def run(self, numbers, calls):
        """One list; `calls` draws each from the walk as it then stands."""
        walk = Walk(self.functions, self.seen, numbers)
        self.lists += 1
        for place, call in enumerate(calls(walk)):
            self.calls += 1
            different = walk.differs(call)
            if different:
                self.failures += 1
                if self.failures <= 10:
                    shown = type(call).__name__ + str(tuple(call[2:] if isinstance(call, Join) else call))
                    print(f"check_rolls.py: seed {self.seed}, list {self.lists}, call {place}, {shown}: {different}")
                return

    def filled(self, length):
        """A roll that becomes full, stays about full for a while and empties again."""
        caller = Caller(self.draw, 620)

        def calls(walk):
            yield Open(self.draw.choice(YEARS))
            for mood, members in ((FILLING, MOST_MEMBERS), (EMPTYING, 0)):
                while len(walk.roll.members) != members:
                    yield caller.call(walk.roll, mood)
                for _ in range(250):
                    yield caller.call(walk.roll, FULL)
        self.run(any_numbers(self.draw, length), calls)

    def opened(self, year):
        """A roll of a few members, opened anew now and then."""
        caller = Caller(self.draw, 8)

        def calls(walk):
            yield Open(year)
            for mood in (FILLING, MIXED, EMPTYING):
                for _ in range(30):
                    yield caller.call(walk.roll, mood)
                if caller.one_in(4):
                    yield Open(year)
                    yield Total()
        self.run(any_numbers(self.draw, LENGTH), calls)

    def unopened(self, length, many):
        caller = Caller(self.draw, 12)
        self.run(any_numbers(self.draw, length), lambda walk: (caller.call(walk.roll, MIXED) for _ in range(many)))

    def too_short(self, length):
        caller = Caller(self.draw, 12)

        def calls(walk):
            return [Open(2010), caller.join(walk.roll, MIXED), Leave(caller.numbers[0]), Total()] * 2
        self.run(any_numbers(self.draw, length), calls)

    def all(self):
        for length in (LENGTH, LENGTH, LENGTH + 1, LENGTH + 500):
            self.filled(length)
        for _ in range(100):
            self.opened(self.draw.choice(YEARS))
        for year in BAD_YEARS * 2:
            self.opened(year)
        for _ in range(100):
            self.unopened(LENGTH + self.draw.choice((0, 0, 1, 9)), 40)
        for length in (0, 1, 2, 500, LENGTH - 1):
            self.too_short(length)


def main():
    check = Check(sys.argv[1], int(sys.argv[2]) if len(sys.argv) > 2 else 6)
    check.all()
    missing = [what for what in PROMISED if not check.seen[what]]
    for what in missing:
        print(f"check_rolls.py: seed {check.seed}, never came up: {what}")
    failed = check.failures + len(missing)
    print(f"boundary, rolls: {check.calls + len(PROMISED)} checks, {failed} failed")
    return failed != 0


if __name__ == "__main__":
    sys.exit(main())

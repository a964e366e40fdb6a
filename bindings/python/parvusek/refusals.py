"""Refusals: a number and two places, with the sentences of docs/REFUSALS.md."""

SENTENCES: dict[int, str] = {
    # made by tools/make_refusals: sentences
    1: "file not 4,608 or 5,120 bytes, or data run not 4,554 or 5,060",
    2: "a block's check is wrong",
    3: "a block's number is not its place",
    4: "mark or zero bytes wrong",
    5: "a field outside its limits",
    6: "age outside 20 to 150",
    7: "year after 2130, or before B (before both F and B + 1 for an improvement)",
    8: "age + deferment above 150",
    9: "an improvement needed is beyond ±500,000,000",
    10: "a factor needed is above 4 × U",
    11: "lent output too short",
    12: "a line is not of the form asked",
    13: "history not 1,024 bytes for each year from B + 1 to F",
    14: "the roll is full",
    15: "the member number is not on the roll",
    16: "the member number is on the roll already",
    17: "a proportion is no whole per cent",
    # end of what tools/make_refusals makes
}

# What the places of each refusal are; those that are always 0 have no name.
PLACES: dict[int, tuple[str, ...]] = {
    # made by tools/make_refusals: places
    1: (),
    2: ("block",),
    3: ("block",),
    4: ("offset",),
    5: ("offset",),
    6: ("age",),
    7: ("year",),
    8: ("age", "deferment"),
    9: ("age", "year"),
    10: ("age", "year"),
    11: ("needed",),
    12: ("line",),
    13: ("needed",),
    14: ("member",),
    15: ("member",),
    16: ("member",),
    17: ("offset",),
    # end of what tools/make_refusals makes
}

GREATEST_PENSION = 10_000_000


class Refusal(Exception):
    """The engine's refusal of an enquiry, of a basis, of a history or of a call on a roll.

    >>> refusal = Refusal(8, 148, 3)
    >>> refusal.number, refusal.first, refusal.second
    (8, 148, 3)
    >>> str(refusal)
    'refused 8: age + deferment above 150 (age 148, deferment 3)'
    """

    def __init__(self, number: int, first: int = 0, second: int = 0) -> None:
        super().__init__(number, first, second)
        self.number = number
        self.first = first
        self.second = second

    @property
    def sentence(self) -> str:
        """What the refusal says, as in docs/REFUSALS.md."""
        return SENTENCES.get(self.number, "no such refusal")

    @property
    def message(self) -> str:
        """The sentence, with the places by name."""
        places = ", ".join(f"{name} {place}" for name, place
                           in zip(PLACES.get(self.number, ()), (self.first, self.second)))
        return f"{self.sentence} ({places})" if places else self.sentence

    def __str__(self) -> str:
        return f"refused {self.number}: {self.message}"

    def __eq__(self, other: object) -> bool:
        return isinstance(other, Refusal) and self.args == other.args

    def __hash__(self) -> int:
        return hash(self.args)


class PensionRefusal(Refusal):
    """The 5 of a join whose pension is above its limit. Its first place is the member number and not an offset.

    >>> str(PensionRefusal(5, 1001))
    'refused 5: a field outside its limits: the pension is above 10,000,000 pence (member 1001)'
    """

    @property
    def message(self) -> str:
        return f"{self.sentence}: the pension is above {GREATEST_PENSION:,} pence (member {self.first})"

"""A refusal: a number and two places, raised where it is given and compared as a value."""


class Refusal(Exception):
    """The three numbers are all there is; two refusals with the same numbers are equal."""

    def __init__(self, number, first=0, second=0):
        super().__init__(number, first, second)
        self.number, self.first, self.second = number, first, second

    def numbers(self):
        return self.number, self.first, self.second

    def __eq__(self, other):
        return isinstance(other, Refusal) and self.numbers() == other.numbers()

    def __hash__(self):
        return hash(self.numbers())

    def __repr__(self):
        return "Refusal(%d, %d, %d)" % self.numbers()

    def __str__(self):
        return "refused %d %d %d" % self.numbers()

    def again(self):
        """A fresh copy, for raising a refusal that was kept (an exception gathers its history)."""
        return Refusal(*self.numbers())


def outcome(function, *arguments):
    """What the function answers, or the refusal it gives, as a value."""
    try:
        return function(*arguments)
    except Refusal as refusal:
        return refusal.again()

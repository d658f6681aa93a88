"""A model of docs/REFUSALS.md: a refusal has a number, and returns the values that explain it.

Refusal 8, of a text that is no plan, has a form of its own: plans.Fault.
"""

from enum import IntEnum


class Cause(IntEnum):
    """Why something is refused; the value is the refusal's number."""

    NO_SUCH_CELL = 1
    WORD_TOO_WIDE = 2
    NO_EFFORT = 3
    NO_ZONE = 4
    NO_REGISTER = 5
    NO_CELL = 6
    NO_FREE_CELL = 7


class Refusal(Exception):
    """A refusal: its cause, and the values that explain it."""

    def __init__(self, cause, *values):
        super().__init__(cause, *values)
        self.cause = cause
        self.values = values

    def __str__(self):
        """The word `refused`, the number and the values, with a space before each."""
        return " ".join(["refused", str(self.cause.value), *map(str, self.values)])

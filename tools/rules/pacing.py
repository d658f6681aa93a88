"""A model of docs/PACING.md: the start rules, which say when a collection begins, and effort."""

from dataclasses import dataclass

from refusals import Cause, Refusal

# The numbers of cells that an effort may have for a turn.
SHARES = range(1, 65)


class FloorRule:
    """Says yes to the counts at or below its floor and to no other."""

    def __init__(self, floor):
        self.floor = floor

    def ask(self, count):
        """Whether a collection begins at this free count."""
        return count <= self.floor


class PacedRule:
    """Says yes also when it has said no as often as its pace since its last yes."""

    def __init__(self, floor, pace):
        self.floor = floor
        self.pace = pace
        self.tally = 0

    def ask(self, count):
        """Whether a collection begins: a yes sets the tally of noes to 0, a no adds 1."""
        answer = count <= self.floor or self.tally >= self.pace
        self.tally = 0 if answer else self.tally + 1
        return answer


@dataclass(frozen=True)
class Effort:
    """The most cells that a mark turn scans (k1) and that a sweep turn treats (k2).

    A pair outside 1 to 64 is refused with 3, returning both.
    """

    k1: int
    k2: int

    def __post_init__(self):
        if self.k1 not in SHARES or self.k2 not in SHARES:
            raise Refusal(Cause.NO_EFFORT, self.k1, self.k2)

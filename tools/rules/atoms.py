"""A model of docs/ATOMS.md: zones, aspects, and the codes that their kinds give them."""

from dataclasses import dataclass

from refusals import Cause, Refusal

# Zones cover positions below this; a code has the offset of its zone times this.
POSITIONS = 65_536

# The lengths that a zone may have.
LENGTHS = range(1, 65_536)

# The code of each aspect with number 0; 255 more follow. Clear has the code 0.
BASES = {"hold": 256, "occupied": 512}


@dataclass(frozen=True)
class Zone:
    """A stretch of track; a pair that is none is refused with 4, returning both."""

    offset: int
    length: int

    def __post_init__(self):
        if self.length not in LENGTHS or self.offset + self.length > POSITIONS:
            raise Refusal(Cause.NO_ZONE, self.offset, self.length)

    def last(self):
        """The last position covered."""
        return self.offset + self.length - 1

    def __str__(self):
        return f"{self.offset} {self.length}"


class Zones:
    """The kind of zones."""

    def code(self, zone):
        """The code is offset * 65,536 + length."""
        return zone.offset * POSITIONS + zone.length

    def value(self, code):
        """A code has a value where its quotient and its remainder by 65,536 make a zone."""
        try:
            return Zone(*divmod(code, POSITIONS))
        except Refusal:
            return None


@dataclass(frozen=True)
class Aspect:
    """What a signal shows: clear, hold for 0 to 255 seconds, or occupied by train 0 to 255."""

    name: str
    number: int | None = None

    def __str__(self):
        return self.name if self.number is None else f"{self.name} {self.number}"


CLEAR = Aspect("clear")


class Aspects:
    """The kind of aspects."""

    def code(self, aspect):
        """Clear has the code 0, any other its base and its number."""
        return 0 if aspect == CLEAR else BASES[aspect.name] + aspect.number

    def value(self, code):
        """A code has the value whose code it is, and every other code none."""
        if code == 0:
            return CLEAR
        for name, base in BASES.items():
            if base <= code <= base + 255:
                return Aspect(name, code - base)
        return None

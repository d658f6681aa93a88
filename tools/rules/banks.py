"""A model of docs/BANKS.md: words, cells, and banks by what they show, a list of cells and a limit.

A pile of layers is a bank again whose meaning is computed from below. The model makes a pile over
banks of blank cells, keeps what the pile shows, and leaves out the banks below.
"""

from contextlib import suppress
from dataclasses import dataclass, replace
from enum import Enum

from refusals import Cause, Refusal

# The most cells that a bank has.
MOST_CELLS = 4096

# The limit of a packed bank, which has a word's number in 28 bits.
PACKED_LIMIT = 268_435_455

# The limit of a record bank, for which no word is too wide.
RECORD_LIMIT = 4_294_967_295


class Sort(Enum):
    """The four sorts of words."""

    NIL = "nil"
    CELL = "cell"
    ATOM = "atom"
    RESERVED = "reserved"


@dataclass(frozen=True)
class Word:
    """A word; its number is that of the cell or the code of the atom, and 0 for the others."""

    sort: Sort
    number: int = 0

    def __str__(self):
        named = self.sort in (Sort.CELL, Sort.ATOM)
        return f"{self.sort.value} {self.number}" if named else self.sort.value


NIL = Word(Sort.NIL)
RESERVED = Word(Sort.RESERVED)


def cell_word(number):
    """The word that names the cell with this number."""
    return Word(Sort.CELL, number)


def atom_word(code):
    """The word of the atom with this code."""
    return Word(Sort.ATOM, code)


class Field(Enum):
    """The three fields of a cell, in the order in which they are written."""

    CAR = "car"
    CDR = "cdr"
    MARK = "mark"


@dataclass(frozen=True)
class Cell:
    """A cell has a car word, a cdr word and a mark."""

    car: Word
    cdr: Word
    mark: bool

    def __str__(self):
        return f"{self.car}, {self.cdr}" + (", marked" if self.mark else "")


BLANK = Cell(NIL, NIL, False)


class Bank:
    """Cells numbered from 0, and the largest number that a word put into them may have."""

    def __init__(self, memory, limit):
        """Makes a blank cell of each element of a list, up to 4,096; later ones stay."""
        self.memory = memory
        self.limit = limit
        self.size = min(len(memory), MOST_CELLS)
        memory[: self.size] = [BLANK] * self.size

    def cell(self, n):
        """Cell n; a number that is the size or more is refused with 1."""
        if n >= self.size:
            raise Refusal(Cause.NO_SUCH_CELL, n)
        return self.memory[n]

    def set(self, n, field, content):
        """Sets a field: the cell number is looked at first, then a word's number (refusal 2)."""
        cell = self.cell(n)
        if field is not Field.MARK and content.number > self.limit:
            raise Refusal(Cause.WORD_TOO_WIDE, content.number)
        self.memory[n] = replace(cell, **{field.value: content})

    def write_cell(self, n, cell):
        """Sets the three fields of cell n, one after the other, and leaves out what is refused."""
        for field in Field:
            with suppress(Refusal):
                self.set(n, field, getattr(cell, field.value))

    def cells(self):
        """The list of the bank's cells."""
        return self.memory[: self.size]


def packed_bank(memory):
    """A bank that packs a whole cell into each element."""
    return Bank(memory, PACKED_LIMIT)


def record_bank(memory):
    """A bank whose elements are the cells themselves."""
    return Bank(memory, RECORD_LIMIT)


def window(below, offset, length):
    """Shows the cells n below with offset <= n < offset + length; the limit is that of below."""
    return Bank(below.cells()[offset : offset + length], below.limit)


def join(first, second):
    """Shows the cells of the first and then of the second; the limit is the smaller one."""
    return Bank(first.cells() + second.cells(), min(first.limit, second.limit))


def hold(below):
    """Keeps cells of the bank below in 16 places, and shows the same cells with the same limit."""
    return Bank(below.cells(), below.limit)

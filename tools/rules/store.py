"""A model of docs/COLLECTOR.md: a store of cells with sixteen registers, its turn and its calls.

The store keeps cells in a bank, and collects them a few at a time: each cons makes one turn.
"""

from dataclasses import dataclass
from enum import Enum

from atoms import Zone
from banks import MOST_CELLS, NIL, RESERVED, Cell, Field, Sort, atom_word, cell_word
from refusals import Cause, Refusal

# How many registers a store has. They are the roots.
REGISTERS = 16


class Phase(Enum):
    """What the collector is doing."""

    IDLE = "idle"
    MARK = "mark"
    SWEEP = "sweep"


class Seen(Enum):
    """What a look tells of a register that holds no atom."""

    NIL = "nil"
    CELL = "cell"


@dataclass(frozen=True)
class Work:
    """The answer to a cons: how many cells its turn scanned or treated."""

    cells: int


@dataclass(frozen=True)
class Call:
    """A call on a store: its name and what is written after it."""

    name: str
    arguments: tuple

    def __str__(self):
        return " ".join([self.name, *map(str, self.arguments)])


def answer_text(answer):
    """The line that answers a call (docs/PLANS.md): `ok` where there is nothing to tell."""
    match answer:
        case None:
            return "ok"
        case bool():
            return "yes" if answer else "no"
        case Work(cells):
            return f"ok {cells}"
        case Seen():
            return answer.value
        case Zone():
            return f"zone {answer}"
        case _:
            return str(answer)


class Store:
    """A store over a bank, with a kind of atom, a start rule and an effort."""

    def __init__(self, bank, kind, rule, effort):
        """Makes a new store: every cell is free, linked in order through the cars."""
        self.bank = bank
        self.kind = kind
        self.rule = rule
        self.effort = effort
        self.registers = [NIL] * REGISTERS
        self.phase = Phase.IDLE
        self.sweeper = bank.size
        self.waiting = []
        self.free_head = cell_word(0) if bank.size else NIL
        self.free_count = bank.size
        for n in range(bank.size):
            following = cell_word(n + 1) if n + 1 < bank.size else NIL
            bank.write_cell(n, Cell(following, RESERVED, False))

    # The turn.

    def turn(self):
        """Makes the turn of the phase, and returns its work."""
        match self.phase:
            case Phase.IDLE:
                return self.idle_turn()
            case Phase.MARK:
                return self.mark_turn()
            case Phase.SWEEP:
                return self.sweep_turn()

    def offer(self, word):
        """Marks the cell that a word names and lets it wait, if it is unmarked."""
        if word.sort is Sort.CELL and not self.bank.cell(word.number).mark:
            self.bank.set(word.number, Field.MARK, True)
            self.waiting.append(word.number)

    def idle_turn(self):
        """Asks the start rule; on yes a collection begins, and the registers are offered."""
        if self.rule.ask(self.free_count):
            self.phase = Phase.MARK
            self.sweeper = 0
            for word in self.registers:
                self.offer(word)
        return 0

    def mark_turn(self):
        """Scans up to k1 cells, the latest first: the car is offered, then the cdr."""
        scanned = 0
        while scanned < self.effort.k1 and self.waiting:
            cell = self.bank.cell(self.waiting.pop())
            self.offer(cell.car)
            self.offer(cell.cdr)
            scanned += 1
        if not self.waiting:
            self.phase = Phase.SWEEP
        return scanned

    def sweep_turn(self):
        """Treats up to k2 cells, from the sweeper on."""
        treated = 0
        while treated < self.effort.k2 and self.sweeper < self.bank.size:
            self.treat(self.sweeper)
            self.sweeper += 1
            treated += 1
        if self.sweeper == self.bank.size:
            self.phase = Phase.IDLE
        return treated

    def treat(self, n):
        """Unmarks a marked cell, leaves a free one, and makes any other the free list's head."""
        cell = self.bank.cell(n)
        if cell.mark:
            self.bank.set(n, Field.MARK, False)
        elif cell.cdr != RESERVED:
            self.bank.write_cell(n, Cell(self.free_head, RESERVED, False))
            self.free_head = cell_word(n)
            self.free_count = min(self.free_count + 1, MOST_CELLS)

    # The ten calls.

    def load(self, i, value):
        """Register i gets the atom of the value's code; a code above the limit is refused."""
        self.check(i)
        code = self.kind.code(value)
        if code > self.bank.limit:
            raise Refusal(Cause.WORD_TOO_WIDE, code)
        self.registers[i] = atom_word(code)

    def clear(self, i):
        """Register i gets nil."""
        self.check(i)
        self.registers[i] = NIL

    def copy(self, i, a):
        """Register i gets register a's word."""
        self.check(i, a)
        self.registers[i] = self.registers[a]

    def cons(self, i, a, b):
        """Makes a turn; then register i gets a new cell, or the turn's work is refused with 7."""
        self.check(i, a, b)
        work = self.turn()
        if self.free_count == 0:
            raise Refusal(Cause.NO_FREE_CELL, work)
        taken = self.take(self.registers[a], self.registers[b])
        self.registers[i] = cell_word(taken)
        return Work(work)

    def car(self, i, a):
        """Register i gets the car of the cell that register a names."""
        self.read(Field.CAR, i, a)

    def cdr(self, i, a):
        """Register i gets the cdr of the cell that register a names."""
        self.read(Field.CDR, i, a)

    def rplaca(self, a, b):
        """The car of the cell that register a names becomes register b's word."""
        self.replace(Field.CAR, a, b)

    def rplacd(self, a, b):
        """The cdr of the cell that register a names becomes register b's word."""
        self.replace(Field.CDR, a, b)

    def look(self, i):
        """Tells nil, cell, or the atom's value."""
        self.check(i)
        word = self.registers[i]
        match word.sort:
            case Sort.NIL:
                return Seen.NIL
            case Sort.CELL:
                return Seen.CELL
            case _:
                return self.kind.value(word.number)

    def same(self, i, j):
        """Says yes exactly for two nils, one cell, or equal codes."""
        self.check(i, j)
        return self.registers[i] == self.registers[j]

    def apply(self, call):
        """Makes a call, and returns its answer or its refusal."""
        try:
            return getattr(self, call.name)(*call.arguments)
        except Refusal as refusal:
            return refusal

    # What the calls are made of.

    def check(self, *registers):
        """Refuses the first register number of 16 or more, in the order of the call."""
        for register in registers:
            if register >= REGISTERS:
                raise Refusal(Cause.NO_REGISTER, register)

    def cell_in(self, a):
        """The number of the cell that register a names; refused with 6 if it names none."""
        word = self.registers[a]
        if word.sort is not Sort.CELL:
            raise Refusal(Cause.NO_CELL, a)
        return word.number

    def take(self, car, cdr):
        """Takes the free list's head; it is marked exactly if it is the sweeper or above."""
        taken = self.free_head.number
        self.free_head = self.bank.cell(taken).car
        self.free_count -= 1
        self.bank.write_cell(taken, Cell(car, cdr, taken >= self.sweeper))
        return taken

    def read(self, field, i, a):
        """Register i gets a word of the cell that register a names."""
        self.check(i, a)
        cell = self.bank.cell(self.cell_in(a))
        self.registers[i] = getattr(cell, field.value)

    def replace(self, field, a, b):
        """Replaces a word of a cell; in the mark phase the old word is offered first."""
        self.check(a, b)
        n = self.cell_in(a)
        if self.phase is Phase.MARK:
            self.offer(getattr(self.bank.cell(n), field.value))
        self.bank.set(n, field, self.registers[b])


def run(store, calls):
    """Makes the calls in order, and returns their answers."""
    return [store.apply(call) for call in calls]

"""A model of docs/PLANS.md: how a plan is read, where its fault is, and how it is answered."""

import re
from dataclasses import dataclass

from atoms import Zone, Zones
from banks import packed_bank
from pacing import Effort, FloorRule
from refusals import Refusal
from store import Call, Store, answer_text

# The most bytes that a plan has.
MOST_BYTES = 32_768

# The lines that may stand first, and how many numbers each has.
OPENINGS = {"store": 4}

# The lines that may stand later, and how many numbers each has.
CALLS = {
    "load": 3,
    "clear": 1,
    "copy": 2,
    "cons": 3,
    "car": 2,
    "cdr": 2,
    "rplaca": 2,
    "rplacd": 2,
    "look": 1,
    "same": 2,
}

# How a number is written: one to five digits and no leading zero, save 0 itself.
NUMBER = re.compile("0|[1-9][0-9]{0,4}")


@dataclass(frozen=True)
class Line:
    """A line of a plan: its name and its numbers."""

    name: str
    numbers: tuple[int, ...]


@dataclass(frozen=True)
class Fault:
    """Where a text stops being a plan: line and column from 1, or 0 and 0 for one too long."""

    line: int
    column: int

    def __str__(self):
        return f"fault {self.line} {self.column}"


def is_number(text):
    """Whether a text is a number of a plan."""
    return NUMBER.fullmatch(text) is not None


def begins_line(text, names):
    """Whether some line with one of these names begins with the text."""
    name, *numbers = text.removesuffix("\n").split(" ")
    if text.endswith("\n"):
        return names.get(name) == len(numbers) and all(map(is_number, numbers))
    if not numbers:
        return any(known.startswith(name) for known in names)
    *ended, last = numbers
    return (
        len(numbers) <= names.get(name, 0)
        and all(map(is_number, ended))
        and (last == "" or is_number(last))
    )


def fault_column(text, names):
    """The place of the first byte with which no line goes on, or None if the text is a line."""
    for column in range(1, len(text) + 1):
        if not begins_line(text[:column], names):
            return column
    return None if text.endswith("\n") else len(text) + 1


def lines_of(text):
    """The lines with their ends, and what stands after the last end; a plan has at least one."""
    *ended, rest = text.split("\n")
    lines = [line + "\n" for line in ended]
    return lines + [rest] if rest or not lines else lines


def read_plan(plan):
    """The lines before the first fault, and the fault, if there is one."""
    if len(plan) > MOST_BYTES:
        return [], Fault(0, 0)
    lines = []
    for text in lines_of(plan.decode("latin-1")):
        names = CALLS if lines else OPENINGS
        column = fault_column(text, names)
        if column is not None:
            return lines, Fault(len(lines) + 1, column)
        name, *numbers = text.split()
        lines.append(Line(name, tuple(map(int, numbers))))
    return lines, None


def new_store(cells, k1, k2, floor):
    """The store that a store line asks for; the bank has 4,096 cells at most."""
    return Store(packed_bank([0] * cells), Zones(), FloorRule(floor), Effort(k1, k2))


def call_of(line):
    """The call that a line asks for: the last two numbers of a load make a zone."""
    if line.name != "load":
        return Call(line.name, line.numbers)
    register, offset, length = line.numbers
    return Call(line.name, (register, Zone(offset, length)))


def answer_line(store, line):
    """The answer to a line: a load is refused for its zone before it is a call."""
    try:
        return answer_text(store.apply(call_of(line)))
    except Refusal as refusal:
        return str(refusal)


def answer_plan(plan):
    """The answers to a plan's lines, and then its fault; nothing after a refused store line."""
    lines, fault = read_plan(plan)
    answers = []
    if lines:
        try:
            store = new_store(*lines[0].numbers)
        except Refusal as refusal:
            return f"{refusal}\n"
        answers.append("ok")
        answers.extend(answer_line(store, line) for line in lines[1:])
    if fault is not None:
        answers.append(str(fault))
    return "".join(f"{answer}\n" for answer in answers)

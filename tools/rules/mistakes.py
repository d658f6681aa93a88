#!/usr/bin/env python3
"""Puts mistakes into the model of the rules, one at a time, and tells which change what it prints.

    python3 tools/rules/mistakes.py

The model is copied to a temporary folder, a text of one file is replaced there by another, and the
cases are worked through. What they print is laid beside the expected text, crates/cases/stdout.
Two minutes.
"""

import shutil
import subprocess
import sys
import tempfile
from itertools import zip_longest
from pathlib import Path

MODEL = Path(__file__).resolve().parent
EXPECTED = MODEL.parents[1] / "crates" / "cases" / "stdout"
MOST_SECONDS = 60

# For each file of the model, its mistakes: what is wrong, in plain words, and a text of the file
# with the text that stands in its place.
MISTAKES = {
    "store.py": [
        # The turn.
        ("registers are offered from 15 down",
         "for word in self.registers:",
         "for word in reversed(self.registers):"),
        ("register 15 is not offered",
         "for word in self.registers:",
         "for word in self.registers[:15]:"),
        ("a collection begins with the sweeper where it was",
         "            self.sweeper = 0\n",
         ""),
        ("the turn that begins a collection has work 1",
         "                self.offer(word)\n"
         "        return 0",
         "                self.offer(word)\n"
         "            return 1\n"
         "        return 0"),
        ("the start rule is asked in the mark phase too",
         "        scanned = 0\n",
         "        scanned = 0\n"
         "        self.rule.ask(self.free_count)\n"),
        ("the start rule is asked in the sweep phase too",
         "        treated = 0\n",
         "        treated = 0\n"
         "        self.rule.ask(self.free_count)\n"),
        ("the cell that waits longest is scanned first",
         "self.waiting.pop()",
         "self.waiting.pop(0)"),
        ("the cdr is offered before the car",
         "            self.offer(cell.car)\n"
         "            self.offer(cell.cdr)\n",
         "            self.offer(cell.cdr)\n"
         "            self.offer(cell.car)\n"),
        ("only the car is offered",
         "            self.offer(cell.cdr)\n",
         ""),
        ("only the cdr is offered",
         "            self.offer(cell.car)\n",
         ""),
        ("the sweep phase begins a turn later",
         "if not self.waiting:",
         "if scanned == 0:"),
        ("k1 and k2 are exchanged",
         "        self.effort = effort\n",
         "        self.effort = type(effort)(effort.k2, effort.k1)\n"),
        ("a swept cell keeps its mark",
         "self.bank.set(n, Field.MARK, False)",
         "pass"),
        ("a free cell that is swept is freed again",
         "elif cell.cdr != RESERVED:",
         "else:"),
        ("a freed cell is not linked to the free list",
         "Cell(self.free_head, RESERVED, False)",
         "Cell(NIL, RESERVED, False)"),
        ("a freed cell is not counted",
         "            self.free_count = min(self.free_count + 1, MOST_CELLS)\n",
         ""),
        ("the idle phase begins a turn later",
         "if self.sweeper == self.bank.size:",
         "if treated == 0:"),
        # Cons.
        ("cons checks its registers from the last",
         "self.check(i, a, b)",
         "self.check(b, a, i)"),
        ("cons checks register a before register i",
         "self.check(i, a, b)",
         "self.check(a, b, i)"),
        ("cons makes its turn before it checks its registers",
         "        self.check(i, a, b)\n"
         "        work = self.turn()\n",
         "        work = self.turn()\n"
         "        self.check(i, a, b)\n"),
        ("refusal 7 returns 0 for the work",
         "raise Refusal(Cause.NO_FREE_CELL, work)",
         "raise Refusal(Cause.NO_FREE_CELL, 0)"),
        ("cons looks at the free count before its turn",
         "        work = self.turn()\n"
         "        if self.free_count == 0:",
         "        count = self.free_count\n"
         "        work = self.turn()\n"
         "        if count == 0:"),
        ("cons exchanges the two words",
         "self.take(self.registers[a], self.registers[b])",
         "self.take(self.registers[b], self.registers[a])"),
        ("a cell taken at the sweeper is not marked",
         "taken >= self.sweeper",
         "taken > self.sweeper"),
        ("a taken cell is always marked",
         "taken >= self.sweeper",
         "True"),
        ("a taken cell is never marked",
         "taken >= self.sweeper",
         "False"),
        ("a taken cell is marked at the sweeper and below it",
         "taken >= self.sweeper",
         "taken <= self.sweeper"),
        # The other calls.
        ("load looks at the code before the register",
         "        self.check(i)\n"
         "        code = self.kind.code(value)\n"
         "        if code > self.bank.limit:\n"
         "            raise Refusal(Cause.WORD_TOO_WIDE, code)\n",
         "        code = self.kind.code(value)\n"
         "        if code > self.bank.limit:\n"
         "            raise Refusal(Cause.WORD_TOO_WIDE, code)\n"
         "        self.check(i)\n"),
        # No example can show this one: no zone and no aspect has the limit of a bank for its code.
        # 268,435,455 would be the offset 4,095 with the length 65,535, and 4,294,967,295 the offset
        # 65,535 with that length.
        ("load refuses the limit itself",
         "if code > self.bank.limit:",
         "if code >= self.bank.limit:"),
        ("load takes any code",
         "if code > self.bank.limit:",
         "if False:"),
        ("clear puts reserved into the register",
         "        self.check(i)\n"
         "        self.registers[i] = NIL\n",
         "        self.check(i)\n"
         "        self.registers[i] = RESERVED\n"),
        ("copy goes the other way",
         "self.registers[i] = self.registers[a]",
         "self.registers[a] = self.registers[i]"),
        ("car and cdr check register a first",
         "        self.check(i, a)\n"
         "        cell =",
         "        self.check(a, i)\n"
         "        cell ="),
        ("cdr reads the car",
         "self.read(Field.CDR, i, a)",
         "self.read(Field.CAR, i, a)"),
        ("rplacd replaces the car",
         "self.replace(Field.CDR, a, b)",
         "self.replace(Field.CAR, a, b)"),
        ("rplaca and rplacd look for the cell before register b is checked",
         "        self.check(a, b)\n"
         "        n = self.cell_in(a)\n",
         "        self.check(a)\n"
         "        n = self.cell_in(a)\n"
         "        self.check(b)\n"),
        ("a replacement offers nothing",
         "            self.offer(getattr(self.bank.cell(n), field.value))\n",
         "            pass\n"),
        ("a replacement offers the new word",
         "self.offer(getattr(self.bank.cell(n), field.value))",
         "self.offer(self.registers[b])"),
        ("a replacement offers the old word in the sweep phase too",
         "if self.phase is Phase.MARK:",
         "if self.phase is not Phase.IDLE:"),
        ("a replacement offers the old word in the idle phase too",
         "if self.phase is Phase.MARK:",
         "if self.phase is not Phase.SWEEP:"),
        ("same says yes for any two words of one sort",
         "return self.registers[i] == self.registers[j]",
         "return self.registers[i].sort == self.registers[j].sort"),
        ("same says no for two nils",
         "return self.registers[i] == self.registers[j]",
         "return self.registers[i] == self.registers[j] != NIL"),
        ("same compares the numbers of two words alone",
         "return self.registers[i] == self.registers[j]",
         "return self.registers[i].number == self.registers[j].number"),
    ],
    "pacing.py": [
        ("the floor rule says no at its floor",
         "return count <= self.floor",
         "return count < self.floor"),
        ("the paced rule says no at its floor",
         "answer = count <= self.floor",
         "answer = count < self.floor"),
        ("the paced rule keeps its tally at a yes for the floor",
         "        self.tally = 0 if answer else self.tally + 1\n",
         "        if count > self.floor:\n"
         "            self.tally = 0 if answer else self.tally + 1\n"),
        ("the paced rule says one no more than its pace",
         "self.tally >= self.pace",
         "self.tally > self.pace"),
        ("the paced rule never sets its tally back",
         "self.tally = 0 if answer else self.tally + 1",
         "self.tally += not answer"),
        ("65 is an effort",
         "SHARES = range(1, 65)",
         "SHARES = range(1, 66)"),
        ("64 is no effort",
         "SHARES = range(1, 65)",
         "SHARES = range(1, 64)"),
        ("0 is an effort",
         "SHARES = range(1, 65)",
         "SHARES = range(65)"),
    ],
    "atoms.py": [
        ("a zone ends one position earlier",
         "self.offset + self.length > POSITIONS",
         "self.offset + self.length >= POSITIONS"),
        ("a zone may have the length 65,536",
         "LENGTHS = range(1, 65_536)",
         "LENGTHS = range(1, 65_537)"),
        ("a zone may have the length 0",
         "LENGTHS = range(1, 65_536)",
         "LENGTHS = range(65_536)"),
        ("refusal 4 returns the length first",
         "Refusal(Cause.NO_ZONE, self.offset, self.length)",
         "Refusal(Cause.NO_ZONE, self.length, self.offset)"),
        ("a zone's last position is its end",
         "return self.offset + self.length - 1",
         "return self.offset + self.length"),
        ("the codes of hold and occupied are exchanged",
         '{"hold": 256, "occupied": 512}',
         '{"hold": 512, "occupied": 256}'),
        ("the code before an aspect's codes has its value too",
         "if base <= code <= base + 255:",
         "if base - 1 <= code <= base + 255:"),
        ("the code after an aspect's codes has its value too",
         "if base <= code <= base + 255:",
         "if base <= code <= base + 256:"),
    ],
    "banks.py": [
        ("a bank has 4,095 cells at most",
         "MOST_CELLS = 4096",
         "MOST_CELLS = 4095"),
        ("a bank has 4,097 cells at most",
         "MOST_CELLS = 4096",
         "MOST_CELLS = 4097"),
        ("a bank takes the number after its last cell",
         "if n >= self.size:",
         "if n > self.size:"),
        ("a bank looks at the word before the cell number",
         "        cell = self.cell(n)\n"
         "        if field is not Field.MARK and content.number > self.limit:\n"
         "            raise Refusal(Cause.WORD_TOO_WIDE, content.number)\n",
         "        if field is not Field.MARK and content.number > self.limit:\n"
         "            raise Refusal(Cause.WORD_TOO_WIDE, content.number)\n"
         "        cell = self.cell(n)\n"),
        ("a bank refuses the limit itself",
         "content.number > self.limit",
         "content.number >= self.limit"),
        ("a bank takes any word",
         "if field is not Field.MARK and content.number > self.limit:",
         "if False:"),
        ("a window begins one cell later",
         "below.cells()[offset : offset + length]",
         "below.cells()[offset + 1 : offset + length]"),
        ("a window ends at its length",
         "below.cells()[offset : offset + length]",
         "below.cells()[offset:length]"),
        ("a join has the larger limit",
         "min(first.limit, second.limit)",
         "max(first.limit, second.limit)"),
        ("a join has the first bank's limit",
         "min(first.limit, second.limit)",
         "first.limit"),
        ("a join has the second bank's limit",
         "min(first.limit, second.limit)",
         "second.limit"),
    ],
    "plans.py": [
        ("a plan may have one byte more",
         "MOST_BYTES = 32_768",
         "MOST_BYTES = 32_769"),
        ("a plan may have one byte less",
         "MOST_BYTES = 32_768",
         "MOST_BYTES = 32_767"),
        ("a number may begin with a zero",
         '"0|[1-9][0-9]{0,4}"',
         '"[0-9]{1,5}"'),
        ("a number may have six digits",
         '"0|[1-9][0-9]{0,4}"',
         '"0|[1-9][0-9]{0,5}"'),
        ("a number has four digits at most",
         '"0|[1-9][0-9]{0,4}"',
         '"0|[1-9][0-9]{0,3}"'),
        ("a tab may stand before a number",
         'text.removesuffix("\\n").split(" ")',
         'text.removesuffix("\\n").replace("\\t", " ").split(" ")'),
        ("a fault is found only at the end of a line",
         "    for column in range(1, len(text) + 1):",
         "    for column in range(len(text), len(text) + 1):"),
        ("a store line may stand later too",
         "names = CALLS if lines else OPENINGS",
         "names = {**CALLS, **OPENINGS} if lines else OPENINGS"),
        ("any line may stand first",
         "names = CALLS if lines else OPENINGS",
         "names = CALLS if lines else {**CALLS, **OPENINGS}"),
        ("the name of a line may be cut short",
         "len(numbers) <= names.get(name, 0)",
         "any(known.startswith(name) for known in names)"),
        ("a line may have numbers too many before its end",
         "len(numbers) <= names.get(name, 0)",
         "name in names"),
        ("an empty plan has no fault",
         "return lines + [rest] if rest or not lines else lines",
         "return lines + [rest] if rest else lines"),
        ("a line without its end is whole",
         'return None if text.endswith("\\n") else len(text) + 1',
         "return None if text else 1"),
        ("a column counts from 0",
         "Fault(len(lines) + 1, column)",
         "Fault(len(lines) + 1, column - 1)"),
        ("a fault's line counts from 0",
         "Fault(len(lines) + 1, column)",
         "Fault(len(lines), column)"),
        ("a fault is answered alone",
         "        answers.append(str(fault))",
         "        answers = [str(fault)]"),
        ("a fault after a refused store line is answered too",
         '            return f"{refusal}\\n"',
         '            return f"{refusal}\\n" + (f"{fault}\\n" if fault else "")'),
        ("a load looks at its register before its zone",
         "        return answer_text(store.apply(call_of(line)))\n",
         '        if line.name == "load":\n'
         "            store.check(line.numbers[0])\n"
         "        return answer_text(store.apply(call_of(line)))\n"),
        ("a store line has the floor before the effort",
         "def new_store(cells, k1, k2, floor):",
         "def new_store(cells, floor, k1, k2):"),
    ],
}


def work_through(folder):
    """What the cases in a folder print, line by line; what stops them is told in a last line."""
    command = [sys.executable, "-B", folder / "cases.py"]
    try:
        done = subprocess.run(
            command, capture_output=True, text=True, timeout=MOST_SECONDS, check=False
        )
    except subprocess.TimeoutExpired:
        return ["(does not end)"]
    lines = done.stdout.splitlines()
    if done.returncode != 0:
        lines.append(f"(stops: {done.stderr.splitlines()[-1]})")
    return lines


def work_through_with(file, old, new):
    """What the cases print when a copy of the model has a new text in place of an old one."""
    text = (MODEL / file).read_text()
    if text.count(old) != 1:
        sys.exit(f"{file} must have this text once: {old}")
    with tempfile.TemporaryDirectory() as folder:
        copy = Path(folder)
        for source in MODEL.glob("*.py"):
            shutil.copy(source, copy)
        (copy / file).write_text(text.replace(old, new))
        return work_through(copy)


def first_difference(expected, printed):
    """The number of the first line that differs, with the two lines, or None."""
    pairs = zip_longest(expected, printed, fillvalue="(no line)")
    for number, (line, other) in enumerate(pairs, 1):
        if line != other:
            return number, line, other
    return None


def main():
    """Prints each mistake with the first line that it changes, and at the end the counts."""
    expected = EXPECTED.read_text().splitlines()
    if work_through(MODEL) != expected:
        sys.exit(f"without a mistake the cases do not print {EXPECTED}")
    changed = stayed = 0
    for file, rows in MISTAKES.items():
        for name, old, new in rows:
            difference = first_difference(expected, work_through_with(file, old, new))
            if difference is None:
                stayed += 1
                print(f"{name}: the text stays", flush=True)
            else:
                changed += 1
                number, line, other = difference
                print(f"{name}: line {number}\n  - {line}\n  + {other}", flush=True)
    print(f"{changed + stayed} mistakes: {changed} change the text, {stayed} do not")


if __name__ == "__main__":
    main()

#!/usr/bin/env python3
"""Works through the cases of the rules and prints the text that crates/cases must print.

    python3 tools/rules/cases.py | diff - crates/cases/stdout

The answers come from the model of the rules beside this file. The groups are worked through in the
order of crates/cases/src/main.rt.
"""

from atoms import CLEAR, Aspect, Aspects, Zone, Zones
from banks import (
    NIL,
    RESERVED,
    Field,
    atom_word,
    cell_word,
    hold,
    join,
    packed_bank,
    record_bank,
    window,
)
from pacing import Effort, FloorRule, PacedRule
from plans import Line, answer_plan, call_of
from refusals import Refusal
from store import Store, answer_text, run

LARGEST = 4_294_967_295

# What is printed, and how.


def packed(size):
    """A packed bank of so many cells."""
    return packed_bank([0] * size)


def record(size):
    """A record bank of so many cells."""
    return record_bank([0] * size)


def zone_store(bank, floor, k1, k2):
    """A new store of zones under the floor rule."""
    return Store(bank, Zones(), FloorRule(floor), Effort(k1, k2))


def calls_in(text):
    """The calls of a text; a semicolon stands between two."""
    lines = [line.split() for line in text.split(";") if line.strip()]
    return [call_of(Line(name, tuple(map(int, numbers)))) for name, *numbers in lines]


def times(number, text):
    """A text with a call so many times over."""
    return "; ".join([text] * number)


def place(store):
    """Where a store's collector stands."""
    return f"{store.phase.value}, sweeper {store.sweeper}, free {store.free_count}"


def make(store, text):
    """Makes calls, and prints of each its answer and where the collector then stands."""
    for call in calls_in(text):
        print(f"  {call}: {answer_text(store.apply(call))}; {place(store)}")


def count(store, number, text):
    """Makes one call so many times, and prints the counts of the answers alone."""
    (call,) = calls_in(text)
    refused = sum(isinstance(store.apply(call), Refusal) for _ in range(number))
    answers = f"{number - refused} accepted, {refused} refused"
    print(f"  {call}, {number} in a row: {answers}; {place(store)}")


def show(bank, numbers):
    """Prints some cells of a bank."""
    for n in numbers:
        print(f"  cell {n}: {told(bank.cell, n)}")


def told(function, *arguments):
    """The text of what a function answers, or of its refusal."""
    try:
        return answer_text(function(*arguments))
    except Refusal as refusal:
        return str(refusal)


def example(title, store, *steps):
    """Prints a title and works through steps: a text of calls, or the numbers of cells to show."""
    print(title)
    for step in steps:
        if isinstance(step, str):
            make(store, step)
        else:
            show(store.bank, step)


# refusals: every refusal of every call, and which of two is told.


def refusals():
    """The refusals of the calls, of banks, of zones and of efforts."""
    call_refusals()
    cell_refusals()
    for name, bank in (("packed", packed), ("record", record)):
        example(
            f"refusals: codes over a {name} bank",
            zone_store(bank(2), 0, 1, 1),
            "load 0 4095 61441; look 0; load 0 4096 1; look 0; load 0 65535 1; look 0",
        )
    for name, bank in (("packed", packed), ("record", record)):
        print(f"refusals: a {name} bank of two cells")
        changes(bank(2))
    no_zones()
    no_efforts()


def call_refusals():
    """Register numbers of 16 or more, and registers that name no cell."""
    # The floor lets every turn of an idle store begin a collection: that none does shows that no
    # turn was made.
    example(
        "refusals: one bad register",
        zone_store(packed(4), 4, 1, 1),
        "load 16 120 80; clear 16; copy 16 0; copy 0 16; cons 16 0 0; cons 0 16 0; cons 0 0 16",
        "car 16 0; car 0 16; cdr 16 0; cdr 0 16; rplaca 16 0; rplaca 0 16; rplacd 16 0",
        "rplacd 0 16; look 16; same 16 0; same 0 16; clear 4294967295; clear 15",
    )
    example(
        "refusals: several bad registers, the first is told",
        zone_store(packed(4), 4, 1, 1),
        "copy 17 16; cons 18 17 16; cons 0 17 16; cons 18 0 16; car 17 16; cdr 17 16",
        "rplaca 17 16; rplacd 17 16; same 17 16; load 16 4096 1",
    )
    example(
        "refusals: a cons refused for its register makes no turn",
        zone_store(packed(4), 4, 1, 1),
        "cons 16 0 0; cons 0 0 0; cons 1 16 0; cons 1 0 0; cons 2 0 16; cons 2 0 0",
    )
    example(
        "refusals: no cell in the register",
        zone_store(packed(4), 0, 1, 1),
        "load 1 120 80; car 5 0; car 5 1; cdr 5 0; cdr 5 1; rplaca 0 1; rplaca 1 0; rplacd 0 1",
        "rplacd 1 0; look 5; look 1; cons 2 1 0; car 5 2; look 5; cdr 5 2; look 5; car 2 2",
        "car 2 2",
    )


def cell_refusals():
    """No free cell: the refusal has the turn's work, and the turn stands."""
    example(
        "refusals: no free cell, and the turn stands",
        zone_store(packed(2), 0, 1, 1),
        "load 2 120 80; cons 0 2 15; cons 0 0 15",
        "cons 1 0 0",
        [0, 1],
        times(2, "cons 1 0 0"),
        [0, 1],
        times(2, "cons 1 0 0"),
        "look 1; car 3 0; car 3 3; look 3",
        [0, 1],
    )
    example(
        "refusals: no free cell, the largest effort",
        zone_store(packed(2), 0, 64, 64),
        "cons 0 15 15; cons 0 0 15",
        times(4, "cons 1 0 0"),
    )


CHANGES = (
    (2, Field.CAR, atom_word(268_435_456)),
    (LARGEST, Field.CDR, atom_word(LARGEST)),
    (2, Field.MARK, True),
    (1, Field.CAR, atom_word(268_435_456)),
    (1, Field.CDR, cell_word(268_435_456)),
    (1, Field.CDR, atom_word(268_435_455)),
    (1, Field.MARK, True),
    (0, Field.CAR, cell_word(7)),
    (0, Field.CDR, RESERVED),
)


def changes(bank):
    """The cell number is refused before the word is looked at."""
    for n, field, content in CHANGES:
        written = "true" if content is True else content
        print(f"  cell {n}, {field.value} to {written}: {told(bank.set, n, field, content)}")
    show(bank, [0, 1, 2])


ZONES = (
    (0, 0), (0, 1), (0, 65_535), (0, 65_536), (1, 65_535), (2, 65_535), (100, 50), (100, 0),
    (65_535, 1), (65_535, 2), (65_536, 0), (65_536, 1), (1, LARGEST), (LARGEST, LARGEST),
)


def no_zones():
    """Pairs at the edges of the zones."""
    print("refusals: pairs that are no zone")
    for offset, length in ZONES:
        print(f"  {offset} {length}: {told(zone_text, offset, length)}")


def zone_text(offset, length):
    """A zone's code and its last position."""
    zone = Zone(offset, length)
    return f"code {Zones().code(zone)}, last {zone.last()}"


EFFORTS = (
    (0, 1), (1, 0), (65, 1), (1, 65), (0, 65), (65, 0), (LARGEST, 1), (1, 1), (64, 64), (1, 64),
)


def no_efforts():
    """Pairs at the edges of the efforts."""
    print("refusals: pairs that are no effort")
    for k1, k2 in EFFORTS:
        print(f"  {k1} {k2}: {told(effort_text, k1, k2)}")


def effort_text(k1, k2):
    """The two numbers of an effort."""
    effort = Effort(k1, k2)
    return f"k1 {effort.k1}, k2 {effort.k2}"


# looks: not by the number of a word alone, nor by a cell's words.


def looks():
    """What a register holds, and whether two hold the same."""
    example(
        "looks: what a register holds, and whether two hold the same",
        zone_store(packed(4), 0, 1, 1),
        "load 1 0 1; cons 2 15 15; cons 3 15 15; look 0; look 1; look 2",
        "same 0 15; same 0 2; same 0 1; same 1 3; same 2 3; copy 4 2; same 2 4; same 4 4",
        "load 5 0 1; same 1 5; load 5 0 2; same 1 5; car 6 2; same 6 0",
    )


# sizes: banks with no cell, with one, and full ones.


def sizes():
    """Small banks with a floor of 0 and with the largest, full ones, and the largest bank."""
    for floor in (0, LARGEST):
        example(
            f"sizes: no cell, floor {floor}",
            zone_store(packed(0), floor, 1, 1),
            times(4, "cons 0 15 15"),
            "load 1 120 80; look 1; car 0 1; same 0 15",
        )
    for floor in (0, LARGEST):
        example(
            f"sizes: one cell, floor {floor}",
            zone_store(packed(1), floor, 1, 1),
            "cons 0 15 15",
            [0],
            times(4, "cons 1 0 0"),
            [0],
            "clear 0",
            times(6, "cons 1 15 15"),
            [0],
        )
    full_banks()
    largest_bank()


def full_banks():
    """Two collections free nothing; once the chain is dropped, the next frees what a cons needs."""
    example(
        "sizes: four cells, all reachable",
        zone_store(packed(4), 0, 2, 2),
        "load 1 120 80",
        times(4, "cons 0 1 0"),
        times(10, "cons 2 0 0"),
        "cdr 3 0; cdr 3 3; cdr 3 3; car 4 3; look 4; cdr 3 3; look 3; look 2; clear 0",
        times(3, "cons 2 1 2"),
        range(4),
    )
    # What was reachable when the collection began is freed by the next one.
    example(
        "sizes: four cells, dropped while marking",
        zone_store(packed(4), 0, 2, 2),
        "load 1 120 80",
        times(4, "cons 0 1 0"),
        "cons 2 1 15; clear 0",
        times(7, "cons 2 1 15"),
        range(4),
    )


def largest_bank():
    """The largest bank, in a memory of one element more."""
    print("sizes: 4096 cells")
    memory = [7] * 4097
    store = zone_store(packed_bank(memory), 0, 64, 64)
    count(store, 4096, "cons 0 1 0")
    make(store, "cons 2 0 0")
    count(store, 64, "cons 2 0 0")
    count(store, 64, "cons 2 0 0")
    make(store, "clear 0; cons 2 1 1; cons 2 1 1")
    count(store, 64, "cons 2 1 1")
    print(f"  the element past the last cell: {memory[4096]}")


# replacing: a replacement in each phase. Only while marking is the old word offered; the new one
# never is.

# Cell 0 is reached only through the car of cell 1, which register 0 names; the third cons begins a
# collection.
BEGIN = "cons 1 15 15; cons 0 1 15; clear 1; cons 2 15 15"


def replacing():
    """Replacements in the idle, the mark and the sweep phase."""
    example(
        "replacing: idle",
        zone_store(packed(4), 0, 1, 1),
        "load 1 120 80; cons 2 15 15; cons 0 2 2; rplaca 0 1; rplacd 0 15",
        [0, 1],
    )
    replaced_while_marking()
    # First ahead of the sweeper, then behind it, where the old word names an unmarked cell: it
    # stays unmarked.
    example(
        "replacing: sweeping",
        zone_store(packed(6), 4, 64, 2),
        BEGIN,
        "cons 2 15 15",
        [0, 1],
        "rplacd 0 2",
        [0, 1],
        "cons 2 15 15; rplaca 0 15",
        range(6),
        times(2, "cons 2 15 15"),
        range(6),
        times(3, "cons 2 15 15"),
        range(6),
    )


def replaced_while_marking():
    """The old word is kept by the collection under way, and freed by the next."""
    example(
        "replacing: marking, the old word is offered",
        zone_store(packed(6), 4, 64, 64),
        BEGIN,
        [0, 1, 2],
        "rplaca 0 15",
        [0, 1],
        times(2, "cons 2 15 15"),
        range(6),
        times(3, "cons 2 15 15"),
        range(6),
    )
    # Register 3 takes the name of cell 0 before the link is cut: it would be lost were the old
    # word not offered.
    example(
        "replacing: marking, the old word is in a register",
        zone_store(packed(6), 4, 1, 64),
        BEGIN,
        "car 3 0",
        [0, 1],
        "rplaca 0 15; same 3 0",
        [0, 1],
        times(3, "cons 2 15 15"),
        [0, 1],
        "clear 3",
        times(6, "cons 2 15 15"),
        range(6),
    )
    example(
        "replacing: marking, the new word is not offered",
        zone_store(packed(6), 4, 64, 64),
        BEGIN,
        "car 3 0; rplacd 2 3",
        [0, 2],
        "rplacd 2 15",
        [0, 2],
    )


# marking: mark turns of one scan each, and the cells that are marked after each.


def marking():
    """The order of the offers, and a ring."""
    # Registers are offered from 0 on and a car before its cdr; the latest offered is scanned first.
    store = zone_store(packed(9), 2, 1, 64)
    example(
        "marking: the order of the offers",
        store,
        "cons 2 15 15; cons 3 15 15; cons 2 2 15; cons 3 3 15; cons 0 2 3; cons 1 15 15",
        "cons 1 1 15; clear 2; clear 3",
        range(7),
    )
    turns(store, 9, "cons 4 15 15")
    # Each cell is scanned once, however many words name it; a ring that nothing names is freed.
    store = zone_store(packed(4), 2, 1, 64)
    example(
        "marking: a ring, and a cell with two names",
        store,
        "cons 0 15 15; cons 1 0 0; rplaca 0 1; rplacd 0 0; clear 1",
        [0, 1],
    )
    turns(store, 4, "cons 2 15 15")
    make(store, "clear 0")
    turns(store, 4, "cons 2 15 15")
    show(store.bank, range(4))


def turns(store, number, text):
    """Makes a cons so many times, and prints after each which cells are marked."""
    for _ in range(number):
        make(store, text)
        marked = [n for n, cell in enumerate(store.bank.cells()) if cell.mark]
        print(" ".join(["  marked:", *map(str, marked)]))


# sweeping: cells taken while sweeping, above the sweeper, at it and below it.


def sweeping():
    """The cons into register i takes cell i; the third finds the sweeper at the cell it takes."""
    taken = [step for i in range(5) for step in (f"cons {i} 15 15", [i])]
    example(
        "sweeping: a cell taken above the sweeper, at it and below it",
        zone_store(packed(6), 6, 64, 2),
        *taken,
        range(6),
    )
    # None of them is freed by the sweep under way, and all are by the next.
    dropped = [step for i in range(4) for step in (f"cons {i} 15 15; clear {i}", [i])]
    example(
        "sweeping: cells dropped as soon as they were taken",
        zone_store(packed(6), 6, 64, 2),
        *dropped,
        "cons 4 15 15",
        range(6),
        times(5, "cons 5 15 15"),
        range(6),
    )


# paces: the start rules, by direct questions and under a store.


def paces():
    """Direct questions, the longest pace, and stores under the paced rule."""
    print("paces: direct questions")
    questions()
    print("paces: pace 65535")
    longest_pace()
    for floor, pace in ((0, 0), (3, 0), (0, 2), (0, 65_535), (3, 65_535)):
        example(
            f"paces: a store of six cells, floor {floor}, pace {pace}",
            Store(packed(6), Zones(), PacedRule(floor, pace), Effort(64, 64)),
            times(9, "cons 0 15 15"),
        )
    example(
        "paces: a cons refused for its register asks nothing",
        Store(packed(6), Zones(), PacedRule(0, 2), Effort(64, 64)),
        "cons 0 15 15; cons 16 15 15; cons 0 16 15; cons 0 15 15; cons 0 15 16; cons 0 15 15",
    )


def questions():
    """Each rule is asked with rows of free counts."""
    for rule, rows in (
        (FloorRule(0), ["0 1"]),
        (FloorRule(7), ["6 7 8"]),
        (FloorRule(LARGEST), ["4294967295"]),
        (PacedRule(0, 0), ["0 1 4096 4294967295"]),
        (PacedRule(7, 0), ["7 8 8"]),
        (PacedRule(7, 1), ["8 8 8 8"]),
        (PacedRule(7, 2), ["8 9 9 9", "7 8 8 8", "8 7 8 8 8"]),
        (PacedRule(LARGEST, 65_535), ["4294967295 0"]),
    ):
        print(f"  {rule_text(rule)}")
        for row in rows:
            answers = [answer_text(rule.ask(int(number))) for number in row.split()]
            print(f"  asked {row}: {' '.join(answers)}")


def rule_text(rule):
    """The name of a rule with its floor and its pace."""
    if isinstance(rule, FloorRule):
        return f"floor rule, floor {rule.floor}"
    return f"paced rule, floor {rule.floor}, pace {rule.pace}"


def longest_pace():
    """The longest pace. A yes at the floor sets the tally back too."""
    rows = [(1, 65_535), (1, 1), (1, 65_535), (0, 1), (1, 65_534), (1, 1), (1, 1), (1, 1)]
    ask_often(PacedRule(0, 65_535), rows)
    ask_often(PacedRule(3, 65_535), [(4, 65_535), (4, 1), (3, 2)])


def ask_often(rule, rows):
    """Asks a rule with one free count so many times, and prints how often it says yes."""
    for number, often in rows:
        yes = sum(rule.ask(number) for _ in range(often))
        print(f"  asked {number}, {often} in a row: {yes} times yes")


# signals: aspects in lists, in a store over a pile of layers under the paced rule.


def signals():
    """The codes of aspects, and a train."""
    print("signals: codes")
    ends = [Aspect(name, number) for name in ("hold", "occupied") for number in (0, 255)]
    for aspect in [CLEAR, *ends]:
        print(f"  {aspect}: code {Aspects().code(aspect)}")
    for code in (0, 1, 255, 256, 511, 512, 767, 768, LARGEST):
        print(f"  code {code}: {Aspects().value(code) or 'no value'}")
    train(join(window(record(10), 1, 8), hold(packed(16))))


def aspect_at(block, step):
    """What a block shows: the train moves on by a block a step, and the block behind it holds."""
    if block == step % 4:
        return Aspect("occupied", 7)
    if block == (step + 3) % 4:
        return Aspect("hold", step + 30)
    return CLEAR


def train(bank):
    """At each step a new list of signals is made, and then the train's signal holds, in place."""
    print("signals: a train over four blocks")
    store = Store(bank, Aspects(), PacedRule(7, 3), Effort(4, 4))
    for step in range(12):
        put_signals(store, [aspect_at(block, step) for block in range(4)])
        print_signals(store, f"move {step}")
        stop(store, step % 4)
        print_signals(store, f"stop {step}")


def put_signals(store, aspects):
    """A new list of signals in register 0; the one before is dropped."""
    store.clear(4)
    for aspect in reversed(aspects):
        store.load(1, aspect)
        store.cons(4, 1, 4)
    store.copy(0, 4)
    store.clear(4)


def stop(store, block):
    """A block's signal holds, in place."""
    store.copy(2, 0)
    for _ in range(block):
        store.cdr(2, 2)
    store.load(1, Aspect("hold", 255))
    store.rplaca(2, 1)


def print_signals(store, title):
    """Reads the four signals of the list in register 0."""
    store.copy(2, 0)
    seen = []
    for _ in range(4):
        store.car(3, 2)
        store.cdr(2, 2)
        seen.append(answer_text(store.look(3)))
    print(f"  {title}: {', '.join(seen)}; {place(store)}")


# layered: a store over each pile of layers two deep.

# A round of calls: a list of five is made, and changed at both ends.
ROUND = (
    f"load 1 120 80; load 2 300 40; clear 0; {times(5, 'cons 0 1 0')}; cons 3 0 15; rplaca 3 2; "
    "rplacd 0 2; car 4 3; cdr 5 0; look 4; same 5 2"
)
ROUNDS = 6


def layered():
    """The same steps over a record bank alone and over the nine piles."""
    for name, bank in (
        ("a record bank alone", record(20)),
        ("window over window", window(window(packed(30), 5, 30), 3, 20)),
        ("window over join", window(join(record(16), packed(30)), 8, 20)),
        ("window over hold", window(hold(record(30)), 4, 20)),
        ("join over windows", join(window(packed(10), 0, 9), window(record(12), 1, 20))),
        ("join over join", join(join(record(12), record(0)), record(8))),
        ("join over holds", join(hold(packed(10)), hold(record(10)))),
        ("hold over window", hold(window(record(30), 7, 20))),
        ("hold over join", hold(join(packed(9), record(11)))),
        ("hold over hold", hold(hold(packed(20)))),
    ):
        # Last comes a code that no packed word can have.
        example(
            f"layered: {name}",
            zone_store(bank, 6, 3, 3),
            times(ROUNDS, ROUND),
            range(20),
            "load 0 4096 1",
        )


# plans: plans at the edges of their format. In these tables a line end is written as /.

# Where a plan or a line of it ends.
ENDS = (
    "",
    "/",
    "s",
    "store 3 1 1 1",
    "store 3 1 1 1/",
    "store 3 1 1 1/look 0",
    "store 3 1 1 1/look",
    "store 3 1 1 1//",
    "store 3 1 1 1/look 0//",
    "store 3 1 1 1/look 0/ ",
    "/store 3 1 1 1/",
)

# How numbers are written, and how many there are.
NUMBERS = (
    "store 03 1 1 1/",
    "store 00 1 1 0/",
    "store 0 1 1 0/",
    "store 3 1 1 1/clear 01/",
    "store 3 1 1 1/clear 99999/",
    "store 3 1 1 1/clear 100000/",
    "store 100000 1 1 1/",
    "store 3 1 1 1/look -1/",
    "store 3 1 1 1/look +1/",
    "store 3 1 1 1/look a/",
    "store 3 1 1/",
    "store 3 1 1 1/cons 0 1/",
    "store 3 1 1 1/cons 0 1 2 3/",
    "store 3 1 1 1/same 0 0x/",
)

# What stands between the words of a line.
SEPARATORS = (
    "store  3 1 1 1/",
    "store 3  1 1 1/",
    "store\t3 1 1 1/",
    "store 3\t1 1 1/",
    "store 3 1 1 1 /",
    "store 3 1 1 1\r/",
    "store 3 1 1 1/ look 0/",
    "store 3 1 1 1/look /",
    "store 3 1 1 1/look/",
    "store 3 1 1 1/look 0,/",
    "store 3 1 1 1\xff/",
    "\xef\xbb\xbfstore 3 1 1 1/",
    "store 3 1 1 1/look \xb2/",
    "store 3 1 1 1/look 0\x00/",
    "store 3 1 1 1/look\xa00/",
)

# Names cut short, and longer than any.
NAMES = (
    "stor 3 1 1 1/",
    "stores 3 1 1 1/",
    "Store 3 1 1 1/",
    "store 3 1 1 1/ca 0 1/",
    "store 3 1 1 1/caar 0 1/",
    "store 3 1 1 1/carr 0 1/",
    "store 3 1 1 1/cor 0 1/",
    "store 3 1 1 1/con 0 1 2/",
    "store 3 1 1 1/conses 0 1 2/",
    "store 3 1 1 1/rplac 0 1/",
    "store 3 1 1 1/rplacb 0 1/",
    "store 3 1 1 1/rplacad 0 1/",
    "store 3 1 1 1/l 0/",
    "store 3 1 1 1/lock 0/",
    "store 3 1 1 1/xlook 0/",
    "store 3 1 1 1/# note/",
)

# The first line.
OPENINGS = (
    "store 3 1 1 1/store 3 1 1 1/",
    "store 3 1 1 1/look 0/store 3 1 1 1/",
    "load 1 120 80/",
    "same 0 0/",
    "look 0/store 3 1 1 1/",
    "store 3 0 1 1/",
    "store 3 0 1 1/look 0/bad/",
    "store 3 1 65 1/look 0/",
    "store 0 0 0 0/store/",
    "store 3 64 64 99999/cons 0 1 1/",
    "store 0 1 1 1/cons 0 1 1/cons 0 1 1/cons 0 1 1/",
    "store 4095 64 2 4095/cons 0 1 1/cons 0 1 1/cons 0 1 1/cons 0 1 1/",
    "store 4096 64 2 4095/cons 0 1 1/cons 0 1 1/cons 0 1 1/cons 0 1 1/",
    "store 4097 64 2 4095/cons 0 1 1/cons 0 1 1/cons 0 1 1/cons 0 1 1/",
    "store 99999 64 2 4095/cons 0 1 1/cons 0 1 1/cons 0 1 1/cons 0 1 1/",
)

# What calls are answered: a load in the order of its refusals, a plan with a refused cons, and
# what stands before a fault.
CALLS = (
    "store 3 1 1 1/load 16 65535 2/load 16 4096 1/load 0 4096 1/load 0 4095 1/look 0/",
    "store 3 1 1 1/load 99999 0 0/load 99999 99999 99999/load 0 99999 1/load 0 0 65536/",
    "store 3 1 1 1/load 1 120 80/cons 0 1 2/cons 0 1 2/cons 3 0 0/cons 4 0 0/cons 4 0 0/look 1/"
    "car 5 4/same 5 0/car 5 1/",
    "store 3 1 1 1/clear 16/look 0/car 0 0/cons 16 17 18/bad/look 0/",
    "store 1 1 1 0/cons 0 1 1/cons 1 0 0/cons 1 0 0/cons 1 0 0/look 1/clear 0/cons 1 0 0/"
    "cons 1 0 0/cons 1 0 0/look 1/look",
)


def plans():
    """Each plan with its answers, and then the longest plans."""
    print("plans: a line end is written as /, and a byte that does not print by its number")
    for table in (ENDS, NUMBERS, SEPARATORS, NAMES, OPENINGS, CALLS):
        for plan in map(plan_of, table):
            answers = answer_plan(plan).encode()
            print(f'  "{plan_text(plan)}" gives "{plan_text(answers)}"')
    print("plans: the longest")
    for last in ("look 15/", "clear 15/", "look 150", "look 1500", "look 0x/"):
        long_plan(last)


def plan_of(text):
    """The bytes of a plan of the tables."""
    return text.replace("/", "\n").encode("latin-1")


def plan_text(plan):
    """A plan's bytes as they are printed."""
    return "".join(map(byte_text, plan))


def byte_text(byte):
    """A byte as it is printed."""
    if byte == ord("\n"):
        return "/"
    return chr(byte) if 32 <= byte <= 126 else f"<{byte}>"


def long_plan(last):
    """A plan of 32,760 bytes and a last line."""
    plan = plan_of("store 3 1 1 1/" + "look 0/" * 4678 + last)
    answers = answer_plan(plan)
    lines = answers.splitlines()
    print(
        f'  {len(plan)} bytes, the last line "{last}": lines of answers {len(lines)}, '
        f'bytes {len(answers)}, the last "{lines[-1]}"'
    )


# runs: lists of calls made by `run`, their outcomes, and what the store then holds.

COLLECTING = (
    "load 1 120 80; cons 0 1 2; cons 0 1 2; cons 3 0 0; cons 4 0 0; cons 4 0 0; look 1; car 5 4; "
    "same 5 0; car 5 1; clear 16"
)

EVERY_CALL = (
    "load 1 4095 1; load 2 4096 1; load 16 4096 1; cons 0 1 2; copy 3 0; same 3 0; rplaca 0 2; "
    "rplacd 0 1; car 4 3; look 4; cdr 5 3; look 5; look 3; cons 15 0 3; cons 4 15 4; clear 3; "
    "cons 5 0 0; car 5 2; look 16"
)


def runs():
    """Three runs over a bank of three cells."""
    for title, floor, text in (
        ("runs: no call", 1, ""),
        ("runs: a collection that finds a cell", 1, COLLECTING),
        ("runs: every call, and each refusal", 0, EVERY_CALL),
    ):
        print(title)
        made(zone_store(packed(3), floor, 1, 1), calls_in(text))


def made(store, calls):
    """The outcomes of a run, and what the store then holds."""
    for call, answer in zip(calls, run(store, calls)):
        print(f"  {call}: {answer_text(answer)}")
    print(f"  then: {place(store)}")
    for register in (0, 1, 2, 3, 4, 5, 15):
        print(f"  register {register}: {store.registers[register]}")
    show(store.bank, range(3))


GROUPS = (
    refusals,
    looks,
    sizes,
    replacing,
    marking,
    sweeping,
    paces,
    signals,
    layered,
    plans,
    runs,
)


def main():
    """Works through every group."""
    for group in GROUPS:
        group()


if __name__ == "__main__":
    main()

#!/usr/bin/env python3
"""Prints the table of planted bugs: each must-fail edit, what it turns, and the place where the prover refuses it.

    rt ci --anew >/tmp/gate.log 2>&1; python3 tools/planted.py /tmp/gate.log

The log is what `rt ci --anew` or `rt must-fail --anew` printed. An edit that it does not name as refused ends the tool
with status 1."""
import re
import sys
from pathlib import Path

SAID = re.compile(r"must-fail (\w+)/([\w-]+)\.edit: (refused, as it must be)?(.*)")
PLACE = re.compile(r"(\S+\.(?:rt|antt)):(\d+):\d+.*?\(`([^`]+)`\)|(\S+\.(?:rt|antt)):(\d+):\d+")


def pairs_of(path):
    """Returns an edit's pairs of an old and a new text."""
    lines = path.read_text().splitlines()
    old = [it[5:].strip() for it in lines if it.startswith("old: ")]
    new = [it[5:].strip() for it in lines if it.startswith("new: ")]
    return list(zip(old, new))


def place_of(said):
    """Returns the goal that is refused, with its file."""
    found = PLACE.search(said)
    if not found:
        return said.strip(": ")[:80]
    file, _, goal, other, line = found.groups()
    return f"`{goal}` in {file}" if goal else f"{other}:{line}"


def code(text):
    return "`` " + text.replace("|", "\\|") + " ``" if "`" in text else "`" + text.replace("|", "\\|") + "`"


def main():
    refused = {}
    for line in Path(sys.argv[1]).read_text().splitlines():
        if found := SAID.search(line):
            crate, name, is_refused, rest = found.groups()
            refused[crate, name] = place_of(rest) if is_refused else None
    lost = []
    print("| Edit | Is turned | Into | Refused at |\n|---|---|---|---|")
    for path in sorted(Path("crates").glob("*/must-fail/*.edit")):
        key = path.parts[1], path.stem
        if not refused.get(key):
            lost.append("/".join(key))
            continue
        pairs = pairs_of(path)
        old, new = ("; ".join(code(it[at]) for it in pairs) for at in (0, 1))
        print(f"| {'/'.join(key)} | {old} | {new} | {refused[key]} |")
    if lost:
        sys.exit(f"not refused, or not in the log: {', '.join(lost)}")


main()

#!/usr/bin/env python3
"""Lists groups of functions in crates/*/src whose bodies differ only in names and literals."""
import collections
import glob
import re

WORDS = {"let", "else", "if", "match", "return", "for", "in", "while", "self", "Ok", "Err", "Some", "None", "mut", "as"}


def functions(text):
    text = re.sub(r"//[^\n]*", "", text)
    for head in re.finditer(r"\bfn (\w+)", text):
        depth, at = 0, head.end()
        # The body is the first brace that opens a line; clauses have theirs behind a word.
        body = re.search(r"\n\s*\{|\)[^;{]*\{\n", text[at:])
        end = re.search(r";\n", text[at:])
        if not body or (end and end.start() < body.start()):
            continue  # a trait's function without a body
        start = at + body.end() - 1
        for i in range(start, len(text)):
            depth += {"{": 1, "}": -1}.get(text[i], 0)
            if depth == 0:
                yield head.group(1), text[start : i + 1]
                break


def shape(body):
    blotted = re.sub(r"\b[A-Za-z_]\w*\b", lambda m: m.group() if m.group() in WORDS else "x", body)
    return re.sub(r"\s+", " ", re.sub(r"\b\d[\d_]*\b", "0", blotted))


groups = collections.defaultdict(list)
for path in sorted(glob.glob("crates/*/src/**/*.rt", recursive=True)):
    if path.startswith("crates/trials/"):
        continue
    for name, body in functions(open(path).read()):
        if len(body.split()) > 6:
            groups[shape(body)].append(f"{path}: {name}")
found = [g for g in groups.values() if len(g) > 1]
for group in sorted(found):
    print(f"{len(group)}  " + "\n   ".join(group))
print(f"{len(found)} groups, {sum(map(len, found))} functions")

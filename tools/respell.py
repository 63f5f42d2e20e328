#!/usr/bin/env python3
"""Brings the repository's own definitions and lemmas to the spelling of today's Rattle.

usage: tools/respell.py        at the top of the repository, once, after port.py

Types keep upper camel case. Everything else becomes snake case: `maxFrame` is `max_frame`, `FRAME-OUT-OF-RANGE` is `FRAME_OUT_OF_RANGE`.
A dash stays only in a lemma's name, and only where it joins a definition's name and a list's word, as in `written-length`.
Names of src/ stay as they are, and so do comments, strings, inputs and outputs. Names that would fall together get the names of APART.
It goes by text and says what it renamed; rt check decides.
"""

import os
import re
import sys

# Where two names would become one: what the one becomes instead. A lemma that would have its function's name gets `_lem`.
APART = {
    "count-wrong": "count_wrong_lem",
    "row-there": "row_there_lem",
    "same-z": "same_z_lem",
    "same-list": "same_list_lem",
    "past-digit": "past_digit_lem",
    "free-of-row": "free_of_row_lem",
    "free-of-input": "free_of_input_lem",
    "ofForm": "is_of_form",
    "on-path": "on_that_path",
    "oneMore": "one_cell_more",
    "planText": "text_of_plan",
}
WORDS = {"length", "append", "take", "drop", "set", "get_or"}
HEAD = re.compile(r"^\s*((?:(?:pub|abbrev|unfoldable|record|data) )*)([^\s:()\[\]{}=|]+)(?: \{[^}]*\})?(?: \([^)]*\)| \{[^}]*\})* :(?: |$)")
LET = re.compile(r"(?:^|[\s(])let ([^\s:()]+)(?: :| =)")
NAME = re.compile(r"[^\s()\[\]{}.,;:λ=|«»`\"]+")


def files(root):
    for folder, dirs, names in os.walk(os.path.join(root, "crates")):
        dirs[:] = sorted(d for d in dirs if d != "out")
        for name in sorted(names):
            if name.endswith((".antt", ".rt", ".edit")):
                yield os.path.join(folder, name)


def read(path):
    with open(path, encoding="utf-8") as f:
        return f.read()


def snake(name):
    if re.match(r"[A-Z]", name) or any(c in name for c in "◌≡≢+<>→"):
        return name.replace("-", "_") if re.fullmatch(r"[A-Z0-9]+(-[A-Z0-9]+)+", name) else name
    return re.sub(r"(?<=[a-z0-9])([A-Z])", lambda m: "_" + m.group(1).lower(), name).replace("-", "_")


def own_names(root):
    """Every name that is defined in specs/ or proofs/, and those of specs/ alone."""
    names, definitions = set(), set()
    for path in files(root):
        if not path.endswith(".antt"):
            continue
        for line in read(path).splitlines():
            line = line.split("--")[0]
            m = HEAD.match(line)
            if m:
                names.add(m.group(2))
                if "/specs/" in path and ("abbrev" in m.group(1) or "unfoldable" in m.group(1)):
                    definitions.add(m.group(2))
            names.update(LET.findall(line))
    return names, definitions


def renamed(root):
    names, definitions = own_names(root)
    words = WORDS | {snake(n) for n in definitions}
    table = {}
    for n in names:
        if n in APART:
            table[n] = APART[n]
            continue
        new = snake(n)
        parts = [snake(p) for p in n.split("-")]
        if len(parts) > 1 and n not in definitions and all(p in words for p in parts) and any(p in WORDS for p in parts):
            new = "-".join(parts)
        if new != n:
            table[n] = new
    return table


def turn_line(line, table, mark):
    """The line with its names turned, but for what follows the comment's mark."""
    at = line.find(mark)
    code, comment = (line, "") if at < 0 else (line[:at], line[at:])
    return NAME.sub(lambda m: table.get(m.group(0), m.group(0)), code) + comment


def turn(path, table):
    text = read(path)
    mark = "//" if path.endswith(".rt") else "--"
    # Rust's own names are in snake case or begin with a capital, so a name of the table in a .rt file stands in ghost text.
    if path.endswith(".edit"):
        lines = [turn_line(l, table, "--") if l.startswith(("old: ", "new: ")) else l for l in text.split("\n")]
    else:
        lines = [turn_line(l, table, mark) for l in text.split("\n")]
    new = "\n".join(lines)
    if new != text:
        with open(path, "w", encoding="utf-8") as f:
            f.write(new)
        return 1
    return 0


def main():
    root = os.path.dirname(os.path.dirname(os.path.realpath(__file__)))
    table = renamed(root)
    changed = sum(turn(path, table) for path in files(root))
    for old in sorted(table):
        print(old, table[old])
    print(f"respell: {len(table)} names, {changed} files", file=sys.stderr)


if __name__ == "__main__":
    main()

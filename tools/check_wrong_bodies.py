#!/usr/bin/env python3
"""Checks the wrong bodies, and the table of docs/DECISIONS.md that says where each kind of them is tried.

Usage: tools/check_wrong_bodies.py

Each edit changes a text that stands exactly once in a file of its crate, to another one. Each edit, test and crate that
the table names is there, in the column where it stands, and the number of its rows is the one that is said. A crate has
at most four edits in the gate, journal_core five. Prints a line for each finding and ends with status 1, or prints one
line and ends with status 0.
"""

import re
import sys
from pathlib import Path

TOP = Path(__file__).resolve().parent.parent
GATE, APART = "crates/*/must-fail/*.edit", "tools/attacks/wrong-bodies/*/*.edit"
MOST_IN_GATE, MORE_IN_GATE = 4, {"journal_core": 5}
NAMED = re.compile(r"(?:(\w+(?: and \w+)*) )?`(\w+)`")


def pairs_of(edit):
    """Gives the file, the old and the new text of each change that an edit makes."""
    file = old = ""
    for line in edit.read_text(encoding="utf-8").splitlines():
        word, _, text = line.partition(":")
        text = text.removeprefix(" ")
        if word == "file":
            file = text
        elif word == "old":
            old = text
        elif word == "new":
            yield file, old, text
        elif line.strip():
            yield file, "", line


def faults_of(edit, crate):
    """Gives what is wrong with an edit of a crate."""
    texts, changes = {}, 0
    for file, old, new in pairs_of(edit):
        changes += 1
        path = TOP / "crates" / crate / file
        if not path.is_file():
            yield f"no file {file}"
            continue
        text = texts.get(file, path.read_text(encoding="utf-8"))
        if old == new or text.count(old) != 1:
            yield f"the text stands {text.count(old)} times in {file}, or isn't changed: {old.strip()[:60]}"
        texts[file] = text.replace(old, new, 1)
    if not changes:
        yield "changes nothing"


def table(lines):
    """Gives each row of the table with its line, and the number of kinds that the text before it says."""
    said = 0
    for number, line in enumerate(lines, 1):
        found = re.search(r"These (\d+) kinds", line)
        said = int(found[1]) if found else said
        if line.startswith("| wrong body |"):
            first = number
            break
    else:
        return said, []
    rows = []
    for number, line in enumerate(lines[first + 1 :], first + 2):
        if not line.startswith("|"):
            break
        rows.append((number, [cell.strip() for cell in line.strip().strip("|").split("|")]))
    return said, rows


def edits_in(cell):
    """Gives the edits that a cell names, as `CRATE `name`, `name`; CRATE and CRATE `name``."""
    for part in cell.split(";"):
        crates = []
        for named in NAMED.finditer(part):
            crates = named[1].split(" and ") if named[1] else crates
            for crate in crates:
                yield crate, named[2]


def row_faults(cells):
    """Gives what a row of the table names and isn't there."""
    for cell, folder in ((cells[1], "crates/{}/must-fail"), (cells[2], "tools/attacks/wrong-bodies/{}")):
        for crate, name in edits_in(cell):
            if not (TOP / folder.format(crate) / f"{name}.edit").is_file():
                yield f"no edit {crate} `{name}` in {folder.format(crate)}"
    for name in re.findall(r"`(\w+\.sql)`", cells[3]):
        if not (TOP / "crates/script_tests/data" / name).is_file():
            yield f"no script `{name}`"
    for crate in re.findall(r"\b\w+_tests\b", cells[3]):
        if not (TOP / "crates" / crate).is_dir():
            yield f"no crate {crate}"
    if not any(re.search(r"\w", cell) for cell in cells[1:]) or cells[1:] == ["none", "", ""]:
        yield "tried nowhere"


def findings():
    """Gives each finding, with its place."""
    in_gate = {}
    for pattern in (GATE, APART):
        for edit in sorted(TOP.glob(pattern)):
            crate = edit.parts[-3] if pattern == GATE else edit.parts[-2]
            if pattern == GATE:
                in_gate[crate] = in_gate.get(crate, 0) + 1
            for it in faults_of(edit, crate):
                yield f"{edit.relative_to(TOP)}: {it}"
    for crate, count in in_gate.items():
        if count > MORE_IN_GATE.get(crate, MOST_IN_GATE):
            yield f"crates/{crate}/must-fail: {count} edits in the gate"
    said, rows = table((TOP / "docs/DECISIONS.md").read_text(encoding="utf-8").splitlines())
    if said != len(rows):
        yield f"docs/DECISIONS.md: {said} kinds are said, and the table has {len(rows)}"
    for number, cells in rows:
        for it in row_faults(cells):
            yield f"docs/DECISIONS.md:{number}: {it}"


def main():
    found = list(findings())
    for it in found:
        print(it)
    if found:
        sys.exit(1)
    counts = [len(list(TOP.glob(pattern))) for pattern in (GATE, APART)]
    print(f"check_wrong_bodies: {counts[0]} in the gate and {counts[1]} outside it are right")


if __name__ == "__main__":
    main()

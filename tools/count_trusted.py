#!/usr/bin/env python3
"""Counts the definitions that a reader of a claim has to read: those of its file in specs/, and of all that it imports.

Usage: tools/count_trusted.py [CRATE/FILE ..]

Without words it counts for the whole program, for "the text is plain SQL's" and for "renamed servers answer alike".
Imports, comments and blank lines aren't counted, nor are views of the code's own types (specs/declared).
"""

import re
import sys
from pathlib import Path

CRATES = Path(__file__).resolve().parent.parent / "crates"
CLAIMS = ["ae_cli/Does", "run_command/Plain", "server_core/Laws"]
IMPORT = re.compile(r"^ *(?:pub )?use Rattle\.(\w+)\.specs\.([\w.]+)")


def file_of(crate, path):
    """Returns the file of a module that is named by a path, which may end in a name of the module."""
    names = path.strip(".").split(".")
    for end in range(len(names), 0, -1):
        found = (CRATES / crate / "specs").joinpath(*names[:end]).with_suffix(".antt")
        if found.is_file():
            return found
    return None


def beneath(file):
    """Returns a file of definitions with all files that it imports."""
    found, left = set(), [file]
    while left:
        file = left.pop()
        if file in found:
            continue
        found.add(file)
        for line in file.read_text(encoding="utf-8").splitlines():
            named = IMPORT.match(line)
            imported = named and file_of(named[1], named[2])
            if imported:
                left.append(imported)
    return found


def definition_lines(file):
    """Returns how many lines of a file define something."""
    lines = [line.strip() for line in file.read_text(encoding="utf-8").splitlines()]
    return sum(1 for line in lines if line and not line.startswith("--") and not IMPORT.match(line))


def main():
    for claim in sys.argv[1:] or CLAIMS:
        crate, _, name = claim.partition("/")
        file = file_of(crate, name)
        if file is None:
            sys.exit(f"count_trusted: no definitions {claim}")
        files = beneath(file)
        lines = sum(map(definition_lines, files))
        crates = {it.relative_to(CRATES).parts[0] for it in files}
        print(f"{claim}: {lines} lines of definitions, in {len(files)} files of {len(crates)} crates")


if __name__ == "__main__":
    main()

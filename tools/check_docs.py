#!/usr/bin/env python3
"""Checks the documents of the repository, all *.md: what they name exists, figures are right, and they can be read.

Usage: tools/check_docs.py

Tested are links and anchors; files, crates and identifiers in backticks; clauses with their places; definitions and the
files that have them; the list of crates; counts; the length of sentences and of table cells; that the code of a page
stands in a file that the page links. Prints a line for each finding and ends with status 1, or prints one line and ends with status 0.
"""

import re
import sys
from collections import defaultdict
from functools import cache
from pathlib import Path

from count_trusted import beneath, definition_lines, file_of

TOP = Path(__file__).resolve().parent.parent
SKIPPED = {".git", "out", "built", "demo"}
MOST_WORDS, MOST_WORDS_OF_USERS, MOST_CELL = 40, 30, 300
FOR_USERS = {"README.md", "docs/guide.md"}
HEADLINE = "For every script of interleaved sessions"  # the claim, which is one sentence

# Names in backticks that are no identifier of the repository: examples, and words of other programs.
KNOWN = set("GO1 HAVING NAME_command _tests authorized_keys bin exec fsync nohup pem rustc setsid shellcheck socat socket".split())
LINK = re.compile(r"\[([^\]]*)\]\(([^)\s]+)\)")
CODE = re.compile(r"`([^`]+)`")
WORD = re.compile(r"[^\W\d]\w*")
NAME = re.compile(r"^[A-Za-z_]\w*(?:(?:::|\.)[A-Za-z_]\w*)*(?:\(\))?$")
FILE = re.compile(r"^[\w.~*-]*(?:/[\w.*-]+)*\.(?:md|rt|antt|edit|py|sh|sql|txt|bin|key)$|^[\w.-]+(?:/[\w.*-]*)+$")
# Files that are made, files of a user, and patterns of names.
ABSENT = re.compile(r"^built/|\.(bin|key|csv)$|^~|\bNAME(\b|_)|^(text|keys|script\.sql|specs/|proofs/)")
CITED = re.compile(r"((?:`\w+`(?:, | and )?)+) of `(?:\w+::)*(\w+::)?(\w+)`")
# A place with what is cited there: `crate::call`, `call`: `clause`; or `crate/File`: `Record`, `field`.
CALL = re.compile(r"`(\w+)::([\w:]+)`((?:, `[\w:]+`)*)(?:: ((?:`\w+`(?:, | and )?)+))?")
MODULE = re.compile(r"`(\w+)/(\w+)`: ((?:`\w+`(?:, | and )?)+)")


def files(pattern):
    """Returns the files of the repository that match, without what is built."""
    return sorted(path for path in TOP.rglob(pattern) if not SKIPPED & set(path.relative_to(TOP).parts))


def of_top(path):
    return str(path.relative_to(TOP))


class Crates:
    """What stands in the crates: names, clauses by function, and the words of each file."""

    def __init__(self):
        self.words, self.defined, self.fields = set(), set(), set()
        self.by_file, self.clauses = defaultdict(set), defaultdict(set)
        self.calls, self.ghosts = defaultdict(lambda: defaultdict(set)), defaultdict(set)
        for path in files("*"):
            if path.is_file() and path.suffix in {".rt", ".antt", ".edit", ".sql", ".py", ".sh", ".txt", ".ci", ""}:
                self.read(path)
        self.names = {path.name for path in (TOP / "crates").iterdir()}
        self.files = {path.name for path in files("*") if path.is_file()}
        self.words |= self.names | {Path(name).stem for name in self.files}

    def read(self, path):
        text = path.read_text(encoding="utf-8", errors="replace")
        if path.suffix in {".rt", ".antt"}:
            text = re.sub(r"(?m)(//|^ *--).*$", "", text)
        self.words |= set(WORD.findall(text))
        if path.suffix == ".antt":
            self.by_file[path] = set(WORD.findall(text)) | set(re.findall(r"◌(\S+)◌", text))
            self.defined |= set(re.findall(r"\bpub (?:data |record )?(\w+)", text))
            self.fields |= set(re.findall(r"(?m)^ +pub (\w+) :", text))
        if path.suffix == ".rt":
            function = ""
            for found in re.finditer(r"\bfn (\w+)|\b(?:ensures|requires) (\w+) \{|\bghost fn (\w+)", text):
                function = found[1] or found[3] or function
                labels = self.calls[path.relative_to(TOP).parts[1]][function]
                if found[2]:
                    self.clauses[function].add(found[2])
                    labels.add(found[2])
            self.defined |= set(re.findall(r"\b(?:fn|enum|struct|trait|ensures|ghost) (\w+)", text))
            self.ghosts[path.relative_to(TOP).parts[1]] |= set(re.findall(r"\bghost (\w+)", text))

    def specs(self, crate, name):
        """Returns the words of the definitions in a file of a crate."""
        folder = TOP / "crates" / crate / "specs"
        found = [words for path, words in self.by_file.items() if path.stem == name and folder in path.parents]
        return set().union(*found) if found else None

    @cache
    def all_words(self, crate):
        folder = TOP / "crates" / crate
        texts = [path.read_text(encoding="utf-8") for path in folder.rglob("*") if path.suffix in {".rt", ".antt"}]
        return set(WORD.findall(" ".join(texts)))


class Document:
    """A document, taken apart into its lines of prose and of tables, its code apart."""

    def __init__(self, path):
        self.path, self.name = path, of_top(path)
        self.lines = path.read_text(encoding="utf-8").splitlines()
        self.blocks, self.cells, self.anchors, self.columns = [], [], set(), []
        self.take_apart()

    def take_apart(self):
        fenced, block, start, listed = False, [], 0, False
        for number, line in enumerate([*self.lines, ""], 1):
            if line.startswith("```"):
                fenced = not fenced
                line = ""
            code = fenced or (line.startswith("    ") and not listed and not block)
            ends = code or not line.strip() or line.startswith(("#", "|")) or re.match(r" *(- |\d+\. )", line)
            if ends and block:
                self.blocks.append((start, " ".join(block)))
                block = []
            if code or not line.strip():
                listed = listed and not code
                continue
            listed = bool(re.match(r" *(- |\d+\. )", line)) or (listed and line.startswith(" "))
            if line.startswith("#"):
                self.head(line)
            elif line.startswith("|"):
                self.row(number, line)
            else:
                start = start if block else number
                block.append(re.sub(r"^ *(- |\d+\. )?", "", line))

    def head(self, line):
        title = re.sub(r"[`*]", "", line.lstrip("#").strip()).lower()
        self.anchors.add(re.sub(r" ", "-", re.sub(r"[^\w\- ]", "", title)))

    def row(self, number, line):
        if re.match(r"^\|( *:?-+:? *\|)+$", line):
            self.columns = self.cells.pop()[1]
        else:
            self.cells.append((number, [cell.strip() for cell in line.strip().strip("|").split("|")], self.columns))

    def texts(self):
        """Gives each paragraph and each cell, with its line."""
        yield from self.blocks
        for number, row, _ in self.cells:
            for cell in row:
                yield number, cell


def links(document, documents):
    """Links to files and anchors that don't exist."""
    for number, text in document.texts():
        for _, target in LINK.findall(text):
            if re.match(r"https?:|mailto:", target):
                continue
            path, _, anchor = target.partition("#")
            found = (document.path.parent / path).resolve() if path else document.path
            if not found.exists():
                yield number, f"no file {target}"
            elif anchor and anchor not in getattr(documents.get(found), "anchors", ()):
                yield number, f"no heading {target}"


def names(document, crates):
    """Files and identifiers in backticks that stand nowhere."""
    for number, text in document.texts():
        for code in CODE.findall(text):
            if FILE.match(code) and ("." in code or "/" in code):
                if not (is_there(document, code, crates) or ABSENT.search(code)):
                    yield number, f"no file `{code}`"
            elif NAME.match(code):
                missing = [word for word in WORD.findall(code) if word not in crates.words | KNOWN]
                if missing:
                    yield number, f"no name `{missing[0]}`"


def is_there(document, name, crates):
    """Whether a file is there: from the top, from the document, by its name alone, or as crate/Definition.clause."""
    first, _, rest = name.partition("/")
    if not rest and any(it.endswith(name.lstrip("*")) for it in crates.files):
        return True
    places = [TOP, document.path.parent, TOP / "crates"]
    if any(list(place.glob(name.rstrip("/"))) for place in places if not name.startswith(("/", "~"))):
        return True
    folder = TOP / "crates" / first
    return folder.is_dir() and any(folder.rglob(f"{Path(rest).name.split('.')[0]}.*"))


def clauses(document, crates):
    """Clauses that are cited as `clause` of `Type::call`, as `crate/Record.field` or in a table, and don't exist."""
    for number, text in document.texts():
        for cited, _, call in CITED.findall(text):
            labels = crates.clauses.get(call, set())
            for label in WORD.findall(cited.replace(" and ", " ")):
                if labels and label not in labels | crates.fields and label[0].islower():
                    yield number, f"`{call}` has no clause `{label}`"
        for crate, record, field in re.findall(r"`(\w+)/(\w+)\.(\w+)`", text):
            if crate in crates.names and not {record, field} <= crates.all_words(crate):
                yield number, f"no clause `{crate}/{record}.{field}`"
    for number, row, head in document.cells:
        if "clause" in head and len(row) == len(head):
            for code in CODE.findall(row[head.index("clause")]):
                if WORD.fullmatch(code) and code not in crates.defined:
                    yield number, f"no clause, law or definition `{code}`"


def places(document, crates):
    """Calls, laws and definitions that are cited with their crate, and stand elsewhere; clauses that they don't have."""
    for number, text in document.texts():
        for crate, call, others, labels in CALL.findall(text):
            if crate not in crates.names:
                continue
            known = set()
            for it in [call, *re.findall(r"[\w:]+", others)]:
                first, _, rest = it.partition("::")
                crate, it = (first, rest) if rest and first in crates.names else (crate, it)
                if not set(it.split("::")) <= crates.all_words(crate):
                    yield number, f"no `{it}` in {crate}"
                known |= crates.calls[crate][it.split("::")[-1]]
                if re.search(r"\b[A-Z]", it):  # the clauses of the calls of a type, and the ghost members of a trait
                    known |= set().union(*crates.calls[crate].values()) | crates.ghosts[crate]
            for label in WORD.findall(labels.replace(" and ", " ")):
                if label not in known and not (label[0].isupper() and label in crates.words):
                    yield number, f"`{crate}::{call}` has no clause `{label}`"
        for crate, module, cited in MODULE.findall(text):
            found = crates.specs(crate, module) if crate in crates.names else set()
            for name in WORD.findall(cited.replace(" and ", " ")):
                if not found or name not in found:
                    yield number, f"`{name}` isn't in `{crate}/{module}`"


def homes(document, crates):
    """Definitions of a table `definition | home` that don't stand in the files of their home."""
    for number, row, head in document.cells:
        if "home" in head and len(row) == len(head):
            at = head.index("home")
            yield from missing(number, row[at], [row[at - 1]], crates)


def listed_homes(document, crates):
    """Definitions of a list `**home**: `names`: what they are. ..` that don't stand in the files of their home."""
    for number, text in document.blocks if document.name == "docs/definitions.md" else []:
        found = re.match(r"\*\*([^*]+)\*\*: ", text)
        if found:
            named = re.findall(r"(?:^|\. )(`[^`]+`[^:.]*):", text[found.end() :])
            yield from missing(number, found[1], named, crates)


def missing(number, home, cells, crates):
    """Findings of a home, as `crate, File, File; crate (note)`, that lacks a definition which some text names."""
    words = set()
    for part in re.sub(r"\([^)]*\)", "", home).split(";"):
        crate, *modules = [it.strip() for it in part.split(",")]
        if crate not in crates.names:
            yield number, f"no crate {crate}"
            continue
        found = [crates.specs(crate, it) for it in modules] or [crates.all_words(crate)]
        for module, it in zip(modules, found):
            if it is None:
                yield number, f"no definitions {crate}, {module}"
        words |= set().union(*(it or set() for it in found))
        if "(" in home:
            words |= crates.all_words(crate)
    for cell in cells:
        for code in CODE.findall(re.sub(r"\([^)]*\)", "", cell)):
            if not set(WORD.findall(code)) & words and code not in words and WORD.search(code):
                yield number, f"`{code}` isn't defined in {home}"


def counts(document, figures):
    """Numbers of things that can be counted, and are others now."""
    for number, text in document.texts():
        for pattern, count, what in figures:
            for found in re.finditer(pattern, text):
                said = int(found[2].replace(",", ""))
                right = said < count if found[1].strip() == "more than" else said == count
                if not right:
                    yield number, f"{found[0]}: {what} are {count}"


def figures(crates):
    """Patterns of counts in prose, each with the count."""
    edits = len(files("crates/*/must-fail/*.edit"))
    apart = len(files("wrong-bodies/*/*.edit"))
    scripts = len(files("crates/script_tests/data/*"))
    listed = sum(1 for line in (TOP / "crates.txt").read_text().splitlines() if re.match(r"\w+:", line))
    some = r"(more than |the |all |some |its |of |)"
    return [
        (some + r"(\d+) (?:wrong bodies|deliberately broken|must-fail edits)", edits, "the edits in the gate"),
        (some + r"(\d+) (?:others|wrong bodies outside)", apart, "the edits outside the gate"),
        (some + r"(\d+) scripts", scripts, "the scripts of script_tests"),
        (r"(the |all |its |of )(\d+) crates", listed, "the crates"),
    ]


def lists(documents, crates):
    """Crates that aren't in crates.txt, or not in docs/crates.md."""
    listed = set(re.findall(r"(?m)^(\w+):", (TOP / "crates.txt").read_text(encoding="utf-8")))
    page = documents[TOP / "docs/crates.md"]
    told = set(WORD.findall("\n".join(page.lines)))
    for crate in sorted(crates.names ^ listed):
        yield page, 1, f"{crate} stands in crates/ or in crates.txt alone"
    for crate in sorted(listed - told):
        yield page, 1, f"no word about {crate}"


def listings(document):
    """Code of a page, in fences marked rust, that stands in no file that the page links."""
    linked = [(document.path.parent / target).resolve() for line in document.lines for _, target in LINK.findall(line)]
    sources = [path.read_text(encoding="utf-8") for path in linked if path.suffix == ".rt" and path.is_file()]
    for code in re.finditer(r"(?ms)^```rust\n(.*?)^```", "\n".join(document.lines)):
        if not any(code[1] in source for source in sources):
            number = "\n".join(document.lines)[: code.start()].count("\n") + 1
            yield number, "this code stands in no file that the page links"


def sizes(document):
    """Sizes of trusted definitions, `some N lines` beneath a claim, that are off by more than a tenth."""
    text = " ".join(document.lines)
    for word, claim in (("beneath `Does` lie", "ae_cli/Does"), ("beneath \"the text is plaintext SQL's\"", "run_command/Plain")):
        for said in re.findall(re.escape(word) + r" some ([\d,]+)", text, re.IGNORECASE):
            lines = sum(map(definition_lines, beneath(file_of(*claim.split("/")))))
            if abs(int(said.replace(",", "")) - lines) > lines / 10:
                yield 1, f"{word} {said} lines: they are {lines}"


def sentences(document):
    """Sentences with too many words. What is in backticks counts as one."""
    most = MOST_WORDS_OF_USERS if document.name in FOR_USERS else MOST_WORDS
    for number, text in document.texts():
        plain = CODE.sub("code", LINK.sub(r"\1", re.sub(r"^\*\*[^*]+\*\*: ", "", text)))
        for sentence in re.split(r"(?<=[.?!])[\"')*]*\s+|(?<=\.\))\s+", plain):
            count = len([it for it in sentence.split() if re.search(r"\w", it)])
            if count > most and HEADLINE.split(" ", 1)[1] not in sentence:
                yield number, f"a sentence of {count} words: {' '.join(sentence.split()[:8])} .."


def widths(document):
    """Cells of tables that are paragraphs."""
    for number, row, _ in document.cells:
        for cell in row:
            if len(cell) > MOST_CELL:
                yield number, f"a cell of {len(cell)} characters: {cell[:50]} .."


def main():
    crates = Crates()
    documents = {path: Document(path) for path in files("*.md")}
    known = figures(crates)
    found = [(page.name, number, it) for page, number, it in lists(documents, crates)]
    for document in documents.values():
        for test in (
            links(document, documents),
            names(document, crates),
            clauses(document, crates),
            places(document, crates),
            homes(document, crates),
            listed_homes(document, crates),
            counts(document, known),
            listings(document),
            sizes(document),
            sentences(document),
            widths(document),
        ):
            found += [(document.name, number, it) for number, it in test]
    for name, number, it in sorted(found):
        print(f"{name}:{number}: {it}")
    if found:
        sys.exit(1)
    print(f"check_docs: {len(documents)} documents are right")


if __name__ == "__main__":
    main()

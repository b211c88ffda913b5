#!/usr/bin/env python3
"""Lists a journal without a server: its records and their places, by kind, and what follows its closed gate.

Usage: ae journal < journal.bin, where it is built: look_at_journal.py PROGRAM. The file isn't changed. Only the first line of a text is
shown, and no value of a parameter; literals in a text are shown as they are. Ends with status 1 if the file is damaged, if a record
isn't accepted, or if more follows the closed gate than one record that was being written leaves. A start cuts that off, so copy the
file first. A frame is measured by its header here; the program, which is started over a copy of the records, also reads its body, and
serves it again.
"""
import subprocess
import sys
import tempfile

MOST_TEXT = 60  # characters of a text that are shown
EXECUTE = 2  # the kind of the frame of a request to execute
MOST_BODY = 16_777_216  # bytes of a frame's body


def texts_in(entry):
    """The texts of the frames of a record, or None where it isn't one or more whole frames that execute."""
    texts, at = [], 0
    while at < len(entry):
        size = int.from_bytes(entry[at + 2 : at + 6], "big")
        body = entry[at + 6 : at + 6 + size]
        is_head = len(entry) >= at + 6 and entry[at] in (1, 2) and entry[at + 1] == EXECUTE
        if not is_head or not 15 <= size <= MOST_BODY or len(body) < size:
            return None
        count = int.from_bytes(body[10:14], "big")
        if 15 + count > size:
            return None
        texts.append(body[14 : 14 + count].decode("utf-8", "replace"))
        at += 6 + size
    return texts or None


def kind_of(texts):
    """Whether a record is a transaction, a definition or a change, as the beginning of its texts tells."""
    if len(texts) > 1:
        return "transaction"
    words = texts[0].split(None, 1)
    return "definition" if words and words[0].upper() in ("CREATE", "ALTER", "DROP") else "change"


def shown(texts):
    """The first line of the first text; of a transaction that of its first change."""
    text = " ".join(texts[min(1, len(texts) - 1)].splitlines()[:1])
    return text if len(text) <= MOST_TEXT else text[: MOST_TEXT - 2] + ".."


def records_of(data):
    """The records, each as the place of its gate, its length and its texts; and where they end: the place of a gate, and whether that
    gate is closed. An open one there isn't followed by a whole record and one more byte."""
    found, at = [], 0
    while data[at] != 0:
        size = int.from_bytes(data[at + 1 : at + 9], "big")
        entry = data[at + 9 : at + 9 + size]
        texts = texts_in(entry) if len(data) > at + 9 + size else None
        if texts is None:
            return found, at, False
        found.append((at, size, texts))
        at += 9 + size
    return found, at, True


def is_one_staged(rest):
    """Whether a record that was being written may have left these bytes: its length, its frames and a closed gate, or part of them."""
    return len(rest) < 8 or len(rest) <= 9 + int.from_bytes(rest[:8], "big")


def ending_over(data, program):
    """The status of a server that is started over a copy of a file, and what it says on standard error."""
    with tempfile.TemporaryDirectory() as folder:
        with open(f"{folder}/journal.bin", "wb") as copy:
            copy.write(data)
        words = [program, "serve", "--journal"]
        ran = subprocess.run(words, cwd=folder, stdin=subprocess.DEVNULL, stdout=subprocess.DEVNULL, stderr=subprocess.PIPE, check=False)
        return ran.returncode, ran.stderr.decode("utf-8", "replace").strip()


def try_records(data, program, out):
    """Says whether a server accepts all records, and returns the status."""
    try:
        status, said = ending_over(data, program)
    except OSError as why:  # a full disk, say
        status, said = None, why
    if status == 0:
        print("a server accepts all records", file=out)
        return 0
    if status == 13:
        print(f"a server doesn't accept all records; a start ends with status 13, {said}", file=out)
    else:
        print(f"not known whether a server accepts all records: {said}", file=out)
    return 1


def look(data, out, program=None):
    """Writes the list, and returns the status."""
    if len(data) <= 1:
        print("no records: a start makes a new journal of this file", file=out)
        return 0
    found, end, is_closed = records_of(data)
    for place, size, texts in found:
        print(f"{place:12} {size:10} {kind_of(texts):11} {shown(texts)}", file=out)
    kinds = [kind_of(texts) for _, _, texts in found]
    counts = ", ".join(f"{kinds.count(it)} {it}s" for it in ("definition", "change", "transaction"))
    print(f"{len(found)} records: {counts}", file=out)
    if not is_closed:
        print(f"damaged: behind the gate at {end} stands no whole record; a start ends with status 13", file=out)
        return 1
    rest = data[end + 1 :]
    print(f"closed gate at {end}, {len(rest)} bytes behind it" + (", which a start cuts off" if rest else ""), file=out)
    if rest and not is_one_staged(rest):
        print("these are more than a record that was being written leaves: a gate may have become 00. Copy the file first.", file=out)
    accepted = try_records(data[: end + 1], program, out) if program else 0
    return 1 if accepted or rest and not is_one_staged(rest) else 0


if __name__ == "__main__":
    sys.exit(look(sys.stdin.buffer.read(), sys.stdout, *sys.argv[1:]))

#!/usr/bin/env python3
"""Tests look_at_journal.py without the program, over the worked journal of docs/formats.md. Usage: tools/test_look_at_journal.py"""
import io
import os
import tempfile
import unittest

from look_at_journal import look

RECORD = bytes.fromhex(
    "000000000000002b 0102 00000025 0001 0000000000000000 00000016 435245415445205441424c45207420286120494e5429 00"
)
INSERT = b"\2\2" + bytes.fromhex("0000002b 0001 0000000000000001 0000001c") + b"INSERT INTO t (a) VALUES (5)" + b"\0"
DEFINED = "           0         43 definition  CREATE TABLE t (a INT)\n1 records: 1 definitions, 0 changes, 0 transactions\n"


def framed(*frames):
    """A record of these frames, as it stands in a file."""
    entry = b"".join(frames)
    return len(entry).to_bytes(8, "big") + entry


def seen(data, program=None):
    """The list of a file, and the status."""
    out = io.StringIO()
    status = look(data, out, program)
    return out.getvalue(), status


def seen_by(ending, data):
    """The last line of the list, and the status, where the program is a script that ends so, over a copy of some bytes."""
    with tempfile.TemporaryDirectory() as folder:
        with open(f"{folder}/server", "w", encoding="ascii") as file:
            file.write(f"#!/bin/sh\n[ \"$*\" = 'serve --journal' ] && [ $(wc -c <journal.bin) = {len(data)} ] && {ending}\n")
        os.chmod(f"{folder}/server", 0o700)
        said, status = seen(data, f"{folder}/server")
    return said.splitlines()[-1], status


class Tests(unittest.TestCase):
    def test_files_without_records(self):
        for data in (b"", b"\0", b"\1"):
            self.assertEqual(seen(data), ("no records: a start makes a new journal of this file\n", 0))

    def test_the_worked_journal(self):
        self.assertEqual(seen(b"\1" + RECORD + b"\0"), (DEFINED + "closed gate at 52, 0 bytes behind it\n", 0))

    def test_damage_has_its_place(self):
        said, status = seen(b"\1" + RECORD)
        self.assertEqual(said.splitlines()[1], "damaged: behind the gate at 0 stands no whole record; a start ends with status 13")
        self.assertEqual(status, 1)
        said, status = seen(b"\1" + RECORD + b"\1" + RECORD[:30])
        self.assertEqual(said, DEFINED + "damaged: behind the gate at 52 stands no whole record; a start ends with status 13\n")
        self.assertEqual(status, 1)

    def test_the_kinds(self):
        begin = b"\1\2" + bytes.fromhex("00000014 0001 0000000000000001 00000005") + b"BEGIN" + b"\0"
        said, status = seen(b"\1" + RECORD + b"\1" + framed(INSERT) + b"\1" + framed(begin, INSERT) + b"\0")
        self.assertEqual(
            said.splitlines()[1:4],
            [
                "          52         49 change      INSERT INTO t (a) VALUES (5)",
                "         110         75 transaction INSERT INTO t (a) VALUES (5)",
                "3 records: 1 definitions, 1 changes, 1 transactions",
            ],
        )
        self.assertEqual(status, 0)

    def test_what_stands_behind_the_closed_gate(self):
        staged, status = seen(b"\1" + RECORD + b"\0" + framed(INSERT) + b"\0")
        self.assertEqual(staged, DEFINED + "closed gate at 52, 58 bytes behind it, which a start cuts off\n")
        self.assertEqual(status, 0)
        # a gate in the middle that became 00
        said, status = seen(b"\1" + RECORD + b"\0" + framed(INSERT) + b"\1" + RECORD + b"\0")
        self.assertIn("a gate may have become 00", said)
        self.assertEqual(status, 1)

    def test_a_server_is_tried_over_a_copy(self):
        data = b"\1" + RECORD + b"\0"
        self.assertEqual(seen_by("exit 0", data), ("a server accepts all records", 0))
        said = "a server doesn't accept all records; a start ends with status 13, ae: bad journal at 0"
        self.assertEqual(seen_by("echo 'ae: bad journal at 0' >&2 && exit 13", data), (said, 1))
        said = "not known whether a server accepts all records: ae: out of memory"
        self.assertEqual(seen_by("echo 'ae: out of memory' >&2 && exit 5", data), (said, 1))


if __name__ == "__main__":
    unittest.main()

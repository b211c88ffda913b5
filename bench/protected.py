"""The work of bench/protected.sh in sqlite3, with cells sealed and opened by the library `cryptography`.

Usage: protected.py KEYFILE N M GROUPS. Prints the seconds of N and of M steps, each the least of three runs. Fails if the last
grouped read of N steps isn't that of GROUPS, which `ae run` printed.
"""
import os
import sqlite3
import sys
import time

from column import column_of


def steps(column, count):
    """Inserts rows, with a grouped read after each quarter of them, and returns the last read."""
    base = sqlite3.connect(":memory:", isolation_level=None)
    base.execute("CREATE TABLE t (id INT, town BLOB, pay BLOB)")
    rows = []
    for i in range(1, count + 1):
        town = column.seal(f"town {i % 97}".encode("utf-16-le"))
        pay = column.seal((100000 + i).to_bytes(8, "little", signed=True), os.urandom(16))
        base.execute("INSERT INTO t (id, town, pay) VALUES (?, ?, ?)", (i, town, pay))
        if i % (count // 4) == 0:
            found = base.execute("SELECT town, COUNT(*) FROM t GROUP BY town")
            rows = [f"N'{column.open(cell).decode('utf-16-le')}'\t{n}" for cell, n in found]
    return rows


def main():
    path, few, many, groups = sys.argv[1:]
    column = column_of(path)
    took = []
    for count in (int(few), int(many)):
        least = None
        for _ in range(3):
            begin = time.perf_counter()
            rows = steps(column, count)
            seconds = time.perf_counter() - begin
            least = seconds if least is None else min(least, seconds)
        took.append(f"{least:.3f}")
        if count == int(few):
            with open(groups, encoding="utf-8") as it:
                printed = sorted(it.read().splitlines()[:-1])
            if printed != sorted(rows):
                sys.exit("the last grouped reads differ")
    print(*took)


main()

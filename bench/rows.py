"""Times rows that are put one by one under a unique key, and UPDATEs of one row, by the program and by sqlite3 in memory."""

import resource
import sqlite3
import subprocess
import sys
import time

program, few = sys.argv[1], int(sys.argv[2])
TABLE = "CREATE TABLE t (id INT UNIQUE, a INT, b INT)"
CHANGES = 20


def ran(statements):
    """What the program prints of a batch for each statement, and its processor seconds."""
    script = "".join(f"{statement}\nGO\n" for statement in statements)
    before = resource.getrusage(resource.RUSAGE_CHILDREN)
    text = subprocess.run([program, "run"], input=script.encode(), stdout=subprocess.PIPE, check=True).stdout.decode()
    after = resource.getrusage(resource.RUSAGE_CHILDREN)
    return text, after.ru_utime + after.ru_stime - before.ru_utime - before.ru_stime


def done(statements):
    """The last row that sqlite3 answers, and its processor seconds."""
    with sqlite3.connect(":memory:", isolation_level=None) as base:
        begin, last = time.process_time(), None
        for statement in statements:
            last = base.execute(statement).fetchone() or last
        return last, time.process_time() - begin


def one_by_one(count):
    return [TABLE] + [f"INSERT INTO t (id, a, b) VALUES ({n}, {n % 1000}, 0)" for n in range(count)]


def at_once(count):
    rows = [f"({n}, {n}, 0)" for n in range(count)]
    return [TABLE] + ["INSERT INTO t (id, a, b) VALUES " + ", ".join(rows[n : n + 100]) for n in range(0, count, 100)]


def each(count, statement):
    return [statement.format(n * (count // CHANGES)) for n in range(CHANGES)]


def same(text, row):
    """The last row that was printed is the one of sqlite3."""
    lines = text.splitlines()
    if lines[-2] != str(row[0]):
        sys.exit(f"{lines[-2]} is printed, and sqlite3 has {row[0]}")


count = "SELECT COUNT(*) AS n FROM t WHERE b = {}"
taken = []
for rows in (few, 4 * few):
    statements = one_by_one(rows) + [count.format(0)]
    text, own = ran(statements)
    row, theirs = done(statements)
    same(text, row)
    taken.append(own)
    print(f"{rows} rows one by one: {own:.2f} s, sqlite3 {theirs:.2f} s")
print(f"times {taken[1] / taken[0]:.2f}")

rows = 4 * few
base, own_base = ran(at_once(rows))
theirs_base = done(at_once(rows))[1]
for what, statement in (
    ("a query", "SELECT COUNT(*) AS n FROM t WHERE a = {}"),
    ("an UPDATE of one row", "UPDATE t SET b = 1 WHERE a = {}"),
    ("an UPDATE of its key", "UPDATE t SET id = id + 1000000 WHERE a = {}"),
    ("a DELETE of one row", "DELETE FROM t WHERE a = {}"),
):
    statements = at_once(rows) + each(rows, statement)
    own = (ran(statements)[1] - own_base) / CHANGES
    theirs = (done(statements)[1] - theirs_base) / CHANGES
    print(f"{what} among {rows}: {1000 * own:.1f} ms, sqlite3 {1000 * theirs:.1f} ms")

if taken[1] > 5 * taken[0]:
    sys.exit(1)

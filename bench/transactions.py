"""Prints the seconds of 64 sqlite3 connections that each begin a transaction, insert a row and commit, one after another, over a
table of N rows. Usage: transactions.py N .."""
import os
import sqlite3
import sys
import tempfile
import time


def seconds(rows):
    with tempfile.TemporaryDirectory() as folder:
        path = os.path.join(folder, "t.db")
        sessions = [sqlite3.connect(path, isolation_level=None) for _ in range(64)]
        begin = time.perf_counter()
        sessions[0].execute("CREATE TABLE t (a INT, b INT)")
        for first in range(0, rows, 1000):
            values = ", ".join(f"({i}, {i % 7})" for i in range(first, first + 1000))
            sessions[0].execute(f"INSERT INTO t (a, b) VALUES {values}")
        for number, session in enumerate(sessions, 1):
            session.execute("BEGIN")
            session.execute(f"INSERT INTO t (a, b) VALUES ({number}, 8)")
            session.execute("COMMIT")
        found = sessions[0].execute("SELECT COUNT(*) FROM t WHERE b = 8").fetchone()
        end = time.perf_counter()
        for session in sessions:
            session.close()
        assert found == (64,)
        return end - begin


print(*(f"{seconds(int(n)):.3f}" for n in sys.argv[1:]))

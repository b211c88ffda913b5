"""The joins of bench/joins.sh, which makes the files `setup` and `keys`. Usage: joins.py PROGRAM N."""
import hashlib
import resource
import sqlite3
import subprocess
import sys
import time

JOIN = "FROM x JOIN y ON x.k = y.k"
DET = (
    " ENCRYPTED WITH (COLUMN_ENCRYPTION_KEY = accounts_key, ENCRYPTION_TYPE = DETERMINISTIC,"
    " ALGORITHM = 'AEAD_AES_256_CBC_HMAC_SHA256')"
)
REPEATS = 20
MEASURES = 3


def tables(count):
    """The keys of both tables: the same numbers, in two orders."""
    return {"x": [(i * 7919 + 1) % count if count % 7919 else i for i in range(count)], "y": list(range(count))}


def insert(table, start, keys, protected):
    """A batch that inserts rows numbered from start on."""
    lines = [f"DECLARE @k{i} BIGINT = {key}" for i, key in enumerate(keys)] if protected else []
    values = ", ".join(f"({start + i}, {f'@k{i}' if protected else key})" for i, key in enumerate(keys))
    return "\n".join(lines + [f"INSERT INTO {table} (id, k) VALUES {values}", "GO\n"])


def script(count, protected, repeats):
    """Both tables, the whole join once, and then so many joins of which one row is shown."""
    with open("setup", encoding="utf-8") as setup:
        parts = [setup.read() if protected else ""]
    size = 128 if protected else 1000
    for table, keys in tables(count).items():
        parts.append(f"CREATE TABLE {table} (id INT, k BIGINT{DET if protected else ''})\nGO\n")
        parts += [insert(table, at, keys[at : at + size], protected) for at in range(0, count, size)]
    parts.append(f"SELECT x.id {JOIN}\nGO\n")
    return "".join(parts + [f"SELECT TOP (1) x.id {JOIN}\nGO\n"] * repeats)


def processor_seconds(program, text):
    """What a run of the program over a script takes, and what it prints."""
    before = resource.getrusage(resource.RUSAGE_CHILDREN)
    done = subprocess.run([program, "run"], input=text.encode(), stdout=subprocess.PIPE, check=True)
    after = resource.getrusage(resource.RUSAGE_CHILDREN)
    return after.ru_utime + after.ru_stime - before.ru_utime - before.ru_stime, done.stdout.decode()


def ours(program, count, protected):
    """One join's time, by the least of some measures with and without repeats, and how many rows the join has, as the
    program prints it."""
    runs = {repeats: [processor_seconds(program, script(count, protected, repeats)) for _ in range(MEASURES)] for repeats in (0, REPEATS)}
    once, often = (min(seconds for seconds, _ in runs[repeats]) for repeats in (0, REPEATS))
    return (often - once) / REPEATS, int(runs[0][0][1].splitlines()[-1].strip("(rows) "))


def theirs(count, protected):
    """The same in sqlite3; a protected key is a cell of 65 bytes."""
    base = sqlite3.connect(":memory:", isolation_level=None)
    for table, keys in tables(count).items():
        base.execute(f"CREATE TABLE {table} (id INT, k {'BLOB' if protected else 'INT'})")
        cells = (hashlib.sha512(b"%d" % key).digest() + b"\x01" if protected else key for key in keys)
        base.executemany(f"INSERT INTO {table} VALUES (?, ?)", enumerate(cells))
    took = []
    for _ in range(MEASURES):
        begin = time.process_time()
        for _ in range(REPEATS):
            (rows,) = base.execute(f"SELECT COUNT(x.id) {JOIN}").fetchone()
        took.append((time.process_time() - begin) / REPEATS)
    return min(took), rows


def main():
    program, most = sys.argv[1], int(sys.argv[2])
    right = True
    for protected in (False, True):
        print("by a protected key" if protected else "by a plain key")
        took, peer = [], []
        for count in (most // 4, most):
            mine, rows = ours(program, count, protected)
            other, expected = theirs(count, protected)
            took.append(mine)
            peer.append(other)
            right = right and rows == expected
            print(f"{count} by {count} rows: ae {mine:.3f} s, sqlite3 {other:.3f} s, times {mine / other:.2f}; {rows} rows")
        grows, grown = took[1] / took[0], peer[1] / peer[0]
        print(f"of four times as many rows: times {grows:.2f}, sqlite3 {grown:.2f}")
        right = right and grows <= 2 * grown
    sys.exit(not right)


main()

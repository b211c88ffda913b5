"""The statements of bench/points.sh, which makes the files `setup` and `keys`. Usage: points.py PROGRAM KEYFILE N."""
import fcntl
import itertools
import os
import sqlite3
import subprocess
import sys
import time

from column import column_of

DET = (
    " ENCRYPTED WITH (COLUMN_ENCRYPTION_KEY = accounts_key, ENCRYPTION_TYPE = DETERMINISTIC,"
    " ALGORITHM = 'AEAD_AES_256_CBC_HMAC_SHA256')"
)
# The marks of keys in a statement: P of a plain one, C of a protected one, with an N behind it where no row has it.
MARKS, SEALED, NEW = {"P", "C", "PN", "CN"}, {"C", "CN"}, {"PN", "CN"}
# Each table is the only one of its run: its name, its columns, a row, and its statements, each with the most that it may
# take of what sqlite3 takes.
TABLES = [
    (
        "t",
        "k BIGINT NOT NULL UNIQUE, c BIGINT{} NOT NULL UNIQUE, a INT",
        "( P , C , P )",
        {
            "BEGIN, INSERT, COMMIT under both keys": (1, "INSERT INTO t (k, c, a) VALUES ( PN , CN , 1 )"),
            "SELECT by the plain key": (3, "SELECT a FROM t WHERE k = P"),
            "SELECT with IN of two plain keys": (3, "SELECT a FROM t WHERE k IN ( P , P )"),
            "join by the plain key": (None, "SELECT y.a FROM t AS x JOIN t AS y ON y.k = x.k WHERE x.k = P"),
            "UPDATE of another column by the plain key": (3, "UPDATE t SET a = 1 WHERE k = P"),
            "UPDATE of the plain key": (3, "UPDATE t SET k = PN WHERE k = P"),
            "DELETE by the plain key": (3, "DELETE FROM t WHERE k = P"),
            "SELECT by the protected key": (1, "SELECT a FROM t WHERE c = C"),
            "SELECT with IN of two protected keys": (1, "SELECT a FROM t WHERE c IN ( C , C )"),
            "join by the protected key": (3, "SELECT y.a FROM t AS x JOIN t AS y ON y.c = x.c WHERE x.c = C"),
            "UPDATE of another column by the protected key": (1, "UPDATE t SET a = 1 WHERE c = C"),
            "UPDATE of the protected key": (1, "UPDATE t SET c = CN WHERE c = C"),
            "DELETE by the protected key": (1, "DELETE FROM t WHERE c = C"),
        },
    ),
    (
        "u",
        "k BIGINT NOT NULL UNIQUE, a INT",
        "( P , P )",
        {"BEGIN, INSERT, COMMIT under a plain key": (None, "INSERT INTO u (k, a) VALUES ( PN , 1 )")},
    ),
]
# What is printed between two statements is more than the program can print while nobody reads.
PAD, PAD_ROWS = "SELECT k, k FROM pad\nGO\n", 1000
GROWTH, REPEATS = 1.5, 5


def marks_of(text):
    return [word for word in text.split() if word in MARKS]


def runs_of(texts, count, often):
    """For each statement the keys of its runs. A key of a row is given once, all over the table."""
    known, new = (i * 7919 % count for i in itertools.count()), itertools.count(count)
    return {text: [[next(new if mark in NEW else known) for mark in marks_of(text)] for _ in range(often)] for text in texts}


def batch(text, keys):
    """A batch for the program, with a parameter for each protected key."""
    declared, words, keys = [], [], iter(keys)
    for word in text.split():
        key = next(keys) if word in MARKS else word
        if word in SEALED:
            declared.append(f"DECLARE @c{len(declared)} BIGINT = {key}\n")
            key = f"@c{len(declared) - 1}"
        words.append(str(key))
    return "".join(declared) + " ".join(words) + "\nGO\n"


def statement(text, keys):
    """The batches of a statement; an INSERT has a transaction to itself."""
    made = batch(text, keys)
    return f"BEGIN TRANSACTION\nGO\n{made}COMMIT\nGO\n" if text.startswith("INSERT") else made


def filled(name, columns, row, count):
    """The table with its rows, and another with those that are read between two statements."""
    with open("setup", encoding="utf-8") as setup:
        parts = [setup.read(), f"CREATE TABLE {name} ({columns.format(DET)})\nGO\nCREATE TABLE pad (k INT)\nGO\n"]
    parts.append(f"INSERT INTO pad (k) VALUES {', '.join(['(1000000)'] * PAD_ROWS)}\nGO\n")
    for start in range(0, count, 128):
        keys = range(start, min(start + 128, count))
        rows = " , ".join([row] * len(keys))
        parts.append(batch(f"INSERT INTO {name} VALUES {rows}", [key for key in keys for _ in marks_of(row)]))
    return "".join(parts)


def number_in(line):
    """The number of rows in the line that ends a printed answer, 0 where there is none; None for another line."""
    if line.startswith(b"(") and line.endswith((b" rows)\n", b" affected)\n")):
        return int(line[1:].split()[0])
    return 0 if line == b"ok\n" else None


def lines_of(output):
    """The lines that a program prints. It is read now and then, so that printing mostly wakes nobody."""
    line = b""
    while True:
        time.sleep(0.0005)
        piece = os.read(output.fileno(), 4096)
        if not piece:
            return
        *lines, line = (line + piece).splitlines(keepends=True)
        if line.endswith(b"\n"):
            lines, line = [*lines, line], b""
        yield from lines


def time_of(child):
    """The processor seconds of a process, once it waits for its reader or has ended."""
    while True:
        with open(f"/proc/{child.pid}/stat", encoding="ascii") as it:
            state = it.read().rpartition(")")[2].split()[0]
        if state in "SZ":
            return time.clock_gettime(~child.pid << 3 | 2)  # that process's clock, as clock_getcpuclockid gives it
        time.sleep(0.0005)


def ours(program, base, runs):
    """The processor seconds of each statement's runs, in one run of the program, and their rows."""
    statements = (PAD + "".join(statement(text, keys) for keys in each) for text, each in runs.items())
    parts = [base, PAD, *statements]
    child = subprocess.Popen([program, "run"], stdin=subprocess.PIPE, stdout=subprocess.PIPE)
    fcntl.fcntl(child.stdout, fcntl.F_SETPIPE_SZ, 4096)
    child.stdin.write("".join([*parts, PAD]).encode())
    child.stdin.close()
    answers = (number for number in map(number_in, lines_of(child.stdout)) if number is not None)
    read, rows = [], []
    for part in parts:
        rows.append(sum(itertools.islice(answers, part.count("\nGO\n"))) - PAD_ROWS)
        read.append(time_of(child))
    if list(answers) != [PAD_ROWS] or child.wait():
        sys.exit(f"status {child.wait()}")
    pad = read[1] - read[0]
    return [behind - before - pad for before, behind in zip(read[1:], read[2:])], rows[2:]


def theirs(column, name, columns, rows, runs):
    """The same in sqlite3 over these rows. It gets protected keys as cells that are sealed meanwhile."""
    base = sqlite3.connect(":memory:", isolation_level=None)
    base.execute(f"CREATE TABLE {name} ({columns.format('')})")
    base.executemany(f"INSERT INTO {name} VALUES ({', '.join('?' * len(rows[0]))})", rows)
    took, found = [], []
    for text, each in runs.items():
        asked, marks = " ".join("?" if word in MARKS else word for word in text.split()), marks_of(text)
        begin = time.process_time()
        found.append(sum(asked_of(base, asked, cells_of(column, marks, keys)) for keys in each))
        took.append(time.process_time() - begin)
    return took, found


def cells_of(column, marks, keys):
    return [column.seal(key.to_bytes(8, "little")) if mark in SEALED else key for mark, key in zip(marks, keys)]


def asked_of(base, asked, keys):
    """How many rows sqlite3 answers or changes."""
    if asked.startswith("SELECT"):
        return len(base.execute(asked, keys).fetchall())
    if not asked.startswith("INSERT"):
        return base.execute(asked, keys).rowcount
    base.execute("BEGIN")
    count = base.execute(asked, keys).rowcount
    base.execute("COMMIT")
    return count


def least(runs):
    """The least of each statement's times, and its rows, which are those of each run."""
    times, rows = zip(*runs)
    if any(it != rows[0] for it in rows):
        sys.exit("two runs differ")
    return [min(each) for each in zip(*times)], rows[0]


def trials_of(program, column, table, count, often):
    """What runs the statements once by the program, and once by sqlite3, over so many rows."""
    name, columns, row, statements = table
    runs = runs_of([text for _, text in statements.values()], count, often)
    base = filled(name, columns, row, count)
    rows = [cells_of(column, marks_of(row), [key] * len(marks_of(row))) for key in range(count)]
    return lambda: ours(program, base, runs), lambda: theirs(column, name, columns, rows, runs)


def measured(program, column, table, counts, often):
    """The milliseconds of each statement by the program and by sqlite3, over fewer and over more rows."""
    trials = [trial for count in counts for trial in trials_of(program, column, table, count, often)]
    # (the runs of one kind lie apart, since a machine that does other work is slow for some time)
    results = [least(runs) for runs in zip(*([trial() for trial in trials] for _ in range(REPEATS)))]
    for (_, found), (_, expected) in zip(results[::2], results[1::2]):
        if found != expected:
            sys.exit(f"rows {found}, and in sqlite3 {expected}")
    return [[1000 * it / often for it in times] for times, _ in results]


def main():
    program, path, most = sys.argv[1], sys.argv[2], int(sys.argv[3])
    few, often, column, failed = most // 4, min(most // 64, 2000), column_of(path), False
    print(f"{'processor ms of a statement, and of sqlite3':<50} {few:>8} {most:>8} growth {few:>8} {most:>8}  times")
    for table in TABLES:
        found = measured(program, column, table, (few, most), often)
        for (what, (goal, _)), a, c, b, d in zip(table[3].items(), *found):
            growth, times = b / a, max(a / c, b / d)
            grows, is_past = growth > GROWTH, goal is not None and times > goal
            said = " GROWS" * grows + f" PAST {goal}" * is_past
            print(f"{what:<50} {a:8.4f} {b:8.4f} {growth:6.2f} {c:8.4f} {d:8.4f} {times:6.2f}{said}", flush=True)
            failed = failed or grows or is_past
    sys.exit(failed)


main()

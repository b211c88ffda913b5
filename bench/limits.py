"""Reaches and passes each limit, as bench/limits.sh says. Usage: limits.py PROGRAM, in an empty folder with keys/main.key."""
import os
import subprocess
import sys
import threading
import time

MASTER = "CREATE COLUMN MASTER KEY M{} WITH (KEY_STORE_PROVIDER_NAME = N'KEYFILE', KEY_PATH = N'{}')"
KEY = "CREATE COLUMN ENCRYPTION KEY K{} WITH VALUES (COLUMN_MASTER_KEY = M, ALGORITHM = 'AES_256_KW', ENCRYPTED_VALUE = 0x{})"
TOO_LONG, NO_TABLE = "error 13 TooLong", "error 20 NoTable t"


def repeated(front, middle, times, back=""):
    return front + middle * times + back


def texts():
    """What is reached and passed, the batches, and the last lines that are printed."""

    def both(make, most, at, past=TOO_LONG):
        return [make(most), make(most + 1)], [at, past]

    columns = lambda n: "CREATE TABLE t (" + ", ".join(f"a{i} INT" for i in range(n)) + ")"
    keys = lambda n: "CREATE TABLE t (a INT" + ", UNIQUE (a)" * n + ")"
    key = lambda n: "CREATE TABLE t (a INT, UNIQUE (a" + ", a" * (n - 1) + "))"
    rules = lambda n: "SELECT a FROM t WHERE a = 1" + " AND a = 1" * (8192 // 2 - 1) + " ORDER BY a" * (n - 8192)
    parentheses = lambda n: "SELECT a FROM t WHERE " + "(" * n + "a = 1" + ")" * n
    declared = lambda n: "".join(f"DECLARE @p{i} INT = 1\n" for i in range(n)) + "SELECT a FROM t"
    one, table, rows = "INSERT INTO t (a) VALUES (1)", "CREATE TABLE t (a INT)", "INSERT INTO t (a) VALUES (1)" + ", (1)" * 999
    joined = "SELECT TOP (1) x.a FROM t AS x JOIN t AS y ON x.a = y.a"
    wide = "INSERT INTO t (a) VALUES (0x" + "ab" * 8000 + ")" + ", (0x" + "ab" * 8000 + ")"
    return [
        ("65,536 bytes of a statement", *both(lambda n: "SELECT a FROM t" + " " * (n - 15), 65536, NO_TABLE)),
        ("8 tables in FROM", *both(lambda n: "SELECT a FROM t" + " JOIN t ON a = a" * (n - 1), 8, NO_TABLE)),
        ("512 items", *both(lambda n: "SELECT a" + ", a" * (n - 1) + " FROM t", 512, NO_TABLE)),
        ("64 columns of a table", *both(columns, 64, "ok")),
        ("8 unique keys of a table", *both(keys, 8, "ok")),
        ("16 columns of a key", *both(key, 16, "error 22 Ambiguous a")),
        ("1,000 rows of VALUES", *both(lambda n: "INSERT INTO t (a) VALUES (1)" + ", (1)" * (n - 1), 1000, NO_TABLE)),
        ("8,192 rules", [table, rules(8192), rules(8193)], ["(0 rows)", TOO_LONG]),
        ("4,000 units of a text", *both(lambda n: f"SELECT a FROM t WHERE a = N'{'x' * n}'", 4000, NO_TABLE)),
        ("8,000 bytes of a binary", *both(lambda n: f"SELECT a FROM t WHERE a = 0x{'00' * n}", 8000, NO_TABLE)),
        ("1,024 bytes of a path", [MASTER.format("", "p" * 1025), MASTER.format("", "p" * 1024)], [TOO_LONG, "ok"]),
        ("1,024 bytes of an encrypted value", [MASTER.format("", "main"), KEY.format("", "00" * 1025), KEY.format("", "00" * 1024)], [TOO_LONG, "ok"]),
        ("64 open parentheses", *both(parentheses, 64, NO_TABLE, "error 12 TooDeep")),
        ("128 parameters", [declared(128)], [NO_TABLE]),
        ("64 master keys", [MASTER.format(i, "main") for i in range(65)], ["ok", "error 63 Full"]),
        ("64 column keys", [MASTER.format("", "main"), *(KEY.format(i, "00" * 40) for i in range(65))], ["ok", "error 63 Full"]),
        ("256 tables", [f"CREATE TABLE t{i} (a INT)" for i in range(257)], ["ok", "error 63 Full"]),
        ("1,000,000 rows of a table", [table, *[rows] * 1000, one], ["(1000 affected)", "error 54 TableFull"]),
        ("1,000,000 rows that pass ON", [table, rows, joined, one, joined], ["(1 rows)", "(1 affected)", "error 53 TooManyRows"]),
        ("960 rows of 8,000 bytes, read", ["CREATE TABLE t (a VARBINARY(8000))", *[wide] * 480, "SELECT a FROM t"], ["(960 rows)"]),
    ]


def ended(program, words, source):
    """The status, the last 100 bytes, the seconds and the MB of a program that reads some pieces."""
    child = subprocess.Popen([program, *words], stdin=subprocess.PIPE, stdout=subprocess.PIPE, stderr=subprocess.DEVNULL)
    last = [b""]

    def keep():
        for piece in iter(lambda: child.stdout.read(1 << 20), b""):
            last[0] = (last[0] + piece)[-100:]

    def give():
        try:
            for piece in source:
                child.stdin.write(piece)
            child.stdin.close()
        except BrokenPipeError:
            pass

    began = time.time()
    threads = [threading.Thread(target=it, daemon=True) for it in (keep, give)]
    for it in threads:
        it.start()
    _, status, used = os.wait4(child.pid, 0)
    threads[0].join()
    return os.waitstatus_to_exitcode(status), last[0], time.time() - began, used.ru_maxrss / 1000


def streams():
    """What is passed, the words, the pieces of the input, and the status."""
    most = 1 << 24
    blanks = [b" " * (1 << 20)] * 16
    frame = b"\x01\x01" + most.to_bytes(4, "big")
    question = b"\x01\x01\x00\x01\x00\x0f\x00\x01\x00\x01\x00\x00" + b"SELECT a FROM t" + b" " * 65521 + b"\x00"
    question = b"\x01\x01" + (len(question) - 6).to_bytes(4, "big") + question[6:]
    whole = (1 << 30) // len(question) + 1
    return [
        ("16,777,216 bytes of a script", ["run"], blanks, 0),
        ("16,777,217 bytes of a script", ["run"], [*blanks, b" "], 9),
        ("16,777,217 bytes of a script, checked", ["check"], [*blanks, b" "], 9),
        ("16,777,217 bytes of a key", ["wrap", "main"], [*blanks, b" "], 9),
        ("16,777,216 bytes of a frame that is none", ["serve"], [frame, *blanks], 10),
        ("16,777,217 bytes of a frame", ["serve"], [b"\x01\x01" + (most + 1).to_bytes(4, "big"), *blanks], 10),
        ("1,073,741,824 bytes of requests", ["serve"], (question for _ in range(whole)), 9),
    ]


def main(program):
    worst = 0
    for what, batches, lines in texts():
        script = "\nGO\n".join(batches).encode()
        status, last, seconds, memory = ended(program, ["run"], [script])
        worst = max(worst, memory)
        print(f"{what:<45} {seconds:8.3f} s {memory:8.1f} MB", flush=True)
        if status not in (0, 1) or last.decode().splitlines()[-len(lines) :] != lines:
            sys.exit(f"status {status}, {last!r}, and not {lines}")
    for what, words, pieces, wanted in streams():
        status, last, seconds, memory = ended(program, words, pieces)
        worst = max(worst, memory)
        print(f"{what:<45} {seconds:8.3f} s {memory:8.1f} MB", flush=True)
        if status != wanted:
            sys.exit(f"status {status}, {last!r}, and not {wanted}")
    # The largest is an answer of a million rows, which is in memory as a list.
    if worst > 1000:
        sys.exit(f"{worst:.0f} MB")


main(sys.argv[1])

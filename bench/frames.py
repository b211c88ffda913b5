"""The work of bench/frames.sh, and its figures. Usage: frames.py PROGRAM N, in an empty folder with keys/main.key."""
import os
import sqlite3
import subprocess
import sys
import time

BEGINNING = """CREATE COLUMN MASTER KEY M WITH (KEY_STORE_PROVIDER_NAME = N'KEYFILE', KEY_PATH = N'main')
GO
CREATE COLUMN ENCRYPTION KEY K WITH VALUES (COLUMN_MASTER_KEY = M, ALGORITHM = 'AES_256_KW', ENCRYPTED_VALUE = 0x28C9F404C4B810F4CBCCB35CFB87F8263F5786E2D80ED326CBC7F0E71A99F43BFB988B9B7A02DD21)
GO
CREATE TABLE t (id INT, c NVARCHAR(8) ENCRYPTED WITH (COLUMN_ENCRYPTION_KEY = K, ENCRYPTION_TYPE = DETERMINISTIC, ALGORITHM = 'AEAD_AES_256_CBC_HMAC_SHA256'))
GO
"""
AT_ONCE, VALUES = 1000, 8  # rows of an INSERT, and its parameters


def script(rows):
    """Inserts so many rows, a thousand at once, and reads them."""
    parts = [BEGINNING]
    for begin in range(0, rows, AT_ONCE):
        for i in range(VALUES):
            parts.append(f"DECLARE @{i} NVARCHAR(8) = N'v{(begin // AT_ONCE * VALUES + i) % 10000}'\n")
        values = (f"({n}, @{n % VALUES})" for n in range(begin, min(begin + AT_ONCE, rows)))
        parts.append(f"INSERT INTO t (id, c) VALUES {', '.join(values)}\nGO\n")
    return "".join([*parts, "SELECT id, c FROM t\nGO\n"])


def ran(program, rows, *words):
    """The seconds by the clock and of a processor, and the most memory in KB. The text is in the file `text`."""
    with open("script", "w", encoding="ascii") as it:
        it.write(script(rows))
    begin = time.perf_counter()
    with open("script", "rb") as given, open("text", "wb") as put:
        child = subprocess.Popen([program, "run", *words], stdin=given, stdout=put)
        _, status, used = os.wait4(child.pid, 0)
    if os.waitstatus_to_exitcode(status) or not last_bytes("text").endswith(f"\n({rows} rows)\n".encode()):
        sys.exit(f"{rows} rows: status {os.waitstatus_to_exitcode(status)}")
    return time.perf_counter() - begin, used.ru_utime + used.ru_stime, used.ru_maxrss


def last_bytes(path):
    with open(path, "rb") as it:
        it.seek(max(0, os.path.getsize(path) - 100))
        return it.read()


def answers():
    """How many frames of rows tap.bin has, how many bytes these have, and their rows in order."""
    with open("tap.bin", "rb") as it:
        data = it.read()
    at, frames, size, found = 0, 0, 0, []
    while at < len(data):
        behind = at + 6 + int.from_bytes(data[at + 2 : at + 6], "big")
        kind, body = data[at + 1], data[at + 6 : behind]
        if kind in (0x83, 0x86):
            frames, size = frames + 1, size + behind - at
            place = 2 if kind == 0x83 else 4
            while place < len(body):
                # A number of 9 bytes, and a cell after its kind and its length.
                number = int.from_bytes(body[place + 1 : place + 9], "big")
                length = int.from_bytes(body[place + 10 : place + 12], "big")
                found.append((number, body[place + 12 : place + 12 + length]))
                place += 12 + length
        at = behind
    return frames, size, found


def in_sqlite3(rows):
    """The processor seconds that sqlite3 takes to insert these rows, and to read them."""
    base = sqlite3.connect(":memory:", isolation_level=None)
    base.execute("CREATE TABLE t (id INT, c BLOB)")
    begin = time.process_time()
    for at in range(0, len(rows), AT_ONCE):
        base.executemany("INSERT INTO t (id, c) VALUES (?, ?)", rows[at : at + AT_ONCE])
    if base.execute("SELECT id, c FROM t").fetchall() != rows:
        sys.exit("sqlite3 reads other rows")
    return time.process_time() - begin


def main(program, most):
    some = most * 2 // 5
    print(f"{f'{some} rows in both versions':<50} {'seconds':>8} {'frames':>8} {'MB':>8}", flush=True)
    texts, rows = [], []
    for words in ([], ["--frames", "2"]):
        taken = min(ran(program, some, *words)[1] for _ in range(3))
        with open("text", "rb") as it:
            texts.append(it.read())
        frames, size, found = answers()
        rows.append(found)
        print(f"{'  run ' + ' '.join(words):<50} {taken:8.3f} {frames:8} {size / 1e6:8.3f}", flush=True)
    if texts[0] != texts[1] or rows[0] != rows[1] or len(rows[0]) != some:
        sys.exit("the two versions differ")
    taken = min(in_sqlite3(rows[0]) for _ in range(3))
    print(f"{'  sqlite3 with the same cells, neither sealed nor opened':<59} {taken:.3f}", flush=True)
    few, many = (min((ran(program, count, "--frames", "2") for _ in range(3)), key=lambda it: it[1]) for count in (most, 4 * most))
    print("growth", few[1], few[2], many[1], many[2])


main(sys.argv[1], int(sys.argv[2]))

"""The memory of tables and of open transactions, as bench/memory.sh says. Usage: memory.py PROGRAM N, in a folder with `setup`."""
import hashlib
import subprocess
import sys

from wire import execute, frames_in, is_last, sealed

DET = (
    " ENCRYPTED WITH (COLUMN_ENCRYPTION_KEY = accounts_key, ENCRYPTION_TYPE = DETERMINISTIC,"
    " ALGORITHM = 'AEAD_AES_256_CBC_HMAC_SHA256')"
)
SESSIONS = 64
PARAMETERS = 128  # the most of a request
MOST_A_ROW = 300  # bytes


def cell(number):
    """A cell of the size of a number's. The server opens none, so nothing else of it counts."""
    return b"\1" + hashlib.sha512(b"%d" % number).digest()


class Server:
    """A server without a journal, in memory alone."""

    def __init__(self, program):
        self.child = subprocess.Popen([program, "serve"], stdin=subprocess.PIPE, stdout=subprocess.PIPE)

    def ask(self, *requests):
        """Has some requests answered, none of which is refused."""
        self.child.stdin.write(b"".join(requests))
        self.child.stdin.flush()
        said, answered = b"", 0
        while answered < len(requests):
            said += self.child.stdout.read1(1 << 16)
            frames = frames_in(said)
            said = said[sum(map(len, frames)) :]
            answered += sum(map(is_last, frames))
            if any(it[1] == 0x85 for it in frames):
                sys.exit("a request was refused")

    def bytes(self):
        """What it has in memory, and the most that it had."""
        with open(f"/proc/{self.child.pid}/status", encoding="ascii") as it:
            found = dict(line.split(":", 1) for line in it)
        return tuple(1024 * int(found[name].split()[0]) for name in ("VmRSS", "VmHWM"))

    def close(self):
        self.child.stdin.close()
        if self.child.wait():
            sys.exit(f"status {self.child.returncode}")


def insert(first, count, session=1):
    rows = ", ".join(f"(@c{i})" for i in range(count))
    cells = sealed([cell(number) for number in range(first, first + count)])
    return execute(f"INSERT INTO t (c) VALUES {rows}", 3, session, cells)


def filled(program, count, unique):
    """A server with a table of so many rows."""
    server = Server(program)
    with open("setup", encoding="utf-8") as setup:
        keys = [batch for batch in setup.read().split("GO\n") if batch.strip()]
    for version, text in enumerate([*keys, f"CREATE TABLE t (c BIGINT{DET}{unique})"]):
        server.ask(execute(text, version))
    for first in range(0, count, PARAMETERS):
        server.ask(insert(first, min(PARAMETERS, count - first)))
    return server


def row(what, count, used, most):
    print(f"{what:<50} {used / 1e6:8.1f} {most / 1e6:8.1f} {used / count:8.1f}", flush=True)


def main():
    program, count = sys.argv[1], int(sys.argv[2])
    print(f"{f'{count} rows of a protected number':<50} {'MB':>8} {'most':>8} {'a row':>8}")
    bare = filled(program, count, "")
    row("no key", count, *bare.bytes())
    bare.close()
    server = filled(program, count, " NOT NULL UNIQUE")
    table, most = server.bytes()
    row("a unique key", count, table, most)
    for session in range(1, SESSIONS + 1):
        server.ask(execute("BEGIN TRANSACTION", 3, session), insert(count + session, 1, session))
    opened, most_opened = server.bytes()
    row(f"and {SESSIONS} transactions with a row each", count, opened, most_opened)
    server.close()
    failed = most > MOST_A_ROW * count
    if failed:
        print(f"MORE than {MOST_A_ROW} bytes for a row and its key")
    if most_opened >= 2 * table:
        failed = True
        print("the transactions take AS MUCH as the table")
    sys.exit(failed)


main()

"""Times the start of a durable server, as bench/starts.sh says. Usage: starts.py PROGRAM N, in an empty folder."""
import hashlib
import os
import subprocess
import sys
import time

from wire import execute, frames_in, is_last, record

program, count = sys.argv[1], int(sys.argv[2])
SERVE = [program, "serve", "--journal"]
MOST = 2 * max(1, count / 100000)  # seconds of a processor for a start over a compacted journal


def filled(rows):
    """The records that make a table and fill it, 1,000 rows to an INSERT."""
    yield record(execute("CREATE TABLE t (a INT NOT NULL UNIQUE, b INT)", 0))
    for first in range(0, rows, 1000):
        values = ", ".join(f"({it}, 0)" for it in range(first, min(first + 1000, rows)))
        yield record(execute(f"INSERT INTO t (a, b) VALUES {values}", 1))


def insert(number):
    return execute(f"INSERT INTO t (a, b) VALUES ({number}, 0)", 1)


def update(number, rows):
    return execute(f"UPDATE t SET b = {number} WHERE a = {number * 7919 % rows}", 1)


def transaction(change):
    return record(execute("BEGIN TRANSACTION", 1), change, execute("COMMIT", 1))


def inserts():
    yield from filled(0)
    yield from (record(insert(it)) for it in range(count))


def updates():
    rows = max(1, count // 10)
    yield from filled(rows)
    yield from (record(update(it, rows)) for it in range(count))


def transactions():
    yield from filled(0)
    yield from (transaction(insert(it)) for it in range(count // 5))


def all_of_them():
    yield from inserts()
    yield from (record(update(it, count)) for it in range(count))
    yield from (transaction(update(it, count)) for it in range(count // 5))


def start():
    """A start up to the answer to a query: the seconds, those of the processor, and the most memory in MB."""
    begin = time.time()
    child = subprocess.Popen(SERVE, stdin=subprocess.PIPE, stdout=subprocess.PIPE)
    child.stdin.write(execute("SELECT b FROM t WHERE a = 0", 1))
    child.stdin.flush()
    said = b""
    while not any(is_last(it) for it in frames_in(said)):
        more = os.read(child.stdout.fileno(), 65536)
        assert more, "the server ended"
        said += more
    took = time.time() - begin
    with open(f"/proc/{child.pid}/status", encoding="ascii") as lines:
        held = next(int(line.split()[1]) for line in lines if line.startswith("VmHWM"))
    child.stdin.close()
    _, status, used = os.wait4(child.pid, 0)
    assert status == 0, f"the server ended with status {status >> 8}"
    return took, used.ru_utime + used.ru_stime, held * 1024 / 1e6


def compact():
    """The same of a compaction. What this program holds itself is the least memory that can be seen."""
    begin = time.time()
    child = subprocess.Popen([program, "compact"])
    _, status, used = os.wait4(child.pid, 0)
    assert status == 0, f"the compaction ended with status {status >> 8}"
    return time.time() - begin, used.ru_utime + used.ru_stime, used.ru_maxrss * 1024 / 1e6


def least(runs):
    """The least of each figure of some runs."""
    return [min(it) for it in zip(*runs)]


def rows():
    """The digest of what a server answers that is asked for all rows, which are never held here."""
    child = subprocess.Popen(SERVE, stdin=subprocess.PIPE, stdout=subprocess.PIPE)
    child.stdin.write(execute("SELECT a, b FROM t", 1))
    child.stdin.close()
    said = child.stdout.read1(65536)
    assert said[1] != 0x85, "the query is refused"
    digest = hashlib.sha256()
    while said:
        digest.update(said)
        said = child.stdout.read1(65536)
    assert child.wait() == 0, "the server ended with another status"
    return digest.hexdigest()


def write(journal):
    with open("journal.bin", "wb") as file:
        file.writelines(journal())
        file.write(b"\0")
    return os.path.getsize("journal.bin") / 1e6


print("processor seconds, and MB of memory, of a start and of `ae compact`; MB of the journal; before, and after `ae compact`")
print(f"{'':34} {'start':>7} {'MB':>6} {'journal':>8} {'start':>7} {'MB':>6} {'journal':>8} {'compact':>8} {'MB':>6}")
for what, journal in (
    (f"{count} INSERTs", inserts),
    (f"{count} UPDATEs of {max(1, count // 10)} rows", updates),
    (f"{count // 5} transactions", transactions),
    ("all of them, and rows as INSERTs", all_of_them),
):
    runs = []
    for _ in range(3):
        size = write(journal)
        before = start()
        found, took = (rows() if not runs else runs[0][0]), compact()
        assert rows() == found, f"{what}: the rows aren't the same"
        runs.append((found, before, took, start()))
    before, took, after = (least(it[at] for it in runs) for at in (1, 2, 3))
    assert after[1] < MOST, f"{what}: a start over what is left takes {after[1]:.3f} s of a processor"
    print(
        f"{what:34} {before[1]:7.3f} {before[2]:6.1f} {size:8.3f} {after[1]:7.3f} {after[2]:6.1f} "
        f"{os.path.getsize('journal.bin') / 1e6:8.3f} {took[1]:8.3f} {took[2]:6.1f}",
        flush=True,
    )

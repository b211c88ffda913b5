"""Kills `ae compact` at random moments, as tools/attacks/compact.sh says. Usage: compact.py PROGRAM CHANGES RUNS SEED, in an empty
folder."""
import os
import random
import signal
import subprocess
import sys
import time

from wire import execute, frames_in, numbers_in, record

program, changes, runs, seed = sys.argv[1], *map(int, sys.argv[2:5])
rng = random.Random(seed)
LAST = 4  # the version of the catalog behind all definitions


def history():
    """The records of tables that are filled, of which one takes another's place in a transaction."""
    yield record(execute("CREATE TABLE t (a INT NOT NULL UNIQUE)", 0))
    yield record(execute("CREATE TABLE u (a INT NOT NULL UNIQUE)", 1))
    for number in range(changes):
        insert = execute(f"INSERT INTO u (a) VALUES ({number})", 2)
        if number % 8:
            yield record(insert)
        else:
            yield record(execute("DELETE FROM t", 2))
            yield record(insert)
    begin, commit = execute("BEGIN TRANSACTION", 2), execute("COMMIT", 3)
    yield record(begin, execute("INSERT INTO u (a) VALUES (-1)", 2), execute("ALTER TABLE t REPLACE BY u", 2), commit)
    yield record(execute("CREATE TABLE [empty] (a INT)", 3))


def write(name, data):
    with open(name, "wb") as file:
        file.write(data)


def read(name):
    with open(name, "rb") as file:
        return file.read()


def stored():
    """The numbers that a server finds in its journal."""
    asked = execute("SELECT a FROM t", LAST)
    said = subprocess.run([program, "serve", "--journal"], input=asked, stdout=subprocess.PIPE, check=True).stdout
    return numbers_in(frames_in(said))


def begun():
    """A compaction in a group of its own, once the new file has bytes, or it has ended."""
    child = subprocess.Popen([program, "compact"], stdout=subprocess.PIPE, start_new_session=True)
    while child.poll() is None:
        try:
            if os.stat("journal.new").st_size:
                break
        except FileNotFoundError:
            pass
    return child


old = b"".join(history()) + b"\0"
write("journal.bin", old)
want = stored()
assert want == [*range(changes), -1], "the journal isn't served as it was made"
subprocess.run([program, "compact"], check=True)
new = read("journal.bin")
assert len(new) < len(old) and stored() == want, "the compaction changed the rows"

span, killed, taken, cut = 0.01, 0, 0, 0
while killed < runs:
    write("journal.bin", old)
    if os.path.exists("journal.new"):
        os.remove("journal.new")  # whose bytes would be taken for those of this run
    child = begun()
    time.sleep(rng.uniform(0, span))
    try:
        os.killpg(child.pid, signal.SIGKILL)
    except ProcessLookupError:
        pass
    child.stdout.read()  # which ends when the last process of the group has
    child.stdout.close()
    in_time = child.wait() == -signal.SIGKILL
    # kills spread over the whole of the writing
    span = max(0.0005, span * (1.1 if in_time else 0.7))
    killed += in_time
    found = read("journal.bin")
    assert found in (old, new), f"kill {killed}: the journal is neither the old file nor the new one"
    taken += in_time and found == new
    if os.path.exists("journal.new"):
        cut += len(read("journal.new")) < len(new)
    assert stored() == want, f"kill {killed}: the rows aren't the same"
write("journal.bin", old)
subprocess.run([program, "compact"], check=True)
assert read("journal.bin") == new and not os.path.exists("journal.new"), "a compaction over what the kills left isn't whole"
print(f"{killed} kills, {cut} inside the new file, {taken} behind its renaming: the rows were the same each time")

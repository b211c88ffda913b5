"""Kills a durable server at random moments, as tools/attacks/crash.sh says. Usage: crash.py PROGRAM REQUESTS RUNS SEED, in an empty folder."""
import os
import random
import subprocess
import sys
import threading
import time

from wire import execute, frames_in, is_last, numbers_in

program, requests, runs, seed = sys.argv[1], *map(int, sys.argv[2:5])
rng = random.Random(seed)
LOAD = 40  # units of a run; a unit is an INSERT, or a transaction of two


def unit_of(number):
    """The statements of a unit, and the numbers that it inserts."""
    if number % 4:
        return [f"INSERT INTO t (a) VALUES ({2 * number})"], [2 * number]
    insert = [f"INSERT INTO t (a) VALUES ({it})" for it in (2 * number, 2 * number + 1)]
    return ["BEGIN TRANSACTION", *insert, "COMMIT"], [2 * number, 2 * number + 1]


def serve(asked, wait):
    """Serves requests from the file journal.bin, and is killed after so many seconds. Returns the replies."""
    child = subprocess.Popen([program, "serve", "--journal"], stdin=subprocess.PIPE, stdout=subprocess.PIPE)

    def give():
        try:
            child.stdin.write(asked)
            child.stdin.close()
        except OSError:
            pass

    giver = threading.Thread(target=give)
    giver.start()
    if wait is not None:
        time.sleep(wait)
        child.kill()
    said = child.stdout.read()
    giver.join()
    status = child.wait()
    assert status in (0, -9), f"the server ended with status {status}"
    return frames_in(said)


def stored():
    """The numbers that a server finds in its journal."""
    replies = serve(execute("SELECT a FROM t", 1), None)
    return numbers_in(replies)


first = serve(execute("CREATE TABLE t (a INT)", 0), None)
assert [it[1] for it in first] == [0x84], "the table was not made"
at, killed, tried, longest = 0, 0, 0, 0.02
known = []
for run in range(runs):
    units = [unit_of(it) for it in range(at, at + LOAD)]
    texts = [text for it in units for text in it[0]]
    tried += len(texts)
    begun = time.time()
    replies = serve(b"".join(execute(it, 1) for it in texts), rng.uniform(0, longest))
    answered = sum(is_last(it) for it in replies)
    killed += answered < len(texts)
    # kills spread over a whole run of the load
    longest = max(0.01, longest * (1.05 if answered < len(texts) else 0.9))
    found = stored()
    least, most, behind = list(known), list(known), 0
    for said, numbers in units:
        behind += len(said)
        if behind <= answered:
            least += numbers
        most += numbers
    assert found[: len(least)] == least, f"run {run}: an answered change is lost"
    assert found == most[: len(found)], f"run {run}: a change is there that was not asked for"
    whole = [numbers for _, numbers in units if numbers[0] in found]
    assert found == known + [it for numbers in whole for it in numbers], f"run {run}: half a transaction is there"
    known, at = found, at + LOAD
    if tried >= requests and run + 1 < runs:
        # a new file, so that the load stays of that size
        os.remove("journal.bin")
        serve(execute("CREATE TABLE t (a INT)", 0), None)
        known, tried = [], 0
print(f"{runs} runs, {killed} killed in the middle of a load: nothing was lost, nothing was added")

"""Times a durable server, as bench/journal.sh says. Usage: journal.py PROGRAM INSERTS, in an empty folder."""
import os
import re
import shutil
import subprocess
import sys
import time

from wire import execute, frames_in, is_last

program, inserts = sys.argv[1], int(sys.argv[2])
texts = [f"INSERT INTO t (a) VALUES ({it})" for it in range(inserts)]
asked = execute("CREATE TABLE t (a INT)", 0) + b"".join(execute(it, 1) for it in texts)
with open("requests", "wb") as file:
    file.write(asked)


def timed(words):
    """The seconds that serving takes, the least of three runs, each with no journal at first."""
    least = None
    for _ in range(3):
        if os.path.exists("journal.bin"):
            os.remove("journal.bin")
        begin = time.time()
        with open("requests", "rb") as given:
            said = subprocess.run(words, stdin=given, stdout=subprocess.PIPE, check=True).stdout
        took = time.time() - begin
        assert sum(is_last(it) for it in frames_in(said)) == inserts + 1
        least = took if least is None else min(least, took)
    return least


def calls(words):
    """The calls of the program in their order: S and W where it syncs and writes a file, R where it writes replies."""
    if os.path.exists("journal.bin"):
        os.remove("journal.bin")
    with open("requests", "rb") as given:
        traced = ["strace", "-f", "-o", "calls", "-e", "trace=fsync,fdatasync,write,pwrite64", *words]
        subprocess.run(traced, stdin=given, stdout=subprocess.DEVNULL, stderr=subprocess.DEVNULL, check=True)
    with open("calls", encoding="utf-8", errors="replace") as lines:
        made = [re.match(r"(\d+) +(\w+)\((\d+)", line) for line in lines]
    # (the launcher's other processes aren't those that reply)
    server = next(it[1] for it in reversed(made) if it and it[3] == "1")
    return "".join("S" if it[2].endswith("sync") else "R" if it[3] == "1" else "W" for it in made if it and it[1] == server)


def syncs(words):
    """How often the program synced a file, if strace is installed."""
    return calls(words).count("S") if shutil.which("strace") else "-"


def durable_syncs():
    """The same of a durable server. It isn't durable unless it syncs the folder and the file, and then for each request the record, its
    gate, and only then replies."""
    if not shutil.which("strace"):
        return "-"
    made = calls([program, "serve", "--journal"])
    if not re.fullmatch(r"SSWS(WSWSR+)*", made) or made.count("WSWSR") != inserts + 1:
        sys.exit(f"calls in another order: {made[:40]}..")
    return made.count("S")


def row(what, seconds, count):
    print(f"{what:50} {seconds:8.3f} {1000 * seconds / inserts:8.3f} {count}")


print(f"{inserts} INSERTs: seconds, milliseconds of a request, syncs")
row("served", timed([program, "serve"]), syncs([program, "serve"]))
row("served with a journal", timed([program, "serve", "--journal"]), durable_syncs())
try:
    import sqlite3
except ImportError:
    print("sqlite3 of Python is not installed")
else:
    base = sqlite3.connect("base.db", isolation_level=None)
    base.execute("PRAGMA synchronous = FULL")
    base.execute("CREATE TABLE t (a INT)")
    begin = time.time()
    for text in texts:
        base.execute(text)
    row("sqlite3, synchronous=FULL", time.time() - begin, "-")

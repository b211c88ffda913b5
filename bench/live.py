"""Runs pairs of processes, as bench/live.sh says. Usage: live.py TOP STEPS, in an empty folder."""
import os
import resource
import shutil
import subprocess
import sys
import time

top, steps = sys.argv[1], int(sys.argv[2])
sys.path.insert(0, top)
from relay import Client, Server  # noqa: E402

ae, program = os.path.join(top, "ae"), os.path.join(top, "built", "ae")
example = os.path.join(top, "examples", "two_machines")
MOST_SECONDS = 600  # of a command: a pair that waits for ever fails
MOST_MORE = 0.25  # milliseconds of a processor that a step over the pair may cost more


# Starts a server, hands so many bytes of its replies on, and kills it.
CUT = """
import subprocess, sys
left, run = int(sys.argv[1]), subprocess.Popen(sys.argv[2:], stdout=subprocess.PIPE)
while left and (piece := run.stdout.read1(left)):
    sys.stdout.buffer.write(piece)
    sys.stdout.buffer.flush()
    left -= len(piece)
run.kill()
"""


def expect(what, found, wanted):
    if found != wanted:
        sys.exit(f"{what}: {found!r:.400}, and not {wanted!r:.400}")


def read(*path):
    with open(os.path.join(*path), encoding="utf-8") as file:
        return file.read()


def ran(words, script):
    """Runs a command on a script: its status, its text, what it said, its seconds and those of the processors."""
    with open("script", "w", encoding="utf-8") as file:
        file.write(script)
    before, began = resource.getrusage(resource.RUSAGE_CHILDREN), time.monotonic()
    with open("script", "rb") as given:
        run = subprocess.run(words, stdin=given, stdout=subprocess.PIPE, stderr=subprocess.PIPE, timeout=MOST_SECONDS)
    took, after = time.monotonic() - began, resource.getrusage(resource.RUSAGE_CHILDREN)
    used = after.ru_utime + after.ru_stime - before.ru_utime - before.ru_stime
    return run.returncode, run.stdout.decode(), run.stderr.decode(), took, used


def over(*command):
    return [ae, "over", *command]


def no_journal():
    if os.path.exists("journal.bin"):
        os.remove("journal.bin")


def inserts(count):
    return "CREATE TABLE t (a INT)\nGO\n" + "".join(f"INSERT INTO t (a) VALUES ({it})\nGO\n" for it in range(count))


def rows_kept():
    """The number of rows in the table, over the journal."""
    status, text, *_ = ran(over(program, "serve", "--journal"), "SELECT COUNT(*) AS n FROM t\nGO\n")
    expect("the count of rows", (status, text.splitlines()[::2]), (0, ["n", "(1 rows)"]))
    return int(text.splitlines()[1])


def least(words, count):
    """The least seconds and processor seconds of three runs of so many changes, each with no journal at first."""
    runs = []
    for _ in range(3):
        no_journal()
        status, text, _, *cost = ran(words, inserts(count))
        expect(" ".join(words), (status, text), (0, "ok\n" + "(1 affected)\n" * count))
        runs.append(cost)
    return [min(it) for it in zip(*runs)]


def costs(words):
    """The seconds of the changes, and their processor seconds without those of the start, which are printed."""
    start, whole = least(words, 0), least(words, steps)
    print(f"start of {' '.join(map(os.path.basename, words)):41} {start[0]:8.3f} {1000 * start[0]:8.3f} {1000 * start[1]:8.3f}")
    return whole[0], whole[1] - start[1]


def in_sqlite():
    import sqlite3

    base = sqlite3.connect("base.db", isolation_level=None)
    base.execute("PRAGMA synchronous = FULL")
    base.execute("CREATE TABLE t (a INT)")
    began, used = time.monotonic(), time.process_time()
    for it in range(steps):
        base.execute(f"INSERT INTO t (a) VALUES ({it})")
    return time.monotonic() - began, time.process_time() - used


def times():
    print(f"{steps} changes: seconds, milliseconds of a change (or of a start), of which of a processor")
    rows = {
        "ae run": costs([program, "run", "--frames", "2"]),
        "ae over": costs(over(program, "serve")),
        "ae over, with a journal": costs(over(program, "serve", "--journal")),
    }
    try:
        rows["sqlite3, synchronous=FULL"] = in_sqlite()
    except ImportError:
        print("sqlite3 of Python is not installed")
    for what, (took, used) in rows.items():
        print(f"{what:50} {took:8.3f} {1000 * took / steps:8.3f} {1000 * used / steps:8.3f}")
    more = 1000 * (rows["ae over"][1] - rows["ae run"][1]) / steps
    print(f"a step over the pair costs {more:.3f} ms more of a processor")
    if more > MOST_MORE:
        sys.exit(f"that is more than {MOST_MORE} ms")


def killed_after(count, script, which):
    """Runs a script over a journal, and kills one end once so many changes were answered. Returns the statuses of both."""
    no_journal()
    server, left = Server([program, "serve", "--journal"]), [count]

    def seen(frame):
        left[0] -= frame[1] == 0x84 and frame[6] == 1  # Done, of a change
        if left[0] == 0:
            (client if which == "client" else server).run.kill()

    with open("script", "w", encoding="utf-8") as file:
        file.write(script)
    with open("script", "rb") as given:
        client = Client(program, stdin=given, stdout=subprocess.DEVNULL, stderr=subprocess.DEVNULL)
    client.over(server, seen)
    return client.end(), server.end()


def ends_that_die():
    for which, wanted in ("server", (11, 137)), ("client", (137, 0)):
        expect(f"a {which} that is killed", killed_after(100, inserts(1000), which), wanted)
        kept = rows_kept()
        if kept not in (100, 101):
            sys.exit(f"a {which} that is killed: {kept} rows are kept, after 100 answers")
        print(f"a {which} that is killed after 100 answers: statuses {wanted}, {kept} rows are kept")


def half_an_answer():
    """5,000 rows are answered in two frames, of 4,096 and of 904 rows; the server is killed inside the second."""
    rows = ["(" + "),(".join(str(1000 * block + it) for it in range(1000)) + ")" for block in range(5)]
    script = "CREATE TABLE t (a INT)\nGO\n" + "".join(f"INSERT INTO t (a) VALUES {it}\nGO\n" for it in rows)
    script += "SELECT a FROM t\nGO\n"
    text = "ok\n" + "(1000 affected)\n" * 5 + "a\n" + "".join(f"{it}\n" for it in range(5000)) + "(5000 rows)\n"
    no_journal()
    expect("the whole answer", ran(over(program, "serve"), script)[:2], (0, text))
    # Six times Described (6 + 10 bytes) and Done of a change (6 + 9), once Described and Columns of an INT called a (6 + 8), and
    # Rows of a count, a number of columns and atoms of 9 bytes.
    place = 6 * (16 + 15) + 16 + 14 + 6 + 4 + 9 * 4096
    cut = over(sys.executable, "-c", CUT, str(place + 1000), program, "serve", "--journal")
    status, said, why, *_ = ran(cut, script)
    expect("an answer that breaks off", (status, said), (11, "".join(text.splitlines(True)[: 6 + 1 + 4096])))
    expect("its place", why.splitlines()[0], f"ae: bad reply at {place}")
    expect("its rows in the journal", rows_kept(), 5000)
    print(f"a server that is killed in its answer: status 11 at {place}, what was printed stays, all rows are kept")


def two_days():
    """The example, with a server that is killed after the last answer of the first day."""
    no_journal()
    shutil.copytree(os.path.join(example, "keys"), "keys")
    server = Server([program, "serve", "--journal"])
    with open(os.path.join(example, "first_day.sql"), "rb") as given, open("text", "wb") as out:
        client = Client(program, stdin=given, stdout=out)
    client.over(server, lambda _: None)
    server.run.kill()
    expect("the first day", (client.end(), read("text"), server.end()), (1, read(example, "first_day.text"), 137))
    status, text, *_ = ran(over(program, "serve", "--journal"), read(example, "second_day.sql"))
    expect("the second day", (status, text), (1, read(example, "second_day.text")))
    print("two days over one journal, with the server killed between: both texts are those of the example")


def a_prompt():
    """The first day, typed into the shell."""
    status, text, *_ = ran([ae, "shell", program, "serve"], read(example, "first_day.sql"))
    expect("the first day in the shell", (status, text), (0, read(example, "first_day.text")))
    print("the first day in the shell: the text is that of the example")


two_days()
a_prompt()
ends_that_die()
half_an_answer()
times()

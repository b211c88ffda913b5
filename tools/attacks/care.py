"""Tries the care of a journal, as tools/attacks/care.sh says. Usage: care.py PROGRAM COPIES, in an empty folder."""
import os
import random
import shutil
import signal
import subprocess
import sys

from wire import execute, frames_in, is_last, numbers_in

program, copies = os.path.abspath(sys.argv[1]), int(sys.argv[2])
rng = random.Random(1)
WORDS = [program, "serve", "--journal"]
LOAD = 50  # INSERTs between two copies, or two starts


class Server:
    """A server over the file journal.bin of a folder, which is asked one request after the other."""

    def __init__(self, folder="."):
        self.run = subprocess.Popen(WORDS, cwd=folder, stdin=subprocess.PIPE, stdout=subprocess.PIPE, stderr=subprocess.PIPE)

    def reply(self):
        """The next frame of a reply."""
        head = self.run.stdout.read(6)
        return head + self.run.stdout.read(int.from_bytes(head[2:], "big"))

    def ask(self, *texts):
        """The frames of the replies to some texts, at the version of one definition."""
        self.run.stdin.write(b"".join(execute(it, 1) for it in texts))
        self.run.stdin.flush()
        found, left = [], len(texts)
        while left:
            found.append(self.reply())
            left -= is_last(found[-1])
        return found

    def load(self, first):
        """Gives INSERTs of some numbers, and waits for no answer."""
        self.run.stdin.write(b"".join(execute(f"INSERT INTO t (a) VALUES ({first + it})", 1) for it in range(LOAD)))
        self.run.stdin.flush()

    def define(self):
        """Makes the table."""
        self.run.stdin.write(execute("CREATE TABLE t (a INT)", 0))
        self.run.stdin.flush()
        assert self.reply()[1] == 0x84, "the table was not made"

    def end(self):
        """Ends the input. Returns the status and the lines on standard error."""
        _, said = self.run.communicate(timeout=60)
        return self.run.returncode, said.decode().splitlines()


def rows_of(folder):
    """The numbers that a server finds in the journal of a folder."""
    run = subprocess.run(WORDS, cwd=folder, input=execute("SELECT a FROM t", 1), stdout=subprocess.PIPE, timeout=60, check=False)
    assert run.returncode == 0, f"a server over the journal of {folder} ended with status {run.returncode}"
    return numbers_in(frames_in(run.stdout))


def is_refused(folder, why):
    """Checks that a server isn't started in a folder, and what is said of it."""
    status, said = Server(folder).end()
    assert status == 14 and said[0] == "ae: disk fault", (folder, status, said)
    assert len(said) == 2 and why in said[1], (folder, said)


# Two servers. The first one's changes stay, and the second serves nothing.
first = Server()
first.define()
is_refused(".", f"another server has journal.bin: process {first.run.pid}")
first.ask("INSERT INTO t (a) VALUES (0)")
first.run.kill()
first.run.wait()
assert rows_of(".") == [0], "the first server lost a change"
print("two servers over one journal: the second ended with status 14, and the first lost nothing")

# Copies while a server runs have at least what was answered before, and at most what was asked for before the copy was whole.
running, asked, found = Server(), 1, []
os.mkdir("copy")
for _ in range(copies):
    running.load(asked)
    shutil.copyfile("journal.bin", "copy/journal.bin")
    rows = rows_of("copy")
    assert rows == list(range(len(rows))) and asked <= len(rows) <= asked + LOAD, f"a copy has {len(rows)} rows at {asked}"
    found.append(len(rows) - asked)
    for _ in range(LOAD):
        assert running.reply()[1] == 0x84, "an INSERT was refused"
    asked += LOAD
assert running.end()[0] == 0 and rows_of(".") == list(range(asked)), "rows were lost"
print(f"{copies} copies of a running journal: each started, with {min(found)} to {max(found)} of {LOAD} changes under way")

# A supervisor starts the next server at once, while one that was told to end still has the journal, and again until it serves.
def started(rows):
    """Starts servers until one answers, which has at least so many rows. Returns it, its rows and how many have ended."""
    ended = 0
    while True:
        server = Server()
        try:
            found = numbers_in(server.ask("SELECT a FROM t"))
        except (BrokenPipeError, IndexError):  # it has ended, and answered nothing
            status, said = server.run.wait(), server.run.stderr.read().decode()
            assert status == 14 and "another server ha" in said, (status, said)
            ended += 1
            continue
        assert found == list(range(len(found))) and rows <= len(found), f"{len(found)} rows of {rows} that were answered"
        return server, len(found), ended


running, rows, refused = started(asked)
for _ in range(copies):
    running.load(rows)
    old, killed = running, rng.choice([signal.SIGKILL, signal.SIGTERM])
    subprocess.Popen(["sh", "-c", f"sleep {rng.uniform(0, 1):.3f}; kill -{killed:d} {old.run.pid}"])
    running, found, ended = started(rows)
    refused += ended
    answered = sum(is_last(it) for it in frames_in(old.run.stdout.read()))
    assert rows + answered <= found <= rows + LOAD, f"{found} rows of {rows}, and {answered} of {LOAD} more were answered"
    rows = found
assert running.end()[0] == 0 and rows_of(".") == list(range(rows)), "rows were lost"
print(f"{copies} servers that a supervisor replaced: nothing was lost, {refused} were started too early and ended with status 14")

# What is no journal.
os.mkdir("linked")
os.symlink("nowhere", "linked/journal.bin")
is_refused("linked", "a link to a file that isn't there")
os.makedirs("folder/journal.bin")
is_refused("folder", "no regular file")
assert not os.path.exists("linked/nowhere")
print("a link to no file and a folder: status 14, and the launcher says which")

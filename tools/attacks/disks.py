"""Tries disks that fail, as tools/attacks/disks.sh says. Usage: disks.py LAUNCHER PROGRAM, as root, in an empty folder."""
import os
import subprocess
import sys
import time

from wire import execute, frames_in, is_last, numbers_in

launcher, program = sys.argv[1:]
WORDS = ["serve", "--journal"]
TEXT = "x" * 4000  # so that a record is longer than a page
DEFINE = "CREATE TABLE t (a INT, b NVARCHAR(4000))"
MORE = 20  # changes behind a sync that failed


def insert(number, text=TEXT):
    return execute(f"INSERT INTO t (a, b) VALUES ({number}, N'{text}')", 1)


def command(*words):
    subprocess.run(words, check=True, stdout=subprocess.DEVNULL)


def run(words, folder, asked=b""):
    """The status of a program that is given some requests, its replies, and the lines on standard error."""
    ran = subprocess.run(words, cwd=folder, input=asked, capture_output=True, timeout=120, check=False)
    return ran.returncode, frames_in(ran.stdout), ran.stderr.decode().splitlines()


def rows_of(folder):
    status, found, said = run([launcher, *WORDS], folder, execute("SELECT a FROM t", 1))
    assert status == 0, (status, said)
    return numbers_in(found)


def done(frames):
    """How many requests were answered by Done."""
    return sum(it[1] == 0x84 for it in frames)


def read(path):
    with open(path, "rb") as file:
        return file.read()


# ---- a full disk

os.mkdir("full")
command("mount", "-t", "tmpfs", "-o", "size=256k", "tmpfs", "full")
status, found, said = run([launcher, *WORDS], "full", execute(DEFINE, 0) + b"".join(insert(it) for it in range(100)))
kept = done(found) - 1
assert status == 14 and said[0] == "ae: disk fault" and "no space is left" in said[1], (status, said)
assert rows_of("full") == list(range(kept)), "a full disk lost or added a change"
command("mount", "-o", "remount,size=400k", "full")
status, found, said = run([launcher, *WORDS], "full", insert(kept))
assert status == 0 and done(found) == 1, (status, said)
before = read("full/journal.bin")
status, _, said = run([launcher, "compact"], "full")
assert status == 14 and said[0] == "ae_compact: disk fault in the new file" and "the disk has room for" in said[1], (status, said)
assert os.listdir("full") == ["journal.bin"] and read("full/journal.bin") == before, "a compaction changed something"
command("mount", "-o", "remount,size=1m", "full")
assert run([launcher, "compact"], "full")[0] == 0 and rows_of("full") == list(range(kept + 1)), "a change was lost"
print(f"a full disk: status 14, {kept} changes kept; a server and a compaction go on once there is room")

# ---- a sync that fails


def make():
    """Makes a file system on a device whose own file is on another file system."""
    command("truncate", "-s", "320M", "outer.img")
    command("mkfs.xfs", "-q", "-f", "-m", "reflink=1", "outer.img")
    command("mount", "-o", "loop", "outer.img", "outer")
    with open("outer/inner.img", "wb") as file:
        file.write(bytes(16 << 20))
    command("mkfs.ext4", "-q", "-F", "-O", "^has_journal", "outer/inner.img")
    command("mount", "-o", "loop", "outer/inner.img", "inner")


def fill():
    """Has every write to a block of the device need a new one, of which there is none."""
    command("cp", "--reflink=always", "outer/inner.img", "outer/snapshot")
    with open("outer/rest", "wb", buffering=0) as file:
        for size in (1 << 20, 4096):
            try:
                while True:
                    file.write(bytes(size))
            except OSError:
                pass
    command("sync", "-f", "outer")


def fail_at_gate():
    """Ends a server by a sync of the gate of its last record that fails. That record isn't answered."""
    syncs = 3 + 2 + 2 + 2  # of a start, of the table, of an INSERT, and of the one that isn't answered
    strace = ["strace", "-f", "-qq", "-o", "/dev/null", "-e", "trace=fsync", "-e", f"inject=fsync:delay_enter=5000000:when={syncs}"]
    server = subprocess.Popen([*strace, launcher, *WORDS], cwd="inner", stdin=subprocess.PIPE, stdout=subprocess.PIPE, stderr=subprocess.PIPE)
    first = execute(DEFINE, 0) + insert(0, "")
    server.stdin.write(first + insert(1))
    server.stdin.flush()
    gate = len(first) + 2 * 9
    while not os.path.exists("inner/journal.bin") or read("inner/journal.bin")[gate : gate + 1] != b"\1":
        time.sleep(0.01)
    fill()
    found, said = server.communicate(timeout=120)
    assert server.returncode == 14 and done(frames_in(found)) == 2, (server.returncode, said)
    assert (gate + 9 + len(insert(1))) // 4096 > gate // 4096, "the next gate is in the same page"


def lost(words):
    """How many answered changes of a server that is started so, after a sync that failed, the disk hasn't."""
    make()
    fail_at_gate()
    os.remove("outer/rest")
    os.remove("outer/snapshot")
    command("sync", "-f", "outer")
    status, found, said = run([*words, *WORDS], "inner", b"".join(insert(2 + it) for it in range(MORE)))
    assert status == 0 and done(found) == MORE, (status, said)
    command("umount", "inner")
    command("mount", "-o", "loop", "outer/inner.img", "inner")
    found = rows_of("inner")
    command("umount", "inner")
    command("umount", "outer")
    return sum(it not in found for it in [0, *range(2, 2 + MORE)])


os.mkdir("outer")
os.mkdir("inner")
alone, launched = lost([program]), lost([launcher])
print(f"a sync that failed: of {MORE} changes that were answered later, {alone} were lost by the program alone, {launched} with the launcher")
assert alone > 0 and launched == 0

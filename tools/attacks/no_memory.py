"""Refuses each request for memory in turn, as tools/attacks/no_memory.sh says. Usage: no_memory.py PROGRAM SCRIPT [COMPACT], in a folder
with keys/, refuse.so, requests.bin and replies.bin."""
import os
import subprocess
import sys


def left_by(program, word, script, refused):
    """The status, the output, and whether there was a request of that number."""
    reading, writing = os.pipe()
    moved = os.fdopen(writing, "wb", buffering=0)
    with open(script, "rb") as it:
        ran = subprocess.run(
            ["sh", "-c", f'exec 3>&{moved.fileno()}; LD_PRELOAD=./refuse.so REFUSED={refused} exec "$0" {word}', program],
            stdin=it,
            capture_output=True,
            pass_fds=[moved.fileno()],
        )
    moved.close()
    with os.fdopen(reading, "rb") as marks:
        return ran.returncode, ran.stdout, marks.read() != b""


def read(path):
    with open(path, "rb") as file:
        return file.read()


def compact(program, compaction):
    """A compaction over the journal of the requests, which stays where memory is refused."""
    if left_by(program, "serve --journal", "requests.bin", 0)[0] != 0:
        sys.exit("serve --journal: another status than 0 with all its memory")
    old, refused, same, ended = read("journal.bin"), 1, 0, 0
    if left_by(compaction, "", "requests.bin", 0)[0] != 0:
        sys.exit("compact: another status than 0 with all its memory")
    new = read("journal.bin")
    while True:
        with open("journal.bin", "wb") as file:
            file.write(old)
        status, _, was_refused = left_by(compaction, "", "requests.bin", refused)
        if not was_refused:
            break
        if (status, read("journal.bin")) not in ((0, new), (5, old)) or os.path.exists("journal.new"):
            sys.exit(f"compact: status {status} where request {refused} is refused, and another file")
        same, ended, refused = same + (status == 0), ended + (status == 5), refused + 1
    print(f"compact: {refused - 1} requests for memory; status 5: {ended}, the whole: {same}", flush=True)


def main(program, script, compaction=None):
    if compaction:
        compact(program, compaction)
    for word in ("run", "check", "drive", "serve"):
        source = "requests.bin" if word == "serve" else script
        status, whole, _ = left_by(program, word, source, 0)
        if status != 0 or not whole:
            sys.exit(f"{word}: status {status} with all its memory")
        refused, same, ended = 1, 0, 0
        while True:
            status, out, was_refused = left_by(program, word, source, refused)
            if not was_refused:
                break
            if status == 0 and out == whole:
                same += 1
            elif status == 5 and whole.startswith(out):
                ended += 1
            else:
                sys.exit(f"{word}: status {status} where request {refused} is refused, with {out[-200:]!r}")
            refused += 1
        print(f"{word}: {refused - 1} requests for memory; status 5: {ended}, the whole: {same}", flush=True)


main(*sys.argv[1:])

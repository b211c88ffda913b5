"""Changes recorded requests and replies at random, as tools/attacks/mutate.sh says.
Usage: mutate.py PROGRAM STREAMS SEED REPOSITORY FOLDER, in an empty folder."""
import collections
import glob
import multiprocessing
import os
import random
import shutil
import signal
import subprocess
import sys

# The statuses that a stream may end with: 5 is out of memory.
STATUSES = {"serve": {0, 5, 10}, "drive": {0, 1, 5, 11}}
MOST_BYTES = 20000  # of a recorded stream, so that each takes a millisecond or two
NUMBERS = [0, 1, 2, 3, 4, 0x40, 0x41, 0x7F, 0x80, 0x81, 0xFF, 0x100, 0xFFFF, 0x10000, 0x10001, 0xFFFFFF, 0x1000000, 0x1000001]
NUMBERS += [2**31 - 1, 2**31, 2**32 - 1, 2**63 - 1, 2**63, 2**64 - 1]
WORDS = """SELECT DISTINCT TOP FROM JOIN ON WHERE GROUP BY ORDER DESC AND OR NOT IN IS NULL INSERT INTO VALUES UPDATE SET DELETE CREATE DROP
TABLE COLUMN MASTER ENCRYPTION KEY UNIQUE ENCRYPTED WITH BEGIN COMMIT ROLLBACK TRANSACTION COUNT(*) * ( ) , . ; = <> < <= > >= + - 0 1 -1
9223372036854775807 9223372036854775808 '' N'x' 0x 0x00 @p @c [a] a b c id t u v x y INT BIGINT NVARCHAR(8) VARBINARY(8000)""".split()


def read(path):
    with open(path, "rb") as it:
        return it.read()


def frames_of(data):
    frames, at = [], 0
    while at < len(data):
        behind = at + 6 + int.from_bytes(data[at + 2 : at + 6], "big")
        frames.append(data[at:behind])
        at = behind
    return frames


def recorded(program, top, version):
    """The scripts of the repository with their frames in a version: requests and replies."""
    found = []
    scripts = glob.glob(f"{top}/crates/script_tests/data/*.sql")
    for path in sorted(scripts):
        script = read(path)
        if os.path.exists("tap.bin"):
            os.remove("tap.bin")
        subprocess.run([program, "run", *version], input=script, stdout=subprocess.DEVNULL, stderr=subprocess.DEVNULL)
        frames = frames_of(read("tap.bin")) if os.path.exists("tap.bin") else []
        if frames and sum(map(len, frames)) <= MOST_BYTES:
            asked, told = ([it for it in frames if (it[1] < 0x80) == asks] for asks in (True, False))
            found.append((script, asked, told))
    return found


def mended(head, body):
    """A frame of that version and kind, whose length is that of its body."""
    return head[:2] + len(body).to_bytes(4, "big") + body


def with_other_words(rng, frame):
    """A request with another text, whose length is right."""
    at = 8 if frame[1] == 1 else 16
    behind = at + 4 + int.from_bytes(frame[at : at + 4], "big")
    words = frame[at + 4 : behind].split(b" ")
    for _ in range(rng.randint(1, 3)):
        place = rng.randrange(len(words) + 1)
        kept = place + rng.randint(0, 1)
        words[place:kept] = [rng.choice(WORDS).encode()] * rng.choice([0, 1, 1, 1, 2, 70])
    text = b" ".join(words)
    return mended(frame, frame[6:at] + len(text).to_bytes(4, "big") + text + frame[behind:])


def with_other_bytes(rng, frame):
    place = rng.randrange(len(frame) + 1)
    what = rng.randrange(5)
    if what == 0 and place < len(frame):
        changed = bytes([frame[place] ^ 1 << rng.randrange(8)])
        return frame[:place] + changed + frame[place + 1 :]
    if what == 1:
        size = rng.choice([1, 2, 4, 8])
        number = (rng.choice(NUMBERS) % 256**size).to_bytes(size, "big")
        return frame[:place] + number + frame[place + size :]
    # Bytes go or come, with the old length or with the right one.
    size = rng.choice([1, 1, 2, 8, 16, 33])
    if what == 2:
        changed = frame[:place] + frame[place + size :]
    elif what == 3:
        changed = frame[:place] + rng.randbytes(size) + frame[place:]
    else:
        changed = frame[:place] + frame[max(0, place - size) : place] * rng.randint(1, 3) + frame[place:]
    return mended(changed, changed[6:]) if rng.random() < 0.7 and len(changed) >= 6 else changed


def mutated(rng, frames, others):
    """The bytes of some frames with one to four changes."""
    frames = list(frames)
    for _ in range(rng.choice([1, 1, 1, 2, 3, 4])):
        what, place = rng.randrange(12), rng.randrange(len(frames))
        frame = frames[place]
        if what < 5:
            frames[place] = with_other_bytes(rng, frame)
        elif what < 8:
            asks = len(frame) > 20 and frame[1] in (1, 2)
            frames[place] = with_other_words(rng, frame) if asks else with_other_bytes(rng, frame)
        elif what == 8:
            frames[place] = b""
        elif what == 9:
            frames.insert(place, rng.choice(frames))
        elif what == 10:
            frames[place] = rng.choice(rng.choice(others))
        else:
            place = rng.randrange(len(frames))
            frames[place] = frame[: rng.randrange(len(frame) + 1)]
            frames = frames[: place + 1]
        frames = [it for it in frames if it] or [b"\x01"]
    return b"".join(frames)


def status_of(program, words, data):
    """The status with which a command ends that reads a file; negative for a signal, None where it doesn't end."""
    redirected = [
        (os.POSIX_SPAWN_OPEN, 0, data, os.O_RDONLY, 0),
        (os.POSIX_SPAWN_OPEN, 1, os.devnull, os.O_WRONLY, 0),
        (os.POSIX_SPAWN_OPEN, 2, os.devnull, os.O_WRONLY, 0),
    ]
    child = os.posix_spawn(program, [program, *words], {}, file_actions=redirected)
    signal.alarm(60)
    try:
        return os.waitstatus_to_exitcode(os.waitpid(child, 0)[1])
    except TimeoutError:
        os.kill(child, signal.SIGKILL)
        os.waitpid(child, 0)
        return None
    finally:
        signal.alarm(0)


def write(path, data):
    with open(path, "wb") as it:
        it.write(data)


def times_up(*_):
    raise TimeoutError


def work(task):
    """Tries some streams in a folder of its own; gives the counts, and the first stream that ends otherwise."""
    program, command, version, found, streams, seed = task
    rng = random.Random(seed)
    signal.signal(signal.SIGALRM, times_up)
    folder = f"{command}-{seed}"
    os.makedirs(f"{folder}/keys")
    shutil.copy("keys/main.key", f"{folder}/keys")
    shutil.copy("keys/spare.key", f"{folder}/keys")
    home = os.getcwd()
    os.chdir(folder)
    counts = collections.Counter()
    others = [it[1 if command == "serve" else 2] for it in found]
    try:
        for _ in range(streams):
            script, asked, told = rng.choice(found)
            data = mutated(rng, asked if command == "serve" else told, others)
            if command == "drive":
                write("script", script)
            write("requests" if command == "serve" else "replies.bin", data)
            words = ["serve"] if command == "serve" else ["drive", *version]
            status = status_of(program, words, "requests" if command == "serve" else "script")
            counts[status] += 1
            if status not in STATUSES[command]:
                return counts, (command, status, script, data)
    finally:
        os.chdir(home)
        shutil.rmtree(folder)
    return counts, None


def main(program, streams, seed, top, kept):
    os.makedirs("keys")
    write("keys/main.key", bytes(range(32)).hex().encode())
    write("keys/spare.key", (b"\xff" * 32).hex().encode())
    workers = os.cpu_count() or 1
    share = min(1000, -(-streams // workers))
    for command, *version in (["serve"], ["drive"], ["serve", "--frames", "2"], ["drive", "--frames", "2"]):
        label = f"{command}, version {2 if version else 1}"
        found = recorded(program, top, version)
        asked, told = (sum(len(it[i]) for it in found) for i in (1, 2))
        print(f"{len(found)} recorded scripts, {asked} requests, {told} replies", flush=True)
        tasks = [(program, command, version, found, min(share, streams - at), seed * 1000000 + at) for at in range(0, streams, share)]
        counts = collections.Counter()
        with multiprocessing.Pool(workers) as pool:
            for part, bad in pool.imap_unordered(work, tasks):
                counts += part
                if bad:
                    _, status, script, data = bad
                    write(f"{kept}/{command}.script", script)
                    write(f"{kept}/{command}.bin", data)
                    print(f"{label}: status {status}, with {kept}/{command}.bin")
                    return 1
        tried = sum(counts.values())
        print(f"{label}: {tried} streams; " + ", ".join(f"status {it}: {counts[it]}" for it in sorted(counts)), flush=True)
    return 0


sys.exit(main(sys.argv[1], int(sys.argv[2]), int(sys.argv[3]), sys.argv[4], sys.argv[5]))

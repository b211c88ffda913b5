"""The work of bench/view.sh, and its figures. Usage: view.py PROGRAM BYTES.., in an empty folder."""
import os
import subprocess
import sys

ROWS, CELLS = 1000, 1000  # rows of a frame, and different cells
CELL_BYTES = 65


def frame(kind, body):
    return bytes([2, kind]) + len(body).to_bytes(4, "big") + body


def cell(number):
    return b"\1" + number.to_bytes(CELL_BYTES - 1, "big")


# the columns of an answer: an INT, and an NVARCHAR(8) that is deterministic under key 1
KEY = b"\1" + (1).to_bytes(4, "big") + b"\0\1K" + b"\0\4main" + b"\0\1w"
COLUMNS = frame(0x82, KEY + b"\0\2" + b"\0\2id\1\0" + b"\0\1c\3\0\10\1" + (1).to_bytes(4, "big"))


def recorded(path, size):
    """Writes an answer of at least so many bytes, and returns how many rows it has."""
    rows = b"".join(b"\1" + n.to_bytes(8, "big") + b"\4" + CELL_BYTES.to_bytes(2, "big") + cell(n % CELLS) for n in range(ROWS))
    one = frame(0x86, ROWS.to_bytes(2, "big") + b"\0\2" + rows)
    times = -(-size // len(one))
    with open(path, "wb") as it:
        it.write(COLUMNS)
        for _ in range(times):
            it.write(one)
        it.write(frame(0x84, b"\2" + (times * ROWS).to_bytes(8, "big")))
    return times * ROWS


def listed(program, size):
    """The processor seconds and the most memory in KB."""
    rows = recorded("tap.bin", size)
    with open("tap.bin", "rb") as given, open("text", "wb") as put:
        child = subprocess.Popen([program], stdin=given, stdout=put)
        _, status, used = os.wait4(child.pid, 0)
    with open("text", "rb") as it:
        it.seek(max(0, os.path.getsize("text") - 2000))
        end = it.read().decode()
    wanted = f"deterministic: {rows} cells, 0 NULL, 0 plain\n        {CELLS} different\n        {rows // CELLS} times :1\n"
    if os.waitstatus_to_exitcode(status) or wanted not in end or not end.endswith("\nwhole\n"):
        sys.exit(f"{size} bytes: status {os.waitstatus_to_exitcode(status)}, and the text ends {end[-300:]!r}")
    return used.ru_utime + used.ru_stime, used.ru_maxrss


for size in sys.argv[2:]:
    print(*listed(sys.argv[1], int(size)))

"""Serves the requests of tap.bin again, as bench/serve.sh says, and prints its figures. Usage: serve.py PROGRAM MEGABYTES."""
import os
import subprocess
import sys
import time

program, megabytes = sys.argv[1], int(sys.argv[2])


def frames(data):
    at = 0
    while at < len(data):
        behind = at + 6 + int.from_bytes(data[at + 2 : at + 6], "big")
        yield data[at:behind]
        at = behind


# The requests of the definition and of the first row; then those of the changes and queries, which leave the version as it is.
with open("tap.bin", "rb") as file:
    requests = [it for it in frames(file.read()) if it[1] < 0x80]
head, tail = b"".join(requests[:4]), b"".join(requests[4:])


def serve(size):
    """Returns the processor seconds that so many bytes take, and the most memory in KB."""
    with open("requests", "wb") as file:
        file.write(head)
        for _ in range(size // len(tail)):
            file.write(tail)
    with open("requests", "rb") as given, open("replies", "wb") as put:
        child = subprocess.Popen([program, "serve"], stdin=given, stdout=put)
        _, status, usage = os.wait4(child.pid, 0)
    assert status == 0, status
    return usage.ru_utime + usage.ru_stime, usage.ru_maxrss


def serve_bytes(data):
    """Returns the seconds that some bytes take that come one by one."""
    begin = time.time()
    with open("replies", "wb") as put:
        child = subprocess.Popen([program, "serve"], stdin=subprocess.PIPE, stdout=put, bufsize=0)
        for at in range(len(data)):
            os.write(child.stdin.fileno(), data[at : at + 1])
        child.stdin.close()
        assert child.wait() == 0
    return time.time() - begin


small = serve(megabytes * 1000000)
large = serve(4 * megabytes * 1000000)
some = head + b"".join(requests[4:104])
print(f"{small[0]:.3f} {small[1]} {large[0]:.3f} {large[1]} {len(some)} {serve_bytes(some):.3f}")

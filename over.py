"""Runs scripts by clients here, over a server that a command starts: `ae over`.

Usage: over.py PROGRAM [--tap FILE] COMMAND .. < SCRIPT
       over.py PROGRAM [--tap FILE] --scripts SCRIPT .. -- COMMAND ..
"""
import os
import signal
import sys
import time

from relay import DONE, EXECUTE, ROWS, Client, Server


def say(what):
    print(f"ae over: {what}", file=sys.stderr, flush=True)


class Seen:
    """What is done with the frames that pass: they are recorded, and a line on the terminal counts them."""

    def __init__(self, tap):
        self.tap = open(tap, "wb", buffering=0) if tap else None
        self.is_shown = sys.stderr.isatty() and not sys.stdout.isatty()

    def begin(self, script, what):
        size = os.stat(script or 0).st_size  # 0 of a pipe
        self.what = f"{what}, {size:,} bytes" if size else what
        self.began = self.shown = time.monotonic()
        self.steps = self.rows = 0

    def __call__(self, frame):
        if self.tap:
            self.tap.write(frame)
        if self.is_shown:
            self.count(frame)

    def count(self, frame):
        kind = frame[1]
        self.steps += kind == EXECUTE
        if kind == ROWS:
            self.rows += int.from_bytes(frame[6:8], "big")
        if kind == DONE and frame[6] == 1:  # a change
            self.rows += int.from_bytes(frame[7:15], "big")
        now = time.monotonic()
        if now > self.shown + 0.2:
            self.shown, pace = now, self.rows / (now - self.began)
            print(f"\r\033[Kae over: {self.what}: {self.steps:,} steps, {self.rows:,} rows, ", end="", file=sys.stderr)
            print(f"{pace:,.0f} rows a second", end="", file=sys.stderr, flush=True)

    def end(self):
        if self.is_shown and self.shown > self.began:
            print("\r\033[K", end="", file=sys.stderr, flush=True)


def words_of(words):
    """Returns the file of the recording, the scripts and the command. None is standard input."""
    tap, scripts = None, [None]
    if words[:1] == ["--tap"]:
        tap, words = "".join(words[1:2]), words[2:]
    if words[:1] == ["--scripts"] and "--" in words:
        cut = words.index("--")
        scripts, words = words[1:cut], words[cut + 1 :]
    if tap == "" or not scripts or not words or words[0].startswith("-"):
        say("usage: ae over [--tap FILE] COMMAND .. < SCRIPT, or ae over [--tap FILE] --scripts SCRIPT .. -- COMMAND ..")
        sys.exit(2)
    return tap, scripts, words


def run(program, server, scripts, seen):
    """Runs the scripts in turn, up to the first that doesn't reach its end. Returns the highest status."""
    highest = 0
    for at, script in enumerate(scripts):
        seen.begin(script, f"{script} ({at + 1} of {len(scripts)})" if script else "script")
        with open(script or os.dup(0), "rb") as given:
            client = Client(program, stdin=given)
        try:
            client.over(server, seen)
        except BaseException:
            client.run.terminate()
            raise
        finally:
            seen.end()
            highest = max(highest, client.end())
        if highest > 1 or server.replies.is_ended:
            break
        for _ in server.answer():
            pass
    return highest


def main():
    program, *words = sys.argv[1:]
    tap, scripts, command = words_of(words)
    for number in (signal.SIGHUP, signal.SIGTERM):
        signal.signal(number, signal.default_int_handler)
    server = None
    try:
        for it in filter(None, scripts):
            open(it, "rb").close()
        seen = Seen(tap)
        server = Server(command)
        status = run(program, server, scripts, seen)
        is_first, ended = server.replies.is_ended, server.end()
        if is_first or ended:
            say(f"the server ended {'first, ' if is_first else ''}with status {ended}")
    except KeyboardInterrupt:
        status = 130
    except OSError as why:
        say(why)
        status = 126
    finally:
        if server and server.run.poll() is None:
            server.run.terminate()
            server.run.wait()
    if status == 7 and sys.stderr.isatty():
        launcher = os.path.join(os.path.dirname(os.path.dirname(program)), "ae")
        os.spawnl(os.P_WAIT, launcher, "ae", "--why", "7", "over")
    sys.exit(status)


main()

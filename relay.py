"""The relay of `ae over` and `ae shell`: hands whole frames on between a client here and a server that a command starts.

The client is `PROGRAM drive --frames 2`, in a private folder whose files tap.bin and replies.bin are named pipes. The
relay is trusted with bytes alone: it knows the lengths and kinds of frames, no key and no cell, and the client checks
every reply.
"""
import ctypes
import os
import select
import shutil
import signal
import subprocess
import tempfile

DESCRIBE, EXECUTE, DONE, REFUSED, ROWS = 0x01, 0x02, 0x84, 0x85, 0x86
MOST_BODY = 16777216  # bytes; of a longer frame the header alone is handed on, where the client refuses it
LIBC, PR_SET_PDEATHSIG = ctypes.CDLL(None), 1


def end_with_relay():
    """Has the system end this process when the relay has ended, however it ended."""
    LIBC.prctl(PR_SET_PDEATHSIG, signal.SIGTERM)


def put(pipe, data):
    """Puts all bytes. Returns whether they were taken."""
    try:
        while data:
            data = data[os.write(pipe, data) :]
    except BrokenPipeError:
        return False
    return True


class Frames:
    """The frames that come through a pipe."""

    def __init__(self, pipe):
        self.pipe, self.held, self.is_ended = pipe, bytearray(), False

    def whole(self):
        """Takes the next frame where it is whole."""
        body = int.from_bytes(self.held[2:6], "big")
        behind = 6 + (body if body <= MOST_BODY else 0)
        if len(self.held) < behind:
            return None
        frame = bytes(self.held[:behind])
        del self.held[:behind]
        return frame

    def next(self, gone=None):
        """Waits for the next frame. Returns None where the pipe ends before, or the process whose pipe `gone` is."""
        while (frame := self.whole()) is None and not self.is_ended:
            if gone is not None and self.pipe not in select.select([self.pipe, gone], [], [])[0]:
                return None
            piece = os.read(self.pipe, 1 << 16)
            self.held += piece
            self.is_ended = not piece
        return frame


class Server:
    """The process that a command starts."""

    def __init__(self, command):
        self.run = subprocess.Popen(command, stdin=subprocess.PIPE, stdout=subprocess.PIPE, bufsize=0)
        self.replies, self.asked = Frames(self.run.stdout.fileno()), None

    def ask(self, request, gone):
        """Hands a request on, and gives the replies to it."""
        self.asked = request
        self.replies.is_ended |= not put(self.run.stdin.fileno(), request)
        return self.answer(gone)

    def answer(self, gone=None):
        """Gives what is still to come of the last answer: to a Describe one reply, to an Execute all up to Done or Refused.

        It is less where the server ends before, or the process whose pipe `gone` is."""
        while self.asked and (reply := self.replies.next(gone)):
            if self.asked[1] == DESCRIBE or reply[1] in (DONE, REFUSED):
                self.asked = None
            yield reply

    def end(self):
        """Closes the server's input, and waits for its end. Returns its status."""
        self.run.stdin.close()
        while self.replies.next():
            pass
        return status_of(self.run)


class Client:
    """A run of the driver in a private folder, with the keys of the folder where it is started."""

    def __init__(self, program, **streams):
        self.room, self.replies = tempfile.mkdtemp(prefix="ae-over-"), None
        for name in ("tap.bin", "replies.bin"):
            os.mkfifo(os.path.join(self.room, name), 0o600)
        os.symlink(os.path.abspath("keys"), os.path.join(self.room, "keys"))
        self.requests = Frames(os.open(os.path.join(self.room, "tap.bin"), os.O_RDONLY | os.O_NONBLOCK))
        self.gone, held = os.pipe()  # `held` is closed by the client's end
        words = [program, "drive", "--frames", "2"]
        self.run = subprocess.Popen(words, cwd=self.room, pass_fds=[held], preexec_fn=end_with_relay, **streams)
        os.close(held)

    def is_reading(self):
        """Waits until the client reads its replies. Returns whether it does; it doesn't where it has ended."""
        while self.replies is None and not select.select([self.gone], [], [], 0.001)[0]:
            try:
                self.replies = os.open(os.path.join(self.room, "replies.bin"), os.O_WRONLY | os.O_NONBLOCK)
                os.set_blocking(self.replies, True)
            except OSError:
                pass  # nobody reads yet
        return self.replies is not None

    def over(self, server, seen):
        """Hands frames on until the client has closed its requests and each was answered, or until one end is gone."""
        while not server.asked and (request := self.requests.next(self.gone)):
            seen(request)
            for reply in server.ask(request, self.gone):
                seen(reply)
                if not self.is_reading() or not put(self.replies, reply):
                    break
        if self.is_reading():
            os.close(self.replies)

    def end(self):
        """Waits for the client's end. Returns its status."""
        status = status_of(self.run)
        os.close(self.gone)
        os.close(self.requests.pipe)
        shutil.rmtree(self.room, ignore_errors=True)
        return status


def status_of(run):
    """Waits for a process. Returns its status as a shell counts it."""
    status = run.wait()
    return status if status >= 0 else 128 - status

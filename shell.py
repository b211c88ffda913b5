"""A prompt over a server that a command starts: `ae shell`.

Usage: shell.py PROGRAM COMMAND ..

Lines are read until GO. Each batch is then a client's run over the one server (relay.py), in the session and with the
trusted paths that were named before. Nothing that is typed is kept in a file.
"""
import io
import itertools
import os
import re
import signal
import subprocess
import sys
import threading
import unicodedata

from relay import Client, Server

try:
    import readline  # noqa: F401  (editing and history of the lines that are typed)
except ImportError:
    pass

HELP = """\
Type a batch, with its DECLARE lines first, and end it with a line GO. Each
batch is a client of its own over the one server: a transaction stays open from
batch to batch, but half a batch ends with its client.
  :session N     the batches that follow run in session N, from 1 to 64
  :trust PATH    from here on column keys are opened by trusted paths alone
  :force @name   after its DECLARE: it is sent as a cell or not at all
  :describe      in place of GO: shows how each parameter would be sent
  :quit          ends the shell, the server and its open transactions
Ctrl-C drops the lines that were typed, or stops an answer. A change that was
sent is not undone by it. The end of the input is as :quit."""
SAMPLE = 500  # rows from which the widths of columns are taken
WIDEST = 48  # a column isn't padded further
FIELD = re.compile(r"(?:^|\t)((?:N'(?:[^']|'')*'|[^\t])*)")
NUMBER = re.compile(r"-?\d+|NULL")
HEAD = re.compile(r"[ \t]*(--|$)")  # a line that may stand between batches


def whole_lines(lines):
    """Gives the lines of an answer without their ends: the titles, then each row, whose texts may have line ends."""
    row = ""
    for at, line in enumerate(lines):
        row += line
        if at == 0 or row.count("'") % 2 == 0:
            yield row[:-1] if row.endswith("\n") else row
            row = ""
    if row:
        yield row


def visible(text):
    """A text in which nothing moves the cursor or colours the screen."""
    return text if text.isprintable() else "".join(it if it.isprintable() else ascii(it)[1:-1] for it in text)


def padded(text, size, is_right):
    used = sum(0 if unicodedata.combining(it) else 1 + (unicodedata.east_asian_width(it) in "WF") for it in text)
    return (" " * (size - used) + text) if is_right else (text + " " * (size - used))


class Printer:
    """Prints answers: on a terminal with columns lined up and refusals in red, else as the client does."""

    def __init__(self):
        self.is_terminal = sys.stdout.isatty()
        self.is_coloured = self.is_terminal and "NO_COLOR" not in os.environ

    def line(self, text):
        text = visible(text) if self.is_terminal else text
        print(f"\033[31m{text}\033[0m" if self.is_coloured and text.startswith(("error ", "ae: ")) else text)

    def table(self, lines):
        """Prints titles and rows, and the line after them. The widths are those of the titles and of the first rows."""
        titles = [visible(it) for it in next(lines).split("\t")]
        first = list(itertools.islice(lines, SAMPLE))
        rows = [[visible(it) for it in FIELD.findall(line)] for line in first if not line.startswith(("(", "error "))]
        columns = [column[: len(rows) + 1] for column in itertools.zip_longest(titles, *rows, fillvalue="")]
        sizes = [min(WIDEST, max(map(len, column))) for column in columns]
        rights = [len(column) > 1 and all(map(NUMBER.fullmatch, column[1:])) for column in columns]

        def put(fields):
            print("  ".join(map(padded, fields, sizes, rights)).rstrip())

        put(titles)
        print("  ".join("-" * it for it in sizes))
        for line in itertools.chain(first, lines):
            if line.startswith(("(", "error ")):
                self.line(line)
            else:
                put([visible(it) for it in FIELD.findall(line)])

    def answer(self, lines):
        lines = whole_lines(lines)
        first = list(itertools.islice(lines, 2))
        lines = itertools.chain(first, lines)
        if self.is_terminal and len(first) == 2 and not first[1].startswith("@") and first[0] != "described":
            self.table(lines)
        else:
            for it in lines:
                self.line(it)
        sys.stdout.flush()


class Shell:
    def __init__(self, program, command):
        self.program, self.printer = program, Printer()
        self.session, self.trusted, self.typed = "", [], []
        # Ctrl-C is for the shell and the client of a batch.
        before = signal.signal(signal.SIGINT, signal.SIG_IGN)
        self.server = Server(command)
        signal.signal(signal.SIGINT, before)

    def note(self, what):
        print(f"ae shell: {what}", file=sys.stderr, flush=True)

    def run(self, text):
        """Runs a batch by a client of its own, and prints what it prints."""
        if self.server.asked:
            self.note("waiting for the end of the answer that was stopped")
            for _ in self.server.answer():
                pass
        head = [*self.trusted, *([self.session] if self.session else [])]
        client = Client(self.program, stdin=subprocess.PIPE, stdout=subprocess.PIPE, stderr=subprocess.PIPE)
        relay = threading.Thread(target=client.over, args=(self.server, lambda _: None), daemon=True)
        relay.start()
        try:
            try:
                with client.run.stdin as given:
                    given.write("".join(f"{it}\n" for it in [*head, text]).encode("utf-8", "surrogateescape"))
                self.printer.answer(io.TextIOWrapper(client.run.stdout, "utf-8", "replace", newline="\n"))
            except KeyboardInterrupt:
                client.run.kill()
                print()
                self.note("stopped; the rest of the answer is dropped before the next batch")
            except BrokenPipeError:
                pass  # the client ended before it had read all
            relay.join()
            said = client.run.stderr.read().decode("utf-8", "replace")
            # (the client counts the lines of the head too)
            said = re.sub(r"(?<=bad script line )\d+", lambda it: str(int(it[0]) - len(head)), said)
            for line in said.splitlines():
                self.printer.line(line)
        finally:
            client.run.kill()
            client.end()

    def colon(self, line):
        """Does what a line says that begins with a colon, between batches."""
        word, _, rest = line.strip(" \t").partition(" ")
        if word == ":session" and re.fullmatch(r"[1-9]|[1-5]\d|6[0-4]", rest):
            self.session = f":session {rest}"
        elif word == ":trust" and rest:
            self.trusted.append(f":trust {rest}")
        elif word == ":help":
            print(HELP)
        elif word == ":execute":
            self.note("nothing waits: half a batch ends with its client")
        else:
            self.note("no such line here; :help shows what there is")

    def take(self, line):
        """Takes a line that was typed."""
        word = line.strip(" \t")
        is_between = all(HEAD.match(it) for it in self.typed)
        if is_between and word.startswith(":") and not word.startswith((":force", ":describe")):
            self.typed = []
            self.colon(line)
        elif word.upper() == "GO" or word == ":describe":
            text, self.typed = "\n".join([*self.typed, line]), []
            self.run(text)
            if word == ":describe":
                self.note("this half of the batch has ended with its client")
        elif self.typed or word:
            self.typed.append(line)

    def prompt(self):
        return f"{self.session[9:]}{':' if self.session else ''}{len(self.typed) + 1}> " if sys.stdin.isatty() else ""

    def loop(self):
        while not self.server.replies.is_ended:
            try:
                line = input(self.prompt())
                if line.strip(" \t") == ":quit":
                    return
                self.take(line)
            except EOFError:
                if self.typed:
                    self.note("the last batch has no GO, and was not run")
                return
            except KeyboardInterrupt:
                print()
                self.typed = []


def main():
    program, *command = sys.argv[1:]
    if not command or command[0].startswith("-"):
        sys.exit("usage: ae shell COMMAND ..")
    try:
        shell = Shell(program, command)
    except OSError as why:
        sys.exit(f"ae shell: {why}")
    if sys.stdin.isatty():
        print("A batch ends with GO; :help says more.")
    shell.loop()
    is_first, ended = shell.server.replies.is_ended, shell.server.end()
    if is_first or ended:
        shell.note(f"the server ended {'first, ' if is_first else ''}with status {ended}")
    sys.exit(1 if is_first or ended else 0)


main()

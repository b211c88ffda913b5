#!/usr/bin/env python3
"""Proves and builds a program and every crate below it, side by side on all processors.

Usage: build.py TOP PROGRAM NAME [WORD ..], where TOP/crates.txt lists the crates. TOP/built gets the program under
this name, a stamp with the toolchain's version, and the logs. The folders of the crates belong to `rt`.
With words, it shows meanwhile what an unproved trial run of the program on these words prints for standard input.
The gate's command (`rt ci`) proves the crates. It keeps what is proved beside the kit, and gives what any checkout on
this machine has proved. Where nothing can be kept there, each crate is built by `rt lib` as soon as those that it uses
are built, the longest chain first, and kept in the checkout. So an interrupted build resumes where it stopped.
On a terminal one line tells how far it is; in a log there is a line for each crate.
"""
import os
import re
import shutil
import signal
import subprocess
import sys
import tempfile
import time

# Processor seconds of each proof, as measured; a crate that is not listed counts as OTHER. They serve the time left and
# the order alone.
SECONDS = {
    "ae_base": 141, "ae_cli": 200, "ae_edge": 91, "aes_block": 120, "catalog": 95, "cell_codec": 33,
    "check_command": 70, "command_words": 103, "conversation": 36, "disk": 63, "drive_command": 100, "driver": 198,
    "enc_types": 61, "engine": 169, "executor": 150, "expression_binding": 78, "frame_feed": 48, "hash_joins": 121,
    "indexed_tables": 95, "inference": 58, "journal_command": 111, "journal_core": 40, "key_index": 92,
    "key_store": 40, "lookups": 60, "operators": 107, "outcome_text": 59, "planner": 76, "query_results": 75,
    "resolve": 225, "row_changes": 120, "row_lookups": 90, "row_store": 68, "run_command": 80, "scalar": 99,
    "script_lang": 100, "script_run": 145, "semantic_checks": 87, "serve_command": 62, "server_core": 121,
    "sql_ddl": 112, "sql_expressions": 152, "sql_parse": 137, "sql_tree": 108, "statement_analysis": 93,
    "table_changes": 95, "transactions": 203, "unique_keys": 61, "value_norm": 36, "wire_bodies": 83,
    "wire_decoding": 89, "wire_encoding": 134, "wire_messages": 87, "wire_parts": 65, "wire_payloads": 33,
}
OTHER = 18
MEMORY = 2 << 30  # bytes that a proof may take; few take more
LEFT_OUT = shutil.ignore_patterns("out", "must-fail")


class Failed(Exception):
    """A build that did not succeed, with its log."""


class Crate:
    """A line of crates.txt: a crate and the crates of the repository that it uses."""

    def __init__(self, top, name, line, deps):
        self.name, self.line, self.deps = name, line, deps
        self.folder = os.path.join(top, "crates", name)
        self.log = os.path.join(top, "built", "logs", name)
        self.seconds = SECONDS.get(name, OTHER)
        self.chain = self.seconds  # with all that waits for it


def start(verb, folder, path):
    """Starts a command of `rt` in a folder, with a log, at a lower priority: the preview comes first."""
    os.makedirs(os.path.dirname(path), exist_ok=True)
    with open(path, "wb") as log:
        return subprocess.Popen(
            ["nice", "rt", *verb], cwd=folder, stdin=subprocess.DEVNULL, stdout=log, stderr=log, start_new_session=True
        )


def stop(run):
    """Ends a run with everything that it started; `rt` keeps what is proved."""
    try:
        os.killpg(run.pid, signal.SIGTERM)
    except ProcessLookupError:
        pass
    run.wait()


def crates_of(top, program):
    """Returns the program's crate and those below it, lowest first, with the length of the chain above each."""
    listed = {}
    with open(os.path.join(top, "crates.txt"), encoding="utf-8") as lines:
        for line in lines:
            head, colon, deps = line.partition("#")[0].partition(":")
            if colon:
                listed[head.split()[0]] = line, deps.split()
    found = {}

    def visit(name):
        if name in listed and name not in found:
            line, deps = listed[name]
            deps = [dep for dep in deps if dep in listed]
            for dep in deps:
                visit(dep)
            found[name] = Crate(top, name, line, deps)

    visit(program)
    for crate in reversed(list(found.values())):
        for dep in crate.deps:
            found[dep].chain = max(found[dep].chain, found[dep].seconds + crate.chain)
    return found


def workers():
    """Returns how many proofs run side by side: one for each processor, if memory allows."""
    count = len(os.sched_getaffinity(0)) if hasattr(os, "sched_getaffinity") else os.cpu_count() or 1
    try:
        with open("/proc/meminfo", encoding="ascii") as lines:
            free = next(int(line.split()[1]) << 10 for line in lines if line.startswith("MemAvailable"))
    except (OSError, StopIteration):
        return count
    return max(1, min(count, free // MEMORY))


class Preview:
    """An unproved trial run of the program, whose output is shown on standard error once it has ended."""

    def __init__(self, top, words):
        print("ae: preparing an unproved preview, which takes a minute or two", file=sys.stderr)
        self.text, self.said = tempfile.TemporaryFile("w+"), tempfile.TemporaryFile("w+")
        trial = [os.path.join(top, "ae"), "--unproved", *words]
        self.run = subprocess.Popen(trial, stdout=self.text, stderr=self.said, start_new_session=True)

    def is_ready(self):
        return self.run is not None and self.run.poll() is not None

    def show(self):
        self.run = None
        self.text.seek(0)
        self.said.seek(0)
        said = self.said.readlines()[1:]  # the first line is the launcher's
        if not any(line.startswith("run=ended") for line in said):
            last = said[-1].strip() if said else ""
            print(f"ae: no preview, since the trial run gave no answer: {last}", file=sys.stderr)
            return
        print("ae: UNPROVED PREVIEW of the output:", file=sys.stderr)
        for line in [*(it for it in said if it.startswith("ae: ")), *self.text]:
            print(f"  | {line.rstrip()}", file=sys.stderr)

    def end(self):
        if self.run:
            stop(self.run)


class Progress:
    """What is said of a build on standard error."""

    def __init__(self, crates, preview):
        self.left, self.count, self.width = dict(crates), len(crates), workers()
        self.preview = preview
        self.begin, self.is_terminal = time.monotonic(), sys.stderr.isatty()
        self.known = 0  # seconds, as listed, of the crates that were proved in this run

    def minutes_left(self):
        """Returns an estimate from known costs, at the pace of this run."""
        left = self.left.values()
        # (a crate that all others wait for gets several processors)
        work = max(sum(it.seconds for it in left) / self.width, 0.8 * max(it.chain for it in left))
        gone = time.monotonic() - self.begin
        return max(1, round(work * (gone * self.width / self.known if self.known > 500 else 1) / 60))

    def line(self, running=()):
        gone = int((time.monotonic() - self.begin) / 60)
        said = f"ae: {self.count - len(self.left)} of {self.count} crates proved, {gone} min gone"
        if self.left:
            said += f", about {self.minutes_left()} min left"
        return f"{said} ({', '.join(running)})" if running else said

    def show(self, running=()):
        if self.preview and self.preview.is_ready():
            print("\r\033[K" if self.is_terminal else "", end="", file=sys.stderr)
            self.preview.show()
        if self.is_terminal:
            width = os.get_terminal_size(2).columns - 1
            print(f"\r\033[K{self.line(running)[:width]}", end="", file=sys.stderr, flush=True)

    def built(self, name, was_there):
        """Notes that a crate is proved, now or before."""
        crate = self.left.pop(name, None)
        if crate:
            self.known += 0 if was_there else crate.seconds
            if not self.is_terminal:
                print(f"{self.line()}: {name}", file=sys.stderr, flush=True)

    def end(self):
        if self.is_terminal:
            print(file=sys.stderr)
        if self.preview:
            self.preview.end()


def copy_crates(top, crates, room):
    """Copies what the gate reads of the crates, but for the wrong bodies."""
    for name, crate in crates.items():
        shutil.copytree(crate.folder, os.path.join(room, "crates", name), ignore=LEFT_OUT)
    shutil.copyfile(os.path.join(top, "HANDLES"), os.path.join(room, "HANDLES"))
    with open(os.path.join(room, "crates.txt"), "w", encoding="utf-8") as listed:
        listed.writelines(crate.line for crate in crates.values())


def told_by_gate(log):
    """Returns the crates that the gate says are proved, and whether each was kept."""
    with open(log, encoding="utf-8", errors="replace") as lines:
        found = [re.match(r"rt: (\w+) (proved$|is kept:)", line) for line in lines]
    return {it[1]: it[2] != "proved" for it in found if it}


def is_kept():
    """Returns whether `rt` can keep what it proves, which it does beside the kit."""
    page = subprocess.run(["rt", "doc"], stdout=subprocess.PIPE, text=True, check=True).stdout.strip()
    return os.access(os.path.dirname(os.path.dirname(page)), os.W_OK)


def take(program, made):
    """Puts a copy of the program where the launcher starts it, whole or not at all."""
    shutil.copyfile(program, f"{made}.new")
    os.chmod(f"{made}.new", 0o755)
    os.replace(f"{made}.new", made)


def build_by_gate(top, crates, program, preview, made):
    """Proves the crates by the gate's command, over a copy without wrong bodies.

    Raises Failed if that ends before the program.
    """
    log = crates[program].log
    room = tempfile.mkdtemp(prefix="ae-build-")
    copy_crates(top, crates, room)
    run, progress = start(["ci"], room, log), Progress(crates, preview)
    try:
        # (the program's tests, which come after it, aren't waited for)
        while program in progress.left:
            ended = run.poll() is not None
            for name, was_there in told_by_gate(log).items():
                progress.built(name, was_there)
            if ended and program in progress.left:
                raise Failed(log)
            progress.show()
            time.sleep(0.5)
        take(os.path.join(room, "crates", program, "out", program), made)
    finally:
        stop(run)
        shutil.rmtree(room, ignore_errors=True)
        progress.end()


def command(crate, program, jobs):
    """Returns the words for `rt`. A program is also run once, on words that touch nothing, so that its status tells."""
    if crate.name == program:
        return ["run", "--jobs", str(jobs), "--", "gen", "1"]
    return ["lib", "--jobs", str(jobs)]


def build_each(crates, program, preview, made):
    """Builds all crates, and raises Failed at the first that cannot be built. What runs then is stopped."""
    progress = Progress(crates, preview)
    width, left, running = progress.width, dict(crates), {}
    try:
        while left:
            ready = [it for it in left.values() if it.name not in running and not any(dep in left for dep in it.deps)]
            for crate in sorted(ready, key=lambda it: -it.chain)[: width - len(running)]:
                jobs = max(1, width // (len(running) + len(ready)))
                if crate.chain == max(it.chain for it in left.values()):
                    jobs = min(width, max(jobs, 2))  # all else waits for it
                running[crate.name] = start(command(crate, program, jobs), crate.folder, crate.log), time.monotonic()
            progress.show(running)
            time.sleep(0.2)
            for name in [name for name, (run, _) in running.items() if run.poll() is not None]:
                run, began = running.pop(name)
                if run.returncode:
                    raise Failed(left[name].log)
                del left[name]
                progress.built(name, time.monotonic() - began < 5)
        progress.show()
        take(os.path.join(crates[program].folder, "out", program), made)
    finally:
        for run, _ in running.values():
            stop(run)
        progress.end()


def said_of_failure(log):
    """Returns the end of what a log says of the first thing that failed."""
    with open(log, encoding="utf-8", errors="replace") as file:
        lines = [line for line in file if " is kept: " not in line]
    ends = [at for at, line in enumerate(lines) if "NOT PROVED" in line]
    last = ends[0] + 1 if ends else len(lines)
    return "".join(f"  | {line}" for line in lines[max(0, last - 12) : last])


def main():
    top, program, name, *words = sys.argv[1:]
    for number in (signal.SIGHUP, signal.SIGTERM):
        if signal.getsignal(number) != signal.SIG_IGN:  # as under nohup
            signal.signal(number, signal.default_int_handler)
    crates = crates_of(top, program)
    began, made = time.time(), os.path.join(top, "built", name)
    version = subprocess.run(["rt", "version"], stdout=subprocess.PIPE, text=True, check=True).stdout
    print(f"ae: proving and building the program, {len(crates)} crates", file=sys.stderr)
    try:
        preview = Preview(top, words) if words else None
        if is_kept():
            build_by_gate(top, crates, program, preview, made)
        else:
            build_each(crates, program, preview, made)
    except Failed as failed:
        (log,) = failed.args
        sys.exit(f"ae: the program could not be built. The end of {log}:\n{said_of_failure(log)}")
    except KeyboardInterrupt:
        sys.exit("ae: the build was interrupted; the next one resumes here")
    except OSError as why:  # a full disk, say
        sys.exit(f"ae: the program could not be built: {why}")
    # Its time is that of the beginning, so that a source that changed meanwhile is newer.
    stamp = f"{made}.stamp"
    with open(stamp, "w", encoding="utf-8") as file:
        file.write(version)
    os.utime(stamp, (began, began))


if __name__ == "__main__":
    main()

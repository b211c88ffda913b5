#!/usr/bin/env python3
"""Runs the commands of README.md, and those of the guide's first steps, as they stand there.

Usage: readme_commands.py first    README's first command, in this checkout
       readme_commands.py orders   README's two commands in a fresh clone, and in another clone in the other order
       readme_commands.py steps    the guide's five steps, in a fresh clone

What a command prints is compared with the text that the page or the example has. The status is 0 where all is as it says.
"""
import os
import re
import shutil
import subprocess
import sys
import tempfile
import time

TOP = os.path.dirname(os.path.dirname(os.path.abspath(__file__)))
WANTED = os.path.join(TOP, "examples", "one_patient", "text")


def read(*path):
    with open(os.path.join(TOP, *path), encoding="utf-8") as file:
        return file.read()


def indented(text, heading):
    """Returns the indented lines of a section, without their indent."""
    section = text.split(f"\n## {heading}\n", 1)[1].split("\n## ", 1)[0]
    return re.findall(r"(?m)^    (.*)$", section)


def commands():
    first, second = indented(read("README.md"), "Two commands")
    return first, second


def run(command, top):
    """Runs a command at the top of a checkout, and returns its status and what it printed."""
    print(f"\n$ {command}", flush=True)
    began = time.monotonic()
    ran = subprocess.run(["sh", "-c", command], cwd=top, stdin=subprocess.DEVNULL, stdout=subprocess.PIPE, text=True)
    print(f"{ran.stdout}[status {ran.returncode}, {time.monotonic() - began:.1f} s]", flush=True)
    return ran.returncode, ran.stdout


def prints_its_text(command, top):
    status, printed = run(command, top)
    return status == 0 and printed == read(WANTED)


def passes(command, top):
    status, printed = run(command, top)
    return status == 0 and bool(re.match(r"\d+ passed, 0 failed\b", printed.splitlines()[-1]))


class Clone:
    """A fresh clone of what is committed, removed in the end."""

    def __enter__(self):
        self.room = tempfile.mkdtemp(prefix="ae-clone-")
        top = os.path.join(self.room, "clone")
        subprocess.run(["git", "clone", "-q", TOP, top], check=True)
        return top

    def __exit__(self, *_):
        shutil.rmtree(self.room, ignore_errors=True)


def orders():
    first, second = commands()
    with Clone() as top:
        one = prints_its_text(first, top) and passes(second, top) and prints_its_text(first, top)
    with Clone() as top:
        other = passes(second, top) and prints_its_text(first, top) and passes(second, top)
    return one and other


def steps():
    script = "\n".join(indented(read("docs", "guide.md"), "Protect a column in five steps"))
    with Clone() as top:
        built, _ = run("./ae build", top)
        _, printed = run(script, top)
    # the last command looks for the value in the frames, and must not find it
    return built == 0 and printed == read(WANTED) + "0\n"


def main():
    if sys.argv[1:] == ["first"]:
        good = prints_its_text(commands()[0], TOP)
    elif sys.argv[1:] == ["orders"]:
        good = orders()
    elif sys.argv[1:] == ["steps"]:
        good = steps()
    else:
        sys.exit(__doc__)
    sys.exit(0 if good else "readme_commands: not as the page says")


main()

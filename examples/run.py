#!/usr/bin/env python3
"""Runs the examples of the README as they are printed, and compares what the program prints with what the page shows.

    examples/run.py PROGRAM

A line that begins with `$` is run by the shell in a folder of its own; the lines under it, up to the next command or an
empty line, are what it must print, on the standard output and error together. A command whose program is not there
(another solver, say) is passed over."""
import os
import shutil
import subprocess
import sys
import tempfile

TOP = os.path.dirname(os.path.dirname(os.path.abspath(__file__)))


def examples(page):
    """The commands of a page, each with the lines that it must print."""
    command, lines = None, []
    for line in page.split("\n"):
        text = line[4:] if line.startswith("    ") else None
        if text is not None and text.startswith("$ "):
            if command is not None:
                yield command, lines
            command, lines = text[2:], []
        elif text is None or text == "":
            if command is not None:
                yield command, lines
            command, lines = None, []
        elif command is not None:
            lines.append(text)
    if command is not None:
        yield command, lines


def main():
    if len(sys.argv) != 2:
        sys.exit("usage: examples/run.py PROGRAM")
    with open(os.path.join(TOP, "README.md"), encoding="utf-8") as page:
        listed = list(examples(page.read()))
    right = wrong = 0
    with tempfile.TemporaryDirectory() as folder:
        os.mkdir(os.path.join(folder, "bin"))
        shutil.copy(sys.argv[1], os.path.join(folder, "bin", "lattice"))
        os.symlink(os.path.join(TOP, "examples"), os.path.join(folder, "examples"))
        path = os.path.join(folder, "bin") + os.pathsep + os.environ["PATH"]
        for command, lines in listed:
            if shutil.which(command.split()[0], path=path) is None:
                print("passed over: " + command)
                continue
            run = subprocess.run(command, shell=True, cwd=folder, env=dict(os.environ, PATH=path),
                                 stdout=subprocess.PIPE, stderr=subprocess.STDOUT, check=False)
            if run.stdout.decode().split("\n")[:-1] == lines:
                right += 1
            else:
                wrong += 1
                print("differs: " + command + "\n" + run.stdout.decode())
    print(f"{right} as shown, {wrong} not")
    sys.exit(0 if wrong == 0 and right > 0 else 1)


main()

"""What reports say, for the scripts beside it."""

import os
import resource
import subprocess


def answers(report):
    """The output, the form and the area of each lattice of a report."""
    for line in report.split("\n"):
        words = line.split()
        if len(words) >= 5 and words[0] == "output":
            rows, cols = words[4].split("x")
            yield int(words[1]), words[3], int(rows) * int(cols)


def timed(words, given):
    """The status, what is printed, and the seconds of processor time of a command over the bytes given."""
    before = resource.getrusage(resource.RUSAGE_CHILDREN)
    run = subprocess.run(words, input=given, stdout=subprocess.PIPE, stderr=subprocess.PIPE, check=False)
    after = resource.getrusage(resource.RUSAGE_CHILDREN)
    spent = after.ru_utime + after.ru_stime - before.ru_utime - before.ru_stime
    return run.returncode, run.stdout.decode(), spent


def texts(folder):
    """The name and the bytes of each PLA of a folder."""
    for name in sorted(os.listdir(folder)):
        if name.endswith(".pla"):
            with open(os.path.join(folder, name), "rb") as text:
                yield name[:-4], text.read()

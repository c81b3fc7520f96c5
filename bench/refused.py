"""Refuses each allocation of some runs in turn, and says of each run that it ended with its own status or with want of memory, with a front of its text.

usage: refused.py PROGRAM FOLDER    (PROGRAM is crates/lattice/out/lattice after `rt run` in crates/lattice; cc is needed)"""

import os
import subprocess
import sys

HERE = os.path.dirname(os.path.abspath(__file__))
EXAMPLES = os.path.join(os.path.dirname(HERE), "examples")
NO_MEMORY = 5


class Runs:
    """Runs of the program in a folder, with one allocation refused or none."""

    def __init__(self, program, folder):
        self.program, self.folder = os.path.abspath(program), folder
        self.loaded = os.path.join(folder, "refuse.so")
        subprocess.run(["cc", "-O2", "-shared", "-fPIC", "-o", self.loaded, os.path.join(HERE, "refuse.c"), "-ldl"], check=True)

    def path(self, name):
        return os.path.join(self.folder, name)

    def run(self, words, text, refused):
        """The status, the report and the journal of a run, and how many allocations it made."""
        journal = self.path("written.journal")
        if os.path.exists(journal):
            os.remove(journal)
        settings = dict(os.environ, LD_PRELOAD=self.loaded, REFUSED=str(refused), COUNTED=self.path("count"))
        done = subprocess.run([self.program] + words, input=text, stdout=subprocess.PIPE, stderr=subprocess.PIPE, env=settings, check=False)
        with open(self.path("count"), encoding="ascii") as count:
            made = int(count.read())
        written = b""
        if os.path.exists(journal):
            with open(journal, "rb") as file:
                written = file.read()
        return done.returncode, done.stdout, written, made

    def sweep(self, name, words, text):
        """Refuses each allocation in turn."""
        status, report, journal, made = self.run(words, text, 0)
        ended = {status: 0, NO_MEMORY: 0}
        for refused in range(1, made + 1):
            found, out, written, _ = self.run(words, text, refused)
            if found not in ended or not report.startswith(out) or not journal.startswith(written):
                sys.exit(f"{name}: allocation {refused}: status {found}\n{out.decode()}")
            if found == status and (out, written) != (report, journal):
                sys.exit(f"{name}: allocation {refused}: another text at status {status}")
            ended[found] += 1
        print(f"{name}: status {status}; {made} allocations refused in turn: {ended[NO_MEMORY]} runs ended with want of memory"
              + (f", {ended[status]} with status {status}" if ended[status] else ""), flush=True)


def read(name):
    with open(os.path.join(EXAMPLES, name), "rb") as file:
        return file.read()


def main():
    program, folder = sys.argv[1:3]
    os.makedirs(folder, exist_ok=True)
    runs = Runs(program, folder)
    xor, broken = read("xor2.pla"), b".i 11\n.o 1\n.e\n"
    journal, report, old = runs.path("xor2.journal"), runs.path("xor2.report"), runs.path("old.journal")
    two, lrat = runs.path("two.cnf"), runs.path("two.lrat")
    with open(report, "wb") as file:
        file.write(subprocess.run([program, "synth", journal], input=xor, stdout=subprocess.PIPE, check=True).stdout)
    with open(journal, "rb") as file:
        lines = file.read().split(b"\n")
    with open(old, "wb") as file:
        file.write(b"\n".join([b"lattice journal 1"] + [line for line in lines[2:] if not line.startswith(b"refuted ")]))
    with open(lrat, "wb") as file:
        file.write(lines[3] + b"\n")
    formula = subprocess.run([program, "cnf", "--rows", "1", "--cols", "2"], input=xor, stdout=subprocess.PIPE, check=True).stdout
    with open(two, "wb") as file:
        file.write(formula)
    written = runs.path("written.journal")
    runs.sweep("words refused", ["synth"], b"")
    runs.sweep("pairs, refused", ["pairs"], broken)
    runs.sweep("pairs", ["pairs"], xor)
    runs.sweep("dual", ["dual"], read("segments.pla"))
    runs.sweep("cnf", ["cnf", "--rows", "2", "--cols", "2"], xor)
    runs.sweep("verify", ["verify", report], xor)
    runs.sweep("check", ["check", lrat], formula)
    runs.sweep("audit", ["audit", journal], xor)
    runs.sweep("renew", ["renew", old], xor)
    runs.sweep("map", ["map", written], read("xor2-stuck.pla"))
    runs.sweep("synth", ["synth", "--conflicts", "0", written], xor)


main()

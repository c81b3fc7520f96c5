"""Conflicts and propagations a second of the program's solver beside those of minisat (Debian's package, `-no-pre`), on the same formulas.

usage: solver.py PROGRAM FOLDER CIRCUIT.OUTPUT:ROWSxCOLS ..

`map` with an array of sound switches asks one question, whose formula `cnf` writes for minisat. Our conflicts are the step lines of the journal, and our time is that of the run less that of
a run without conflicts; each step is replayed and written in it. The program does not count its propagations: valgrind's callgrind counts the calls of LOOK, one for each value that is looked at, in a run
of the same words (a minute each), as minisat counts them."""

import os
import re
import sys

from reports import timed

ASKED = 20_000
LOOK = "clause_solver::propagate::look_at_next"


def steps(journal):
    """How many steps a journal has."""
    with open(journal, encoding="ascii") as lines:
        return sum(line[0].isdigit() for line in lines)


def asked(program, journal, text, output, conflicts):
    """The status of the question, its steps, and its processor time."""
    status, _, spent = timed([program, "map", "--conflicts", str(conflicts), "--output", output, journal], text)
    return status, steps(journal), spent


def looks(program, folder, words, text):
    """How many values a run looks at."""
    counted = os.path.join(folder, "solver.calls")
    timed(["valgrind", "--tool=callgrind", "--compress-strings=no", f"--callgrind-out-file={counted}", program] + words, text)
    calls = found = 0
    with open(counted, encoding="utf-8") as lines:
        for line in lines:
            if line.startswith("cfn="):
                found = LOOK in line
            elif line.startswith("calls=") and found:
                calls += int(line[len("calls="):].split()[0])
    return calls


def minisat(formula):
    """What it says of the formula within two seconds, about as many conflicts as are asked of ours, its conflicts, and its conflicts and propagations a second."""
    _, said, _ = timed(["minisat", "-no-pre", "-cpu-lim=2", formula, os.devnull], b"")
    told = [line for line in said.split("\n") if line in ("SATISFIABLE", "UNSATISFIABLE")]
    rates = [re.search(rf"{word} *: (\d+) .*\((\d+) /sec\)", said) for word in ("conflicts", "propagations")]
    return told[0] if told else "nothing", int(rates[0][1]), int(rates[0][2]), int(rates[1][2])


def measure(program, folder, place):
    """The line of one question."""
    name, shape = place.split(":")
    name, output = name.rsplit(".", 1)
    rows, cols = shape.split("x")
    with open(os.path.join(folder, name + ".pla"), "rb") as pla:
        text = pla.read()
    array = text + ("." * int(cols) + "\n").encode() * int(rows)
    journal, formula = os.path.join(folder, "solver.journal"), os.path.join(folder, "solver.cnf")
    begun = asked(program, journal, array, output, 0)[2]
    status, conflicts, spent = asked(program, journal, array, output, ASKED)
    _, made, _ = timed([program, "cnf", "--rows", rows, "--cols", cols, "--output", output], text)
    with open(formula, "w", encoding="ascii") as out:
        out.write(made)
    said, theirs, rate, propagations = minisat(formula)
    seconds = max(spent - begun, 0.01)
    ours = conflicts / seconds
    looked = looks(program, folder, ["map", "--conflicts", str(ASKED), "--output", output, journal], array) / seconds
    return (f"{place}: status {status}, {conflicts} conflicts, {ours:.0f} a second, {looked / 1e6:.2f} million propagations a second; "
            f"minisat {said}, {theirs} conflicts, {rate} a second (ratio {ours / rate:.2f}), "
            f"{propagations / 1e6:.2f} million propagations a second (ratio {looked / propagations:.2f})")


def main():
    program, folder = sys.argv[1:3]
    for place in sys.argv[3:]:
        print(measure(program, folder, place), flush=True)


main()

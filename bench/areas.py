"""The areas that `dual` and `synth` without conflicts print for each circuit, and their processor time.

usage: areas.py PROGRAM CIRCUITS FOLDER

`synth --conflicts 0` asks the finders and, beyond them, only questions that propagation answers."""

import os
import sys

from reports import answers, texts, timed


def main():
    program, circuits, folder = sys.argv[1:4]
    sums = {"dual": 0, "synth": 0}
    large = {"dual": 0, "synth": 0}
    seconds = {"dual": 0.0, "synth": 0.0}
    outputs = minima = 0
    for name, text in texts(circuits):
        _, dual, spent = timed([program, "dual"], text)
        seconds["dual"] += spent
        journal = os.path.join(folder, name + ".journal")
        _, synth, spent = timed([program, "synth", "--conflicts", "0", journal], text)
        seconds["synth"] += spent
        for (place, _, first), (_, form, last) in zip(answers(dual), answers(synth)):
            outputs += 1
            minima += form == "minimum"
            sums["dual"] += first
            sums["synth"] += last
            if first > 30:
                large["dual"] += first
                large["synth"] += last
            print(f"{name}.{place}: {first} to {last} {form}")
    print(f"{outputs} outputs, {minima} minimum; cells {sums['dual']} to {sums['synth']}; "
          f"of outputs above 30 cells {large['dual']} to {large['synth']}")
    print(f"processor time: dual {seconds['dual']:.2f} s, synth {seconds['synth']:.2f} s")


main()

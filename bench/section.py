"""The longest refuted section of a journal, and its formula, as texts that any LRAT checker takes.

usage: section.py PROGRAM PLA JOURNAL NAME
The steps go to NAME.lrat, the formula to NAME.cnf, as `cnf` writes it."""

import subprocess
import sys


def sections(journal):
    """The output, the shape and the steps of each refuted section."""
    question, steps = None, []
    for line in journal.split("\n"):
        words = line.split()
        if words[:1] == ["question"]:
            question, steps = words[1:], []
        elif words == ["refuted"] and question is not None and len(question) == 2:
            yield question[0], question[1].split("x"), steps
            question = None
        elif question is not None:
            steps.append(line)


def main(program, pla, journal, name):
    with open(journal, encoding="ascii") as text:
        output, (rows, cols), steps = max(sections(text.read()), key=lambda section: len(section[2]))
    with open(name + ".lrat", "w", encoding="ascii") as text:
        text.write("".join(step + "\n" for step in steps))
    with open(pla, "rb") as given, open(name + ".cnf", "wb") as text:
        subprocess.run([program, "cnf", "--rows", rows, "--cols", cols, "--output", output], stdin=given, stdout=text, check=True)
    print(f"output {output} on {rows} by {cols}: {len(steps)} steps")


main(*sys.argv[1:])

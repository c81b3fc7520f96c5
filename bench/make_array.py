"""Writes the PLA drawn at random of make_inputs.py with an array of 16 by 16 sound switches behind it, so that the formula is that of `cnf`.

usage: make_array.py FOLDER"""

import sys


def main():
    folder = sys.argv[1]
    with open(folder + "/drawn.pla", encoding="ascii") as text:
        pla = text.read()
    with open(folder + "/array.pla", "w", encoding="ascii") as out:
        out.write(pla + ("." * 16 + "\n") * 16)


main()

"""Writes the texts that the other scripts time: a large PLA, one with large lattices, and one drawn at random."""

import random
import sys


def drawn(path: str, seed: int, outputs: int, rows: int, digits: str, marks: str) -> None:
    """So many rows of ten inputs and so many outputs, whose digits are drawn from these."""
    draw = random.Random(seed)
    with open(path, "w") as out:
        out.write(f".i 10\n.o {outputs}\n")
        for _ in range(rows):
            row = "".join(draw.choice(digits) for _ in range(10))
            named = "".join(draw.choice(marks) for _ in range(outputs))
            out.write(f"{row} {named}\n")
        out.write(".e\n")


def parity(path: str) -> None:
    """Odd parity of ten inputs at eight outputs: a lattice of 512 by 512 for each."""
    with open(path, "w") as out:
        out.write(".i 10\n.o 8\n")
        for x in range(1024):
            if bin(x).count("1") % 2 == 1:
                digits = "".join(str(x >> i & 1) for i in range(10))
                out.write(f"{digits} 11111111\n")
        out.write(".e\n")


# 65,536 rows, 4.1 MB
drawn(sys.argv[1] + "/large.pla", 1, 51, 65_536, "01", "0000000001")
parity(sys.argv[1] + "/parity.pla")
# 256 rows, each third input digit a don't-care
drawn(sys.argv[1] + "/drawn.pla", 2, 64, 256, "01-", "1000")

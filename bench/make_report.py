"""Writes a PLA of one input and 64 outputs, and two reports for it: one that verifies, of 64 lattices of 1,024 by 1,024 cells,
and one of 120 such lattices, 500 MB, whose names are not the PLA's, so that it is read whole and then refused at once."""

import sys


def pla(path: str) -> None:
    with open(path, "w") as out:
        out.write(".i 1\n.o 64\n1 " + "1" * 64 + "\n.e\n")


def report(path: str, name: str, blocks: int, row: str) -> None:
    with open(path, "w") as out:
        out.write(f"lattice report 2\ninputs {name}\nrails 1048575\n")
        for block in range(blocks):
            output = min(block, 63)
            out.write(f"output {output} f{output} found 1024x1024\n")
            for _ in range(1024):
                out.write(row)
        out.write("end\n")


folder = sys.argv[1]
pla(folder + "/wide.pla")
report(folder + "/right.report", "x0", 64, "x0 " + "0 " * 1022 + "x0\n")
report(folder + "/long.report", "y", 120, " ".join(["x0'"] * 1024) + "\n")

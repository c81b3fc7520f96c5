"""Writes a formula and a refutation of it with many steps: the pigeons' parity as a chain of wide clauses.

usage: make_proof.py FOLDER CHAINS LENGTH
For each of CHAINS chains of LENGTH variables the formula says that each variable implies the next two, that the first
one holds, and that the last one does not; the proof derives wider clauses along the chain and then the units.
"""

import sys


def main(folder: str, chains: int, length: int) -> None:
    clauses = []
    names = {}

    def add(*literals: int) -> int:
        clauses.append(literals)
        return len(clauses)

    for chain in range(chains):
        base = chain * length
        for i in range(1, length):
            names[chain, i] = add(-(base + i), base + i + 1)
    starts = add(*[chain * length + 1 for chain in range(chains)])
    ends = [add(-(chain * length + length)) for chain in range(chains)]

    steps = []
    number = len(clauses)
    # the first of each chain implies each later one
    for chain in range(chains):
        base = chain * length
        before = names[chain, 1]
        for i in range(2, length):
            number += 1
            steps.append(f"{number} {-(base + 1)} {base + i + 1} 0 {before} {names[chain, i]} 0")
            before = number
        number += 1
        steps.append(f"{number} {-(base + 1)} 0 {before} {ends[chain]} 0")
        names[chain, 0] = number
    number += 1
    units = " ".join(str(names[chain, 0]) for chain in range(chains))
    steps.append(f"{number} 0 {units} {starts} 0")

    with open(folder + "/chains.cnf", "w") as out:
        out.write(f"p cnf {chains * length} {len(clauses)}\n")
        out.writelines(" ".join(map(str, clause)) + " 0\n" for clause in clauses)
    with open(folder + "/chains.lrat", "w") as out:
        out.write("\n".join(steps) + "\n")


main(sys.argv[1], int(sys.argv[2]), int(sys.argv[3]))

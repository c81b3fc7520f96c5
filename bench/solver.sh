#!/bin/sh
# Conflicts and propagations a second of the program's solver beside those of minisat (Debian's package), on the same formulas.
# usage: bench/solver.sh PROGRAM FOLDER    (PROGRAM is crates/lattice/out/lattice after `rt run` in crates/lattice)
. "$(dirname "$0")/common.sh"
python3 "$here/make_circuits.py" "$folder"
python3 "$here/solver.py" "$program" "$folder" adder3.2:4x5 majority7.0:5x4 multiplier3.2:4x4 majority5.0:4x4

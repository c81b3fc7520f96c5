#!/bin/sh
# The least areas of all functions of three inputs, by `synth` and by trying all lattices of at most seven cells.
# usage: bench/least.sh PROGRAM FOLDER    (PROGRAM is crates/lattice/out/lattice after `rt run` in crates/lattice)
set -e
here=$(dirname "$0")
cc -O2 -o "$2/least" "$here/least.c"
"$2/least" > "$2/least.txt"
time python3 "$here/least.py" "$1" "$2/least.txt" "$2"

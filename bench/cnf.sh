#!/bin/sh
# Times `cnf` of the largest shape for a function of ten inputs, beside `wc` of the formula and minisat's reading of it.
# usage: bench/cnf.sh PROGRAM FOLDER    (PROGRAM is crates/lattice/out/lattice after `rt run` in crates/lattice)
. "$(dirname "$0")/common.sh"
python3 "$here/make_inputs.py" "$folder"

formula=$folder/large.cnf
"$program" cnf --rows 16 --cols 16 <"$folder/drawn.pla" >"$formula"
head -1 "$formula"
echo "cnf      $(least_of 3 "$folder/drawn.pla" cnf --rows 16 --cols 16)"
echo "wc       $(least 3 wc "$formula")"
echo "minisat  $(timeout -s INT 25 minisat "$formula" 2>/dev/null | grep -o "Parse time: *[0-9.]* s")"

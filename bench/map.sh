#!/bin/sh
# Times `map` of an array of 16 by 16 sound switches for an output of ten inputs beside a public solver (Debian's package cadical) on
# the same formula, which `cnf` writes, with as many conflicts.
# usage: bench/map.sh PROGRAM FOLDER    (PROGRAM is crates/lattice/out/lattice after `rt run` in crates/lattice)
. "$(dirname "$0")/common.sh"
python3 "$here/make_inputs.py" "$folder"
python3 "$here/make_array.py" "$folder"
echo "map     $(least_of 1 "$folder/array.pla" map --conflicts 200 "$folder/array.journal")"
echo "cnf     $(least_of 1 "$folder/drawn.pla" cnf --rows 16 --cols 16)"
"$program" cnf --rows 16 --cols 16 <"$folder/drawn.pla" >"$folder/array.cnf"
echo "cadical $(least 1 cadical -q -n -c 200 "$folder/array.cnf")"

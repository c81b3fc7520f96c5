#!/bin/sh
# Times `check` on a proof of many short steps and on a section of a journal, beside a small C checker of the same format.
# usage: bench/check.sh PROGRAM FOLDER [CHAINS LENGTH]    (PROGRAM is crates/lattice/out/lattice after `rt run` in crates/lattice)
. "$(dirname "$0")/common.sh"
cc -O2 -o "$folder/lrat_check" "$here/lrat_check.c"
python3 "$here/make_proof.py" "$folder" "${3:-200}" "${4:-2000}"
python3 "$here/make_circuits.py" "$folder/circuits"
"$program" synth --conflicts 60000 --output 2 "$folder/section.journal" <"$folder/circuits/multiplier3.pla" >"$folder/section.report" || test $? = 7
python3 "$here/section.py" "$program" "$folder/circuits/multiplier3.pla" "$folder/section.journal" "$folder/section"
for name in chains section; do
    echo "$name: cnf $(wc -c <"$folder/$name.cnf") bytes, lrat $(wc -c <"$folder/$name.lrat") bytes, $(wc -l <"$folder/$name.lrat") steps"
    "$program" check "$folder/$name.lrat" <"$folder/$name.cnf"
    "$folder/lrat_check" "$folder/$name.lrat" <"$folder/$name.cnf"
    echo "  check      $(least_of 5 "$folder/$name.cnf" check "$folder/$name.lrat")"
    echo "  lrat_check $(least 5 sh -c "exec $folder/lrat_check $folder/$name.lrat <$folder/$name.cnf")"
done

#!/bin/sh
# Times `audit` of the journals of some circuits beside the `synth` that wrote them, and says how much memory each took.
# usage: bench/audit.sh PROGRAM FOLDER    (PROGRAM is crates/lattice/out/lattice after `rt run` in crates/lattice)
. "$(dirname "$0")/common.sh"
python3 "$here/make_circuits.py" "$folder/circuits"
for name in parity3 full_adder majority5 segments adder2 compare2 square4; do
    text=$folder/circuits/$name.pla
    echo "$name: synth $(least_of 1 "$text" synth --conflicts 2000 "$folder/$name.journal")"
    echo "  journal of $(wc -c <"$folder/$name.journal") bytes; audit $(least_of 3 "$text" audit "$folder/$name.journal")"
    "$program" audit "$folder/$name.journal" <"$text"
done

# the default budget, where questions are spent
for name in adder3 majority7; do
    text=$folder/circuits/$name.pla
    echo "$name, 20,000 conflicts: synth $(least_of 1 "$text" synth "$folder/$name.journal"); audit $(least_of 1 "$text" audit "$folder/$name.journal")"
done

# a journal nearly as long as one may be: the sections of the majority of five, again and again
python3 "$here/long_journal.py" "$folder/majority5.journal" "$folder/long.journal" 536870912
echo "long journal of $(wc -c <"$folder/long.journal") bytes; audit $(least_of 1 "$folder/circuits/majority5.pla" audit "$folder/long.journal")"
"$program" audit "$folder/long.journal" <"$folder/circuits/majority5.pla"

#!/bin/sh
# The four finders of the kit alone over outputs of ten inputs: the areas that `dual` and `synth --conflicts 0` print, and the
# processor time of the latter, for each output.
# usage: bench/kit.sh PROGRAM FOLDER
# PROGRAM is that of a clone whose crates/lattice_process/src/start.rt hands in the kit alone: take the two `use` lines, the two
# boxes, `Ok(parts)`, `Ok(repair)` and the two pushes of `PartsFinder` and `RepairFinder` out, and `rt run` in crates/lattice.
. "$(dirname "$0")/common.sh"
python3 "$here/make_circuits.py" "$folder/circuits"
python3 "$here/make_inputs.py" "$folder"
for text in "$folder/drawn.pla" "$folder"/circuits/threshold10_*.pla; do
    name=$(basename "$text" .pla)
    for output in 0 1 2; do
        first=$("$program" dual --output $output <"$text" 2>/dev/null | sed -n 's/^output.* //p')
        [ -n "$first" ] || break
        last=$("$program" synth --conflicts 0 --output $output "$folder/kit.journal" <"$text" | grep ^output)
        echo "$name, output $output: $first; $last; $(least_of 1 "$text" synth --conflicts 0 --output $output "$folder/kit.journal")"
    done
done

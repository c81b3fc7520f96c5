#!/bin/sh
# The areas of lattices with and without finders: `dual` beside `synth --conflicts 0`, over some well-known circuits and
# over outputs of ten inputs that are drawn at random.
# usage: bench/finders.sh PROGRAM FOLDER    (PROGRAM is crates/lattice/out/lattice after `rt run` in crates/lattice)
. "$(dirname "$0")/common.sh"
python3 "$here/make_circuits.py" "$folder/circuits"
python3 "$here/areas.py" "$program" "$folder/circuits" "$folder"
python3 "$here/make_inputs.py" "$folder"
for output in 0 1 2; do
    echo "drawn, output $output: $(least_of 1 "$folder/drawn.pla" synth --conflicts 0 --output $output "$folder/drawn.journal")"
    "$program" dual --output $output <"$folder/drawn.pla" | grep ^output
    "$program" synth --conflicts 0 --output $output "$folder/drawn.journal" <"$folder/drawn.pla" | grep ^output
done

#!/bin/sh
# Times `dual` on a PLA of ten inputs and 64 outputs, drawn at random, and on odd parity, beside ABC (Debian's package
# berkeley-abc), which reads the same file and makes an irredundant cover of each output.
# usage: bench/dual.sh PROGRAM FOLDER    (PROGRAM is crates/lattice/out/lattice after `rt run` in crates/lattice)
. "$(dirname "$0")/common.sh"
python3 "$here/make_inputs.py" "$folder"

for name in drawn parity; do
    "$program" dual <"$folder/$name.pla" >"$folder/$name.report"
    echo "$name: report of $(wc -c <"$folder/$name.report") bytes"
    echo "  dual          $(least_of 5 "$folder/$name.pla" dual)"
    echo "  collapse; sop $(least 5 berkeley-abc -c "read_pla $folder/$name.pla; collapse; sop")"
done

#!/bin/sh
# Times `verify` on two reports, beside `wc` on the same text.
# usage: bench/verify.sh PROGRAM FOLDER    (PROGRAM is crates/lattice/out/lattice after `rt run` in crates/lattice)
. "$(dirname "$0")/common.sh"
python3 "$here/make_report.py" "$folder"

for name in right long; do
    echo "$name: $(wc -c <"$folder/$name.report") bytes"
    "$program" verify "$folder/$name.report" <"$folder/wide.pla" || true
    echo "  verify $(least_of 3 "$folder/wide.pla" verify "$folder/$name.report")"
    echo "  wc     $(least 3 wc "$folder/$name.report")"
done

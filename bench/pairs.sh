#!/bin/sh
# Times `pairs` on two texts, beside `wc` on the same text and `cat` of the same output.
# usage: bench/pairs.sh PROGRAM FOLDER    (PROGRAM is crates/lattice/out/lattice after `rt run` in crates/lattice)
. "$(dirname "$0")/common.sh"
python3 "$here/make_inputs.py" "$folder"

# the least of seven wall-clock times, in milliseconds: these runs are too short for processor time
least_wall() {
    best=
    for _ in 1 2 3 4 5 6 7; do
        start=$(date +%s%N)
        "$@" >/dev/null
        end=$(date +%s%N)
        took=$(((end - start) / 10000))
        if [ -z "$best" ] || [ "$took" -lt "$best" ]; then best=$took; fi
    done
    echo "$best" | sed 's/\(..\)$/.\1/'
}

run_pairs() { "$program" pairs <"$1"; }

for name in large parity; do
    run_pairs "$folder/$name.pla" >"$folder/$name.report"
    echo "$name: text $(wc -c <"$folder/$name.pla") bytes, report $(wc -c <"$folder/$name.report") bytes"
    echo "  pairs  $(least_wall run_pairs "$folder/$name.pla") ms ($(least_of 1 "$folder/$name.pla" pairs))"
    echo "  wc     $(least_wall wc "$folder/$name.pla") ms (the text)"
    echo "  cat    $(least_wall cat "$folder/$name.report") ms (the report)"
done

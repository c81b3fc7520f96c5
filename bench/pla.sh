#!/bin/sh
# Times the reading of two large PLA texts: `pairs` of them (the lattices have one cell or few), beside `read_pla` of ABC
# (Debian's package berkeley-abc) on the same files.
# usage: bench/pla.sh PROGRAM FOLDER    (PROGRAM is crates/lattice/out/lattice after `rt run` in crates/lattice)
. "$(dirname "$0")/common.sh"
python3 "$here/make_inputs.py" "$folder"
# the same text as another tool writes it: Windows line ends, tabs, a bar between the planes, comments, a count of rows, a type
awk 'NR == 3 { print ".type fd\r"; print ".p 65536\r" } /^[01]/ { gsub(" ", "\t|\t"); print $0 " # row\r"; next } { print $0 "\r" }' \
    "$folder/large.pla" | head -c 4194000 >"$folder/cut.pla"
{ sed '$d' "$folder/cut.pla"; printf '.e\r\n'; } >"$folder/marked.pla"

for name in large marked; do
    echo "$name: $(wc -c <"$folder/$name.pla") bytes"
    echo "  pairs     $(least_of 7 "$folder/$name.pla" pairs)"
    echo "  read_pla  $(least 7 berkeley-abc -c "read_pla $folder/$name.pla")"
done

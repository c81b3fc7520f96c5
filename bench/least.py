"""Compares `synth` with the least areas of `least.c`, for all 256 functions of three inputs: least.py PROGRAM AREAS FOLDER."""
import os
import subprocess
import sys

program, areas, folder = sys.argv[1:4]
least = dict(map(int, line.split()) for line in open(areas))
agree = differ = undecided = 0
for first in range(0, 256, 32):
    functions = range(first, first + 32)
    rows = [
        "".join(str(x >> i & 1) for i in range(3)) + " " + "".join(str(f >> x & 1) for f in functions) for x in range(8)
    ]
    text = ".i 3\n.o 32\n" + "\n".join(rows) + "\n.e\n"
    run = subprocess.run([program, "synth", os.path.join(folder, "least.journal")], input=text.encode(), capture_output=True)
    for line in run.stdout.decode().split("\n"):
        words = line.split()
        if words[:1] != ["output"]:
            continue
        rows_, cols = map(int, words[4].split("x"))
        known = least[first + int(words[1])]
        if words[3] != "minimum":
            undecided += 1
        elif known == rows_ * cols or (known == 0 and rows_ * cols > 7):
            agree += 1
        else:
            differ += 1
            print("function", first + int(words[1]), "least", known, "printed", line)
print(f"{agree} agree, {differ} differ, {undecided} undecided")

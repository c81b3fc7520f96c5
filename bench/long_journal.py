"""Writes a long journal of version 1: the sections of a journal of version 2 of one output, again and again, and then its answer.

usage: long_journal.py JOURNAL LONG BYTES"""

import sys


def main():
    journal, path, most = sys.argv[1], sys.argv[2], int(sys.argv[3])
    with open(journal, "rb") as file:
        lines = file.read().split(b"\n")[:-1]
    answer = next(place for place, line in enumerate(lines) if line.startswith(b"output "))
    sections = b"\n".join(lines[2:answer]) + b"\n"
    last = b"\n".join(line for line in lines[answer:] if not line.startswith(b"refuted")) + b"\n"
    with open(path, "wb") as out:
        written = out.write(b"lattice journal 1\n")
        while written + len(sections) + len(last) <= most:
            written += out.write(sections)
        out.write(last)


main()

"""Writes a PLA for each of some well-known circuits of two to ten inputs, into a folder.

usage: make_circuits.py FOLDER

Each file lists the assignments at which some output is 1; the first column of a row is the input x0."""

import os
import sys


def number(bits, first, count):
    """The number that some of the inputs spell, the first of them the least."""
    return sum(bits[first + i] << i for i in range(count))


def ones(bits):
    return sum(bits)


def spelled(value, count):
    """The bits of a number, the least first."""
    return [value >> i & 1 for i in range(count)]


SEGMENTS = [0x3F, 0x06, 0x5B, 0x4F, 0x66, 0x6D, 0x7D, 0x07, 0x7F, 0x6F]


def segments(bits):
    """The seven segments of a decimal digit; the other six numbers show nothing."""
    digit = number(bits, 0, 4)
    return spelled(SEGMENTS[digit] if digit < 10 else 0, 7)


def circuits():
    """The name, the number of inputs, and the outputs at an assignment."""
    for n in (2, 3, 4, 5, 8):
        yield f"parity{n}", n, lambda b: [ones(b) & 1]
    for n in (3, 5, 7, 9):
        yield f"majority{n}", n, lambda b, n=n: [int(2 * ones(b) > n)]
    for n, least in ((4, 2), (6, 3), (10, 2), (10, 9)):
        yield f"threshold{n}_{least}", n, lambda b, t=least: [int(ones(b) >= t)]
    for n in (1, 2, 3, 4):
        yield f"adder{n}", 2 * n, lambda b, n=n: spelled(number(b, 0, n) + number(b, n, n), n + 1)
    yield "full_adder", 3, lambda b: spelled(ones(b), 2)
    for n in (1, 2, 3, 4):
        yield f"compare{n}", 2 * n, lambda b, n=n: [
            int(number(b, 0, n) < number(b, n, n)),
            int(number(b, 0, n) == number(b, n, n)),
        ]
    for n in (1, 2):
        yield f"multiplexer{1 << n}", n + (1 << n), lambda b, n=n: [b[n + number(b, 0, n)]]
    for n in (2, 3, 4):
        yield f"square{n}", n, lambda b, n=n: spelled(number(b, 0, n) ** 2, 2 * n)
    for n in (2, 3):
        yield f"multiplier{n}", 2 * n, lambda b, n=n: spelled(number(b, 0, n) * number(b, n, n), 2 * n)
    yield "segments", 4, segments
    yield "count5", 5, lambda b: spelled(ones(b), 3)
    yield "count8", 8, lambda b: spelled(ones(b), 4)
    yield "symmetric9", 9, lambda b: [int(3 <= ones(b) <= 6)]


def write(folder, name, inputs, outputs_at):
    rows = []
    for x in range(1 << inputs):
        bits = [x >> i & 1 for i in range(inputs)]
        rows.append((bits, outputs_at(bits)))
    with open(os.path.join(folder, name + ".pla"), "w", encoding="utf-8") as out:
        out.write(f".i {inputs}\n.o {len(rows[0][1])}\n")
        for bits, outputs in rows:
            if any(outputs):
                out.write("".join(map(str, bits)) + " " + "".join(map(str, outputs)) + "\n")
        out.write(".e\n")


def main():
    folder = sys.argv[1]
    os.makedirs(folder, exist_ok=True)
    for name, inputs, outputs_at in circuits():
        write(folder, name, inputs, outputs_at)


main()

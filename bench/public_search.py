"""`synth` beside a script that asks a public solver the same questions, over some well-known circuits.

usage: public_search.py PROGRAM CIRCUITS FOLDER CONFLICTS [INPUTS]

The script begins, as `synth` does, with what the finders find (`synth --conflicts 0`), takes the formulas from `cnf`, asks `cadical` (Debian's package)
with so many conflicts a question, and keeps to the order of questions of `synth`. Circuits of more than INPUTS inputs are passed over."""

import os
import sys

from reports import answers, texts, timed


def stair(area):
    """The largest shapes of an area: of each number of columns that some shape can have, the most rows."""
    shapes, rows = [], 1
    while rows <= area:
        cols = area // rows
        rows = area // cols
        shapes.append((rows, cols))
        rows += 1
    return shapes


class Public:
    """The questions of one output, and the time that they took."""

    def __init__(self, program, folder, conflicts, text, output):
        self.program, self.folder, self.conflicts = program, folder, conflicts
        self.text, self.output, self.seconds = text, output, 0.0

    def ask(self, shape):
        """Whether there is a lattice of the shape; none where the conflicts were spent."""
        words = [self.program, "cnf", "--rows", str(shape[0]), "--cols", str(shape[1]), "--output", str(self.output)]
        _, formula, spent = timed(words, self.text)
        self.seconds += spent
        path = os.path.join(self.folder, "question.cnf")
        with open(path, "w", encoding="ascii") as out:
            out.write(formula)
        status, _, spent = timed(["cadical", "-q", "-n", "-c", str(self.conflicts), path], b"")
        self.seconds += spent
        return {10: True, 20: False}.get(status)

    def least(self, area):
        """The least area that is found from a lattice of this one, and whether it is the least."""
        low, refuted, given_up = 1, [], set()
        while low < area:
            most = low if given_up else low + min((area - 1 - low) // 2, 8)
            answer = "passed"
            for shape in stair(most):
                if any(shape[0] <= r and shape[1] <= c for r, c in refuted):
                    continue
                if shape in given_up:
                    if most == low:
                        return area, False
                    continue
                found = self.ask(shape) if max(shape) <= 16 else None
                if found is False:
                    refuted.append(shape)
                elif found:
                    area, answer = shape[0] * shape[1], "found"
                    break
                else:
                    if most == low:
                        return area, False
                    given_up.add(shape)
                    answer = "spent"
                    break
            if answer == "passed":
                low = most + 1
        return area, True


def main():
    program, circuits, folder, conflicts = sys.argv[1:5]
    inputs = int(sys.argv[5]) if len(sys.argv) > 5 else 10
    decided = {"synth": 0, "public": 0}
    cells = {"synth": 0, "public": 0}
    seconds = {"synth": 0.0, "public": 0.0}
    outputs = 0
    for name, text in texts(circuits):
        if int(text.split()[1]) > inputs:
            continue
        journal = os.path.join(folder, name + ".journal")
        _, begun, _ = timed([program, "synth", "--conflicts", "0", journal], text)
        _, report, spent = timed([program, "synth", "--conflicts", conflicts, journal], text)
        seconds["synth"] += spent
        for (output, _, start), (_, form, area) in zip(answers(begun), answers(report)):
            public = Public(program, folder, conflicts, text, output)
            least, known = public.least(start)
            seconds["public"] += public.seconds
            outputs += 1
            decided["synth"] += form == "minimum"
            decided["public"] += known
            cells["synth"] += area
            cells["public"] += least
            print(f"{name}.{output}: synth {area} {form}, public {least} {'minimum' if known else 'undecided'}", flush=True)
    print(f"{outputs} outputs: synth {decided['synth']} minimum, {cells['synth']} cells, {seconds['synth']:.1f} s; "
          f"public {decided['public']} minimum, {cells['public']} cells, {seconds['public']:.1f} s")


main()

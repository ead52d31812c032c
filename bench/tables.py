#!/usr/bin/env python3
"""Writes the tables of docs/SPEED.md that tell a program beside another one of the same commands: `tables.py PROGRAM OTHER SETS [RUNS] [PART ..]`.

SETS holds task sets (`*.toml`) and their traces (`*.trace`). The parts are `trace`, `late` (every second task is released half a period late, with half
of the horizon), `check`, `spoilt`, `exec` and `one` (a window of 1, with an eighth of the horizon); all of them if none is named. Each figure is processor
time (user and system) in ms, the least of RUNS (five) in turns, the ratio of both, or the peak of the program's memory in MB (by `/usr/bin/time`)."""
import os
import re
import subprocess
import sys
import tempfile

from ratios import once, peak


class Bench:
    """Both programs, the folder of sets, and how often each is run."""

    def __init__(self, program, other, sets, runs):
        self.program, self.other, self.sets, self.runs = program, other, sets, runs
        names = (it[:-5] for it in os.listdir(sets) if it.endswith(".toml"))
        self.names = sorted(names, key=lambda name: [int(it) if it.isdigit() else it for it in re.split(r"(\d+)", name)])

    def beside(self, words, path):
        """The least times of both, and the peak of the program's memory. They must end with one status."""
        pairs = [(once(self.program, words, path), once(self.other, words, path)) for _ in range(self.runs)]
        if any(ours[1] != theirs[1] for ours, theirs in pairs):
            sys.exit(f"{' '.join(words)} of {path} ended otherwise")
        if pairs[0][0][1] > 1:
            sys.exit(f"{' '.join(words)} of {path} is refused")
        return min(it[0][0] for it in pairs), min(it[1][0] for it in pairs), peak(self.program, words, path)


def table(head, rows):
    print("| " + " | ".join(head) + " |\n|" + "---|" * len(head))
    for row in rows:
        print("| " + " | ".join(it if isinstance(it, str) else f"{it:.2f}" if isinstance(it, float) else str(it) for it in row) + " |", flush=True)
    print(flush=True)


def traces(bench):
    def row(name):
        path = f"{bench.sets}/{name}.toml"
        ours, theirs, memory = bench.beside(["trace"], path)
        met = bench.beside(["trace", "--met"], path)
        return [name, round(ours), round(theirs), ours / theirs, round(memory), met[0] / met[1]]

    table(["set", "trace ms", "plain", "ratio", "MB", "with `--met`"], map(row, bench.names))


def with_offsets(text):
    """A set, a key a line, of which every second task begins half a period late, up to half of its horizon: late releases make as many rounds again."""
    lines, tasks = [], 0
    for line in text.splitlines():
        key, _, value = line.partition(" = ")
        lines.append(f"horizon = {int(value) // 2}" if key == "horizon" else line)
        if key == "period":
            tasks += 1
            lines += [f"offset = {int(value) // 2}"] * (tasks % 2 == 0)
    return "\n".join(lines) + "\n"


def late(bench):
    def row(name):
        with open(f"{bench.sets}/{name}.toml") as source, tempfile.NamedTemporaryFile("w") as to:
            to.write(with_offsets(source.read()))
            to.flush()
            ours, theirs, memory = bench.beside(["trace"], to.name)
            return [name, round(ours), round(theirs), ours / theirs, round(memory)]

    table(["set with offsets", "trace ms", "plain", "ratio", "MB"], map(row, bench.names))


def checks(bench):
    def row(name):
        ours, theirs, memory = bench.beside(["check"], f"{bench.sets}/{name}.trace")
        return [name, round(ours), round(theirs), ours / theirs, round(memory)]

    table(["trace of", "check ms", "plain", "ratio", "MB"], map(row, (it for it in bench.names if os.path.exists(f"{bench.sets}/{it}.trace"))))


def earlier_by_one(text):
    """A text whose middle row is a tick earlier, so it lies over the one before; what each task gets stays as it was."""
    lines = text.split(b"\n")
    rows = [at for at, line in enumerate(lines) if line.startswith(b"row ")]
    words = lines[rows[len(rows) // 2]].split(b" ")
    words[2:4] = [str(int(word) - 1).encode() for word in words[2:4]]
    lines[rows[len(rows) // 2]] = b" ".join(words)
    return b"\n".join(lines)


def spoilt(bench):
    def row(name):
        with tempfile.TemporaryDirectory() as folder:
            met, fault = f"{folder}/met", f"{folder}/fault"
            with open(f"{bench.sets}/{name}.toml", "rb") as source, open(met, "wb") as to:
                subprocess.run([bench.other, "trace", "--met"], stdin=source, stdout=to, check=True)
            with open(f"{bench.sets}/{name}.trace", "rb") as source, open(fault, "wb") as to:
                to.write(earlier_by_one(source.read()))
            one, two = bench.beside(["check"], met), bench.beside(["check"], fault)
            return [name, round(one[0]), one[0] / one[1], round(one[2]), round(two[0]), two[0] / two[1], round(two[2])]

    table(["trace of", "with `met` lines: ms", "ratio", "MB", "a fault in the middle: ms", "ratio", "MB"], map(row, bench.names))


def executions(bench):
    def row(name):
        cells, most = [name], 0
        for window in ("32", "1024"):
            ours, theirs, memory = bench.beside(["exec", "--window", window], f"{bench.sets}/{name}.toml")
            cells += [round(ours), round(theirs), ours / theirs]
            most = max(most, memory)
        return [*cells, round(most)]

    table(["set", "window 32: ms", "plain", "ratio", "window 1,024: ms", "plain", "ratio", "MB"], map(row, bench.names))


def one_by_one(bench):
    def row(name):
        with open(f"{bench.sets}/{name}.toml") as source, tempfile.NamedTemporaryFile("w") as to:
            to.write(re.sub(r"horizon = (\d+)", lambda found: f"horizon = {max(1, int(found[1]) // 8)}", source.read(), count=1))
            to.flush()
            ours, theirs, _ = bench.beside(["exec", "--window", "1"], to.name)
            return [name, round(ours), round(theirs), ours / theirs]

    table(["set", "window 1: ms", "plain", "ratio"], map(row, bench.names))


PARTS = {"trace": traces, "late": late, "check": checks, "spoilt": spoilt, "exec": executions, "one": one_by_one}


def main():
    if len(sys.argv) < 4 or any(it not in PARTS for it in sys.argv[5:]):
        sys.exit(__doc__)
    bench = Bench(*sys.argv[1:4], int(sys.argv[4]) if len(sys.argv) > 4 else 5)
    for part in sys.argv[5:] or PARTS:
        PARTS[part](bench)


if __name__ == "__main__":
    main()

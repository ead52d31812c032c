#!/usr/bin/env python3
"""Times fl_execute of the library for C beside the program's `exec`, as the table of docs/C.md:

    bench/executive.py EXECUTIVE_BENCH PROGRAM SETS RUNS [NAME ..]

EXECUTIVE_BENCH is bench/executive.c, compiled; SETS a folder of sets near the limit of rows, NAME.toml. At a window of 1 the horizon is an eighth, and
there are three times as many runs. Of `exec` the whole of `trace` is taken off, which writes the same text. A line has the least milliseconds of each,
by the clock and of processors, their ratios, and those of the times in the middle of the runs.
"""
import os
import pathlib
import re
import statistics
import subprocess
import sys
import tempfile
import time

NAMES = ["m1-few", "m1-256", "m4-few", "m8-deep", "m16-few", "m32-few"]


def by_program(words, path):
    """Milliseconds of a command, by the clock and of processors."""
    began = time.monotonic()
    with open(path, "rb") as source:
        child = subprocess.Popen(words, stdin=source, stdout=subprocess.DEVNULL)
        _, status, used = os.wait4(child.pid, 0)
    child.returncode = os.waitstatus_to_exitcode(status)
    return 1e3 * (time.monotonic() - began), 1e3 * (used.ru_utime + used.ru_stime)


def by_library(bench, path, window):
    """The same of fl_execute, as executive.c tells them."""
    text = subprocess.run([bench, path, "crew", str(window)], stdout=subprocess.PIPE, text=True, check=True).stdout
    told = re.search(r"([\d.]+) s by the clock, ([\d.]+) s of processors", text)
    return 1e3 * float(told[1]), 1e3 * float(told[2])


def cut(path, to):
    """The set with an eighth of its horizon."""
    text = pathlib.Path(path).read_text(encoding="utf-8")
    to.write_text(re.sub(r"horizon = (\d+)", lambda it: f"horizon = {int(it[1]) // 8}", text, count=1), encoding="utf-8")
    return str(to)


def line(bench, program, path, window, runs):
    ours, execs, traces = [], [], []
    for _ in range(runs):
        ours.append(by_library(bench, path, window))
        execs.append(by_program([program, "exec", "--window", str(window)], path))
        traces.append(by_program([program, "trace"], path))

    def taken(pick, at):
        own, whole, text = (pick(run[at] for run in runs) for runs in (ours, execs, traces))
        return own, whole - text

    least = [taken(min, at) for at in (0, 1)]
    middle = [taken(statistics.median, at) for at in (0, 1)]
    cells = [f"{own:.0f}" for own, _ in least] + [f"{other:,.0f}" for _, other in least]
    return cells + [", ".join(f"{own / other:.2f}" for own, other in pairs) for pairs in (least, middle)]


def main():
    if len(sys.argv) < 5:
        sys.exit(__doc__)
    bench, program, sets, runs, *names = sys.argv[1:]
    print("| set | window | `fl_execute`: clock | processors | `exec`: clock | processors | ratios | in the middle |")
    print("|---|---|---|---|---|---|---|---|")
    with tempfile.TemporaryDirectory() as folder:
        for name in names or NAMES:
            for window in (1, 32, 1024):
                path = f"{sets}/{name}.toml"
                if window == 1:
                    path = cut(path, pathlib.Path(folder) / "eighth.toml")
                cells = line(bench, program, path, window, int(runs) * (3 if window == 1 else 1))
                print(f"| {name} | {window:,} | {' | '.join(cells)} |", flush=True)


if __name__ == "__main__":
    main()

#!/usr/bin/env python3
"""Times a program beside another one of the same commands: `ratios.py PROGRAM OTHER FOLDER RUNS COMMAND ..`.

FOLDER holds task sets (`*.toml`) and, for `check`, traces (`*.trace`). A command is its words joined by `+`, as `trace`, `trace+--met`,
`exec+--window+1024`. Of each set and command: processor time (user and system) in ms, the least of the runs, taken in turns, of both; their
ratio; and the peak of memory in MB of both (by `/usr/bin/time`). It writes a table, a line for each set and command."""
import os
import subprocess
import sys
import tempfile


def once(program, words, path):
    """Milliseconds of processor time, and the status."""
    with open(path, "rb") as source:
        child = subprocess.Popen([program, *words], stdin=source, stdout=subprocess.DEVNULL, stderr=subprocess.DEVNULL)
        _, status, used = os.wait4(child.pid, 0)
        child.returncode = os.waitstatus_to_exitcode(status)
    return (used.ru_utime + used.ru_stime) * 1000, child.returncode


def peak(program, words, path):
    """The peak of memory in MB, by time(1): what a process is told of a child that it has made counts its own pages too."""
    with open(path, "rb") as source, tempfile.NamedTemporaryFile("r") as told:
        time = ["/usr/bin/time", "-q", "-f", "%M", "-o", told.name]
        subprocess.run([*time, program, *words], stdin=source, stdout=subprocess.DEVNULL, stderr=subprocess.DEVNULL)
        return int(told.read()) / 1024


def main():
    if len(sys.argv) < 6:
        sys.exit(__doc__)
    program, other, folder, runs = sys.argv[1], sys.argv[2], sys.argv[3], int(sys.argv[4])
    print("| set | command | ms | other | ratio | MB | other |")
    print("|---|---|---|---|---|---|---|")
    for command in sys.argv[5:]:
        words = command.split("+")
        ending = ".trace" if words[0] == "check" else ".toml"
        names = sorted(it[: -len(ending)] for it in os.listdir(folder) if it.endswith(ending))
        for name in names:
            ours, theirs = [], []
            for _ in range(runs):
                ours.append(once(program, words, f"{folder}/{name}{ending}"))
                theirs.append(once(other, words, f"{folder}/{name}{ending}"))
            if {it[1] for it in ours} != {it[1] for it in theirs}:
                sys.exit(f"{name}: {command} ended otherwise")
            a, b = (min(it[0] for it in some) for some in (ours, theirs))
            most, most_other = (peak(it, words, f"{folder}/{name}{ending}") for it in (program, other))
            print(f"| {name} | `{' '.join(words)}` | {a:.0f} | {b:.0f} | {a / b:.2f} | {most:.0f} | {most_other:.0f} |", flush=True)


if __name__ == "__main__":
    main()

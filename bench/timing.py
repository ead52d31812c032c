#!/usr/bin/env python3
"""Times one program's `check` on one text, and the plain program beside it: timing.py NAME TEXT PROGRAM [PLAIN]."""
import os
import subprocess
import sys


def run(words, text):
    """Processor time in ms, peak memory in MB, status and output of one run."""
    with open(text, "rb") as source:
        child = subprocess.Popen(words, stdin=source, stdout=subprocess.PIPE, stderr=subprocess.DEVNULL)
        out = child.stdout.read()
        _, status, used = os.wait4(child.pid, 0)
        child.returncode = os.waitstatus_to_exitcode(status)
    return (used.ru_utime + used.ru_stime) * 1000, used.ru_maxrss / 1024, child.returncode, out


def main():
    name, text, program = sys.argv[1:4]
    times = int(os.environ.get("RUNS", "5"))
    ours = [run([program, "check"], text) for _ in range(times)]
    least = min(ms for ms, *_ in ours)
    peak = max(mb for _, mb, *_ in ours)
    ratio = "-"
    if len(sys.argv) > 4:
        theirs = [run(sys.argv[4:5], text) for _ in range(times)]
        if theirs[0][3].startswith(b"valid"):
            if theirs[0][3] != ours[0][3]:
                sys.exit(f"{name}: the two reports differ")
            ratio = f"{least / min(ms for ms, *_ in theirs):.2f}"
    with open(text, "rb") as source:
        rows = sum(line.startswith(b"row ") for line in source)
    size = os.path.getsize(text) / 1e6
    print(f"{name:22} {size:8.1f} {rows:9} {least:8.0f} {ratio:>7} {rows / least * 1000:12.0f} {peak:8.0f}", flush=True)


if __name__ == "__main__":
    main()

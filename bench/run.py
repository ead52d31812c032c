#!/usr/bin/env python3
"""Times `trace` on the sets: `run.py PROGRAM [PLAIN] [-- NAME ..]` writes a table: of each set the processors, the tasks, the horizon near
the limit of rows, the lines of rows, the least of five processor times in ms of the plain program and of the program, their ratio,
thousands of lines a second, the peak memory in MB and millions of instructions (by callgrind, where `INSTRUCTIONS=1` stands in the
environment). Both must write the same text."""
import os
import subprocess
import sys
import tempfile

import fit
import sets

TIMES = int(os.environ.get("RUNS", "5"))

# The command that is timed: another one may be asked for, as `COMMAND="trace --by wrap"`.
WORDS = os.environ.get("COMMAND", "trace").split()


def once(program, words, source):
    """Seconds of processor time, and what was written."""
    with tempfile.TemporaryFile() as out:
        source.seek(0)
        child = subprocess.Popen([program] + words, stdin=source, stdout=out, stderr=subprocess.PIPE)
        _, status, used = os.wait4(child.pid, 0)
        child.returncode = os.waitstatus_to_exitcode(status)
        if child.returncode != 0:
            sys.exit("%s ended with status %d" % (program, child.returncode))
        out.seek(0)
        return used.ru_utime + used.ru_stime, out.read()


def least(program, words, source):
    runs = [once(program, words, source) for _ in range(TIMES)]
    return min(run[0] for run in runs), runs[0][1]


def peak(program, words, source):
    """The peak of memory in MB. It is asked of `time`, since a child of a large process begins with that one's peak."""
    source.seek(0)
    words = ["/usr/bin/time", "-f", "%M", program] + words
    said = subprocess.run(words, stdin=source, stdout=subprocess.DEVNULL, stderr=subprocess.PIPE, text=True).stderr
    return int(said.split()[-1]) / 1024


def instructions(program, source):
    """Millions of instructions of one run."""
    source.seek(0)
    words = ["valgrind", "--tool=callgrind", "--callgrind-out-file=/dev/null", program] + WORDS
    said = subprocess.run(words, stdin=source, stdout=subprocess.DEVNULL, stderr=subprocess.PIPE, text=True).stderr
    return int(said.rsplit("Collected :", 1)[1].split()[0]) / 1e6


def measure(name, program, plain):
    horizon = fit.greatest(plain or program, name, ["trace"] if plain else WORDS)
    with tempfile.TemporaryFile() as source:
        source.write(sets.text(name, horizon).encode())
        took, text = least(program, WORDS, source)
        most = peak(program, WORDS, source)
        theirs, ratio = "", ""
        if plain:
            least_plain, other = least(plain, ["trace"], source)
            if other != text:
                sys.exit("%s: the two texts differ" % name)
            theirs, ratio = "%.0f" % (least_plain * 1000), "%.2f" % (took / least_plain)
        count = "%.0f" % instructions(program, source) if os.environ.get("INSTRUCTIONS") else ""
    spec = sets.SETS[name]
    rows = int(text[-20:].split()[-1])
    print(
        "| %s | %d | %d | %d | %d | %s | %.0f | %s | %.0f | %.0f | %s |"
        % (name, spec["processors"], spec["count"], horizon, rows, theirs, took * 1000, ratio, rows / took / 1000, most, count),
        flush=True,
    )


def main():
    words = sys.argv[1:]
    names = words[words.index("--") + 1 :] if "--" in words else list(sets.SETS)
    programs = words[: words.index("--")] if "--" in words else words
    print("| set | processors | tasks | horizon | lines | plain ms | ms | ratio | thousand lines a second | MB | million instructions |")
    print("|---|---|---|---|---|---|---|---|---|---|---|")
    for name in names:
        measure(name, programs[0], programs[1] if len(programs) > 1 else None)


if __name__ == "__main__":
    main()

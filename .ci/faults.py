"""Runs each command of a program under faults, one after another: faults.py PROGRAM PRELOAD SECONDS

PRELOAD is what .ci/faults.c makes. Each command has a small input of its own, and is run once without a fault, which counts its calls; then once for
each call, which fails alone or with all behind it. What each answer must be is said by `wrong`, and by nothing else. At most SECONDS are taken: the
calls that are left out then are told.
"""
import collections
import multiprocessing
import os
import pathlib
import random
import sys
import tempfile
import time

Answer = collections.namedtuple("Answer", "status text line seconds")
EVER = 10**9
HANGS = 60  # seconds after which a run is ended: far more than one takes on a machine that is full of others

NO_MEMORY, READ_FAULT, WRITE_FAULT = b"refused 5 NoMemory\n", b"refused 3 ReadFault\n", b"refused 4 WriteFault\n"


def wrong(kind, without, got):
    """What is wrong with an answer under a fault of a kind, where `without` is the one without a fault; None where it is right."""
    if got.status == -14:
        return f"not ended after {HANGS} s"
    if got.status < 0:
        return f"ended by signal {-got.status}"
    if got.seconds > 0.5 + 5 * without.seconds:
        return f"took {got.seconds:.1f} s of a processor, and {without.seconds:.3f} without the fault"
    same = got[:3] == without[:3]
    if kind == "memory":
        right = same or got[:3] == (5, b"", NO_MEMORY)
    elif kind == "read":
        right = got[:3] == (3, b"", READ_FAULT)
    elif kind == "write":
        right = got.status == 4 and got.line == WRITE_FAULT and without.text.startswith(got.text)
    elif kind == "line":
        right = got[:2] == without[:2] and without.line.startswith(got.line)
    else:  # what is interrupted is tried again, what is cut short goes on, and threads and their waits change nothing
        right = same
    return None if right else f"status {got.status}, {len(got.text)} bytes of text, line {got.line[:80]!r}"


def tried(kind, count, executes):
    """The calls of a kind that fail together: the first of them, the last, and each how manieth of these."""
    if kind == "memory":
        return [(call, last, 1) for call in range(1, count + 1) for last in (call, EVER)]
    if kind == "thread":
        return [(call, last, 1) for call in range(1, count + 1) for last in (call, EVER)] + [(first, EVER, 2) for first in (1, 2)] * (count > 0)
    if kind == "interrupt":
        return [(call, call + more, 1) for call in range(1, count + 1) for more in (0, 7)]
    if kind == "cut":
        return [(1, EVER, 1)] * (count > 0)
    if kind == "wait":
        return [(call, call, 1) for call in range(1, count + 1, count // 40 + 1)] + [(1, EVER, each) for each in (1, 2)] * executes
    return [(call, call, 1) for call in range(1, count + 1)]


def tried_of_example(kind, count):
    """Of an example threads alone: all are refused, each second one, and those behind the third and the ninth; and all waits end at once."""
    if kind == "thread":
        return [(1, EVER, 1), (1, EVER, 2), (2, EVER, 2), (4, EVER, 1), (10, EVER, 1)] * (count > 0)
    return [(1, EVER, 1), (1, EVER, 2)] * (kind == "wait")


def set_of(processors, horizon, tasks):
    lines = [f"processors = {processors}", f"horizon = {horizon}"]
    for name, work, period, offset in tasks:
        lines += ["[[task]]", f'name = "{name}"', f"work = {work}", f"period = {period}", f"offset = {offset}"]
    return "\n".join(lines).encode() + b"\n"


THREE = set_of(2, 3, [(name, 2, 3, 0) for name in "abc"])
FIVE = set_of(3, 30, [("a", 3, 5, 0), ("b", 3, 5, 0), ("c", 3, 5, 0), ("d", 2, 3, 0), ("e", 8, 15, 0)])
LATE = set_of(2, 8, [("a", 2, 3, 1), ("b", 1, 3, 0), ("c", 1, 4, 2)])
LONG = set_of(2, 6000, [("a", 2, 3, 0), ("b", 2, 3, 0), ("c", 2, 3, 0)])
OVER = set_of(1, 3, [("a", 2, 3, 0), ("b", 2, 3, 0)])
COARSE = set_of(2, 3, [(f"p{period}", 1, period, 0) for period in (4294967291, 4294967279, 4294967231, 4294967197)])
PROGRAMS = b"run-jobs 1\nprogram a\nset 1 1\nadd 0 1\njump 1\nprogram b\nset 0 3\nhalt\ntasks\n"


def cases(program):
    """Each case: a name, the words, the input, and whether it takes threads."""

    def text_of(words, given):
        got = run(program, words, given, {})
        assert got.status == 0, (words, got)
        return got.text

    trace, late = text_of(["trace"], FIVE), text_of(["trace"], LATE)
    for words in ["rate", "tree", "trace", "trace --met", "trace --by wrap", "table"]:
        yield f"{words}, five", words.split(), FIVE, False
    for words in ["trace", "trace --by wrap"]:
        yield f"{words}, late", words.split(), LATE, False
    for name, words, given in [("three", "exec", THREE), ("five", "exec", FIVE), ("five", "exec --window 1", FIVE), ("late", "exec --met", LATE)]:
        yield f"{words}, {name}", words.split(), given, True
    yield "trace, long", ["trace"], LONG, False
    yield "exec, long", ["exec"], LONG, True
    for name, given in [("valid", trace), ("late", late), ("invalid", trace.replace(b"row 1 ", b"row 0 ", 1)), ("cut", trace[:-9])]:
        yield f"check, {name}", ["check"], given, False
        yield f"draw, {name}", ["draw", "--from", "1", "--units", "20"], given, False
    tree = text_of(["tree"], FIVE)
    yield "follow", ["follow"], tree, False
    yield "follow, bad", ["follow"], tree.replace(b"~1", b"~2", 1), False
    yield "batch", ["batch"], b"%%\n".join([THREE, OVER, LATE, b"", FIVE, COARSE]), True
    yield "jobs", ["jobs"], PROGRAMS + THREE, True
    yield "jobs, stray", ["jobs"], PROGRAMS.replace(b"program b", b"program q") + THREE, True
    yield "modes", ["modes"], b"%%\n".join([THREE, set_of(2, 1, []), set_of(2, 12, [("a", 3, 4, 0), ("z", 1, 3, 0)])]), True
    yield "modes, open", ["modes"], b"%%\n".join([THREE, set_of(2, 4, [("a", 1, 3, 0)])]), True
    yield "drill", ["drill", "1"], b"", True
    for name, words, given in [("overload", "trace", OVER), ("scale", "rate", COARSE), ("key", "rate", b'"a strange key" = 1\n'), ("no TOML", "rate", b"x\n"),
                               ("rows", "exec", set_of(2, 4294967295, [("a", 2, 3, 0), ("b", 2, 3, 0)])), ("words", "rate x", THREE)]:
        yield f"refused, {name}", words.split(), given, words == "exec"


def examples(program):
    """The sets, modes and job programs of the examples that are executed, as cases."""
    folder = pathlib.Path(__file__).resolve().parent.parent / "examples"
    for path in sorted(it for it in folder.iterdir() if it.suffix in (".toml", ".modes", ".jobs")):
        words = {".toml": "exec", ".modes": "modes", ".jobs": "jobs"}[path.suffix]
        yield f"example {path.name}", [words], path.read_bytes(), True


def run(program, words, given, faults):
    """Runs the program once. Its streams are files in memory, so nothing waits for another process."""
    files = [os.memfd_create(name) for name in ("given", "text", "line")]
    try:
        os.write(files[0], given)
        os.lseek(files[0], 0, os.SEEK_SET)
        actions = [(os.POSIX_SPAWN_DUP2, file, number) for number, file in enumerate(files)]
        process = os.posix_spawn(program, [program, *words], {**os.environ, **faults}, file_actions=actions)
        _, status, usage = os.wait4(process, 0)
        text, line = (os.pread(file, 1 << 24, 0) for file in files[1:])
        return Answer(os.waitstatus_to_exitcode(status), text, line, usage.ru_utime + usage.ru_stime)
    finally:
        for file in files:
            os.close(file)


class Trial:
    """What is tried, which the processes that try it have from the first one."""

    def __init__(self, program, preload, until):
        self.program, self.preload, self.until = program, preload, until
        self.cases = [(case, self.plainly(case)) for case in (*cases(program), *examples(program))]

    def plainly(self, case):
        """The answer without a fault, and how many calls of each kind it took."""
        with tempfile.NamedTemporaryFile() as counts:
            got = run(self.program, case[1], case[2], {"LD_PRELOAD": self.preload, "FAULT_COUNTS": counts.name})
            return got, {line.split()[0]: int(line.split()[1]) for line in open(counts.name)}

    def faults(self):
        """All runs under faults: the number of the case, the kind, and the calls that fail. Refused memory, of which there are most, comes last, and
        then in an order drawn from one seed, so that what is left out is of no command alone."""
        jobs = [
            (number, kind, *calls)
            for number, (case, (_, counts)) in enumerate(self.cases)
            for kind, count in counts.items()
            for calls in (tried_of_example(kind, count) if case[0].startswith("example ") else tried(kind, count, case[3]))
        ]
        random.Random(1).shuffle(jobs)
        return sorted(jobs, key=lambda job: job[1] == "memory")


def with_fault(job):
    """One run under a fault; what is wrong with it."""
    if time.monotonic() > TRIAL.until:
        return job, "left out"
    number, kind, first, last, each = job
    case, (without, _) = TRIAL.cases[number]
    faults = {"LD_PRELOAD": TRIAL.preload, "FAULT": f"{kind}:{first}:{last}:{each}", "FAULT_SECONDS": str(HANGS)}
    return job, wrong(kind, without, run(TRIAL.program, case[1], case[2], faults))


def main():
    global TRIAL
    program, preload = (os.path.abspath(path) for path in sys.argv[1:3])
    TRIAL = Trial(program, preload, time.monotonic() + float(sys.argv[3]))
    found, left_out, done = collections.defaultdict(list), 0, collections.Counter()
    with multiprocessing.get_context("fork").Pool() as pool:
        for (number, kind, *calls), said in pool.imap_unordered(with_fault, TRIAL.faults(), chunksize=4):
            if said == "left out":
                left_out += 1
                continue
            done[kind] += 1
            if said:
                found[TRIAL.cases[number][0][0], kind].append((*calls, said))
    for (name, kind), faults in sorted(found.items()):
        first, last, each, said = min(faults)
        print(f"faults: {name}: {kind}, {len(faults)} of them wrong, as FAULT={kind}:{first}:{last}:{each}: {said}")
    print("faults:", ", ".join(f"{count} {kind}" for kind, count in sorted(done.items())), "were made;", sum(map(len, found.values())), "answers were wrong")
    if left_out:
        print(f"faults: {left_out} were left out, since the time was over")
    return 1 if found else 0


if __name__ == "__main__":
    sys.exit(main())

#!/usr/bin/env python3
"""Runs a program beside another one of the same commands on drawn inputs: `beside.py PROGRAM OTHER sets|traces COUNT [SEED]`.

Status, standard output and standard error must be the same bytes; inputs that differ are written into the present folder and named. `sets` runs
`rate`, `tree`, `trace` and, on small ones, `trace --met` and `exec` over task sets of all shapes (full, deep, harmonic, prime periods, offsets,
too many tasks for the processors, empty, one task). `traces` runs `check` over their traces of both versions, as they are and spoilt: a row
changed, lost, doubled, moved or in another order, a number or a name changed, the text cut short."""
import os
import random
import subprocess
import sys
from concurrent.futures import ProcessPoolExecutor

PRIMES = [2, 3, 5, 7, 11, 13, 17, 19, 23, 29, 31, 37, 41, 43, 47]
ROUND = [2, 3, 4, 5, 6, 8, 9, 10, 12, 15, 16, 18, 20, 24, 30, 36, 40, 60]
SHAPES = ["full", "deep", "harmonic", "primes", "offsets", "over", "empty", "one", "light", "wide"]


def run(program, words, text):
    done = subprocess.run([program, *words], input=text, stdout=subprocess.PIPE, stderr=subprocess.PIPE)
    return done.returncode, done.stdout, done.stderr


def tasks_of(draw, shape, processors):
    """Triples of work, period and offset."""
    if shape == "empty":
        return []
    count = 1 if shape == "one" else draw.randint(1, 6 * processors if shape == "wide" else 3 * processors + 2)
    periods = {"harmonic": [2**k for k in range(1, 8)], "primes": PRIMES}.get(shape, ROUND)
    made = []
    left = processors
    for _ in range(count):
        period = draw.choice(periods)
        if shape == "deep":
            rate = draw.uniform(0.5, 0.75)
        elif shape == "over":
            rate = draw.uniform(0.5, 1.0)
        else:
            rate = draw.uniform(0.05, 1.0)
        work = max(1, min(period, round(rate * period)))
        if shape != "over" and work / period > left:
            continue
        left -= work / period
        offset = draw.randint(0, 3 * period) if shape == "offsets" else 0
        made.append((work, period, offset))
    if shape == "full" and 0 < left < 1:
        # the last rate makes the sum whole, where its period divides
        period = 1
        for _, other, _ in made:
            period = period * other // gcd(period, other)
        work = processors * period - sum(w * (period // p) for w, p, _ in made)
        if 0 < work <= period <= 4294967295:
            made.append((work, period, 0))
    return made


def gcd(a, b):
    while b:
        a, b = b, a % b
    return a


def set_text(draw):
    shape = draw.choice(SHAPES)
    processors = draw.choice([1, 1, 2, 2, 3, 4, 5, 8, 16, 32])
    horizon = draw.choice([1, 2, 7, 30, 60, 97, 240])
    lines = [f"processors = {processors}", f"horizon = {horizon}"]
    for number, (work, period, offset) in enumerate(tasks_of(draw, shape, processors)):
        lines += ["[[task]]", f'name = "t{number}"', f"work = {work}", f"period = {period}"]
        if offset:
            lines.append(f"offset = {offset}")
    return ("\n".join(lines) + "\n").encode(), processors


def spoilt(draw, text):
    """A trace text with one thing changed, or two."""
    lines = text.split(b"\n")
    for _ in range(draw.choice([1, 1, 1, 2])):
        rows = [at for at, line in enumerate(lines) if line.startswith(b"row ")]
        way = draw.randrange(9)
        if not rows or way == 0:
            at = draw.randrange(len(lines))
        else:
            at = draw.choice(rows)
        if way == 1:
            del lines[at]
        elif way == 2:
            lines.insert(at, lines[at])
        elif way == 3:
            to = draw.choice(rows or [0])
            lines[at], lines[to] = lines[to], lines[at]
        elif way == 4:
            some = [lines[it] for it in rows]
            draw.shuffle(some)
            for it, line in zip(rows, some):
                lines[it] = line
        elif way == 5:
            return b"\n".join(lines)[: draw.randrange(len(text) + 1)]
        elif way == 6:
            line = bytearray(lines[at])
            if line:
                line[draw.randrange(len(line))] = draw.randrange(256)
            lines[at] = bytes(line)
        else:
            words = lines[at].split(b" ")
            it = draw.randrange(len(words))
            if words[it].isdigit():
                words[it] = str(max(0, int(words[it]) + draw.choice([-2, -1, 1, 2, 10**19, 10**39]))).encode()
            else:
                words[it] = draw.choice([b"t0", b"t1", b"", b"row", b"met", b"total", b"x"])
            lines[at] = b" ".join(words)
        if len(lines) < 2:
            break
    return b"\n".join(lines)


def one(job):
    program, other, kind, seed = job
    draw = random.Random(seed)
    text, processors = set_text(draw)
    if kind == "sets":
        calls = [["rate"], ["tree"], ["trace"]]
        if processors <= 4:
            calls += [["trace", "--met"], ["exec"]]
        tries = [(words, text) for words in calls]
    else:
        made = run(other, ["trace"] + (["--met"] if draw.random() < 0.5 else []), text)[1]
        if not made:
            return [], 0
        tries = [(["check"], made if draw.random() < 0.2 else spoilt(draw, made))]
    wrong = []
    for words, given in tries:
        if run(program, words, given) != run(other, words, given):
            name = f"differs-{seed}-{'-'.join(words)}"
            with open(name, "wb") as out:
                out.write(given)
            wrong.append(name)
    return wrong, 1


def main():
    if len(sys.argv) < 5:
        sys.exit(__doc__)
    program, other, kind, count = sys.argv[1], sys.argv[2], sys.argv[3], int(sys.argv[4])
    seed = int(sys.argv[5]) if len(sys.argv) > 5 else 1
    jobs = ((program, other, kind, seed * 1_000_000 + it) for it in range(count))
    wrong, tried = [], 0
    with ProcessPoolExecutor(int(os.environ.get("JOBS", "2"))) as pool:
        for found, some in pool.map(one, jobs, chunksize=50):
            wrong += found
            tried += some
    print(f"{tried} {kind} tried, {len(wrong)} differ", *wrong[:20], sep="\n")
    sys.exit(1 if wrong else 0)


if __name__ == "__main__":
    main()

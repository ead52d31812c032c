#!/usr/bin/env python3
"""How often jobs are preempted and moved as the processors fill up: sweep.py [PROCESSORS] [SETS] [SEED]

Draws sets for each total rate from half of the processors to all of them, and counts preemptions and migrations of their schedules. `plot.py` makes
a picture of the table.
"""
import random
import sys

import furnacelime

PERIODS = [4, 5, 8, 10, 20, 40]
HORIZON = 40


def drawn(draw, processors, total):
    """Tasks, as (work, period), whose rates sum to that many fortieths of a processor."""
    tasks, left = [], total
    while left:
        period = draw.choice([p for p in PERIODS if HORIZON // p <= left])
        step = HORIZON // period
        work = min(draw.randint(1, period), left // step)
        tasks.append((work, period))
        left -= work * step
    return tasks


def text_of(processors, tasks):
    """The set as the program reads it."""
    lines = [f"  {{name = 't{j}', work = {work}, period = {period}}}," for j, (work, period) in enumerate(tasks)]
    return "\n".join([f"processors = {processors}", f"horizon = {HORIZON}", "task = ["] + lines + ["]"]) + "\n"


def counts(set_text):
    """The preemptions and the migrations of a set's schedule, as the report of `check` has them.

    Three tasks on two processors, by hand: in each of 13 periods one job gives way to another, and goes on on the other processor.

    >>> counts(text_of(2, [(2, 3)] * 3))
    (13, 13)
    """
    told = furnacelime.report(furnacelime.trace_text(set_text))
    return told["preemptions"], told["migrations"]


def numbers(words, usual):
    """The numbers that the words are, with the usual ones behind them."""
    given = [int(word) for word in words if word.isascii() and word.isdecimal()]
    if len(given) < len(words) or len(words) > len(usual) or 0 in given[:2] or given[:1] > [32]:
        print("sweep.py [PROCESSORS] [SETS] [SEED]: PROCESSORS from 1 to 32, SETS from 1 on, SEED from 0 on", file=sys.stderr)
        sys.exit(2)
    return given + usual[len(given) :]


def main():
    processors, sets, seed = numbers(sys.argv[1:], [4, 20, 1])
    draw = random.Random(seed)
    print("total  preemptions and migrations per unit")
    for tenth in range(5, 11):
        sums = [0, 0]
        for _ in range(sets):
            tasks = drawn(draw, processors, processors * HORIZON * tenth // 10)
            for place, count in enumerate(counts(text_of(processors, tasks))):
                sums[place] += count
        print(f"{tenth / 10 * processors:5.1f}{sums[0] / sets / HORIZON:13.2f}{sums[1] / sets / HORIZON:15.2f}")


if __name__ == "__main__":
    main()

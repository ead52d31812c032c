#!/usr/bin/env python3
"""Task sets for measuring: `sets.py NAME HORIZON` writes one to standard output, and `sets.py` names them all.

Each set is drawn from its name, so it is the same on every machine. `fit.py` finds the horizon at which its rows come near the limit of
2,097,152."""
import random
import sys

# Periods that divide a number with many divisors, so that the ticks of a unit stay within 64 bits.
ROUND = [20, 24, 25, 30, 32, 36, 40, 45, 48, 50, 60, 72, 75, 80, 90, 96, 100, 120, 144, 150, 160, 180, 200, 225, 240, 288, 300]
# Primes: the ticks of a unit are past 64 bits.
PRIME = [101, 103, 107, 109, 113, 127, 131, 137, 139, 149, 151, 157, 163]


def wide(count, processors, share, periods):
    """As many tasks, whose rates add up to `share` of the processors."""
    return {"count": count, "processors": processors, "share": share, "periods": periods, "heavy": False}


def deep(count, processors, share, periods):
    """Tasks just above half a processor, which make trees of several levels."""
    return {"count": count, "processors": processors, "share": share, "periods": periods, "heavy": True}


# By name.
SETS = {
    "one-few": wide(4, 1, 0.95, ROUND),
    "one-many": wide(256, 1, 0.95, [p * 40 for p in ROUND]),
    "four-few": wide(10, 4, 0.95, ROUND),
    "four-many": wide(256, 4, 0.97, [p * 10 for p in ROUND]),
    "four-past-64": wide(10, 4, 0.95, PRIME),
    "eight-deep": deep(13, 8, 0.98, ROUND),
    "sixteen-few": wide(40, 16, 0.97, ROUND),
    "sixteen-many": wide(256, 16, 0.97, [p * 2 for p in ROUND]),
    "thirty-two-few": wide(80, 32, 0.97, ROUND),
    "thirty-two-many": wide(256, 32, 0.97, ROUND),
    "thirty-two-deep": deep(52, 32, 0.98, ROUND),
}
# Sets unlike these: periods whose common multiple is large, one long period beside short ones, periods that divide one another, processors half used.
SETS["coprime-2-5"] = wide(5, 2, 0.95, [997, 1009, 1013, 1019, 1021])
SETS["coprime-8-64"] = wide(64, 8, 0.97, PRIME)
SETS["long-beside-short"] = {**wide(12, 4, 0.95, [2, 3, 4, 5, 6, 8, 10]), "last": 1_000_003}
SETS["harmonic-8-128"] = wide(128, 8, 0.97, [16, 32, 64, 128, 256])
SETS["half-16-200"] = wide(200, 16, 0.5, ROUND)
for tasks in (4, 8, 16, 32, 64, 128, 256):
    SETS["tasks-%d" % tasks] = wide(tasks, 2, 0.95, [p * max(1, tasks // 8) for p in ROUND])
for processors in (1, 2, 4, 8, 16, 32):
    SETS["processors-%d" % processors] = wide(processors * 4, processors, 0.95, ROUND)


def tasks_of(name, spec):
    """Pairs of work and period."""
    draw = random.Random(name)
    count, goal = spec["count"], spec["processors"] * spec["share"]
    periods = [draw.choice(spec["periods"]) for _ in range(count)]
    periods[-1] = spec.get("last", periods[-1])
    weights = [draw.uniform(0.9, 1.1) if spec["heavy"] else draw.uniform(0.3, 1.7) for _ in range(count)]
    rates = [min(0.95, w * goal / sum(weights)) for w in weights]
    return [(max(1, int(rate * period)), period) for rate, period in zip(rates, periods)]


def text(name, horizon):
    spec = SETS[name]
    lines = ["processors = %d" % spec["processors"], "horizon = %d" % horizon]
    for number, (work, period) in enumerate(tasks_of(name, spec)):
        lines += ["", "[[task]]", 'name = "t%d"' % number, "work = %d" % work, "period = %d" % period]
    return "\n".join(lines) + "\n"


if __name__ == "__main__":
    if len(sys.argv) == 1:
        print("\n".join(SETS))
    else:
        sys.stdout.write(text(sys.argv[1], int(sys.argv[2])))

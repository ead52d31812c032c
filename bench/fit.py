#!/usr/bin/env python3
"""The greatest horizon of each set that a program still takes: `fit.py PROGRAM [NAME ..]`."""
import subprocess
import sys

import sets


def fits(program, name, horizon, words):
    source = sets.text(name, horizon).encode()
    return subprocess.run([program] + words, input=source, stdout=subprocess.DEVNULL, stderr=subprocess.DEVNULL).returncode == 0


def greatest(program, name, words=["trace"]):
    low, high = 1, 2
    while high < 2 ** 32 and fits(program, name, high, words):
        low, high = high, high * 2
    while high - low > max(1, low // 1000):
        middle = (low + high) // 2
        if fits(program, name, middle, words):
            low = middle
        else:
            high = middle
    return low


if __name__ == "__main__":
    for name in sys.argv[2:] or sets.SETS:
        print(name, greatest(sys.argv[1], name), flush=True)

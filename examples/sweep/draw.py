#!/usr/bin/env python3
"""Draws task sets, divided by lines `%%`: draw.py COUNT [SEED] > sets"""
import random
import signal
import sys

PERIODS = [1, 2, 4, 5, 8, 10, 20, 25, 40, 50, 100, 200]


def drawn(draw):
    processors = draw.randint(1, 8)
    lines = [f"processors = {processors}", f"horizon = {draw.randint(1, 400)}", "task = ["]
    for number in range(draw.randint(1, 3 * processors)):
        period = draw.choice(PERIODS)
        lines.append(f"  {{name = 't{number}', work = {draw.randint(1, period)}, period = {period}}},")
    return "\n".join(lines + ["]"]) + "\n"


def main():
    numbers = [int(word) for word in sys.argv[1:] if word.isascii() and word.isdecimal()]
    if len(numbers) != len(sys.argv) - 1 or not 1 <= len(numbers) <= 2 or numbers[0] < 1:
        print("draw.py COUNT [SEED] > sets: COUNT from 1 on, SEED from 0 on", file=sys.stderr)
        return 2
    signal.signal(signal.SIGPIPE, signal.SIG_DFL)  # ends as other tools do where its reader ends
    draw = random.Random(numbers[1] if len(numbers) > 1 else 1)
    for number in range(numbers[0]):
        sys.stdout.write(("%%\n" if number else "") + drawn(draw))
    return 0


if __name__ == "__main__":
    sys.exit(main())

#!/usr/bin/env python3
"""Looks for a packing with fewer preemptions: fewer.py [--tries N] [--seed N] [--migration N] < set.toml > best.tree

Draws packings of the set (first, best and worst fit, in drawn orders, with several fills of the idle time), then changes the best one a little at a time.
The program judges each: `follow` makes its schedule, or says where it is no reduction tree, and `check` counts. So nothing here need be believed. The
tree with the fewest preemptions is written, for `follow`; what was found is told on standard error. A migration counts as N preemptions more (1).
The program is that of this checkout, or the command furnacelime, or what the variable FURNACELIME says.
"""
import argparse
import os
import random
import subprocess
import sys

HERE = os.path.dirname(os.path.realpath(__file__))
BUILT = os.path.join(HERE, "..", "..", "crates", "furnacelime", "out", "furnacelime")
PROGRAM = os.environ.get("FURNACELIME") or (BUILT if os.access(BUILT, os.X_OK) else "furnacelime")
RULES = {
    "first": lambda fitting: fitting[0],
    "best": lambda fitting: max(fitting, key=lambda pack: pack.rate),
    "worst": lambda fitting: min(fitting, key=lambda pack: pack.rate),
}
FILLS = ["fullest", "emptiest", "drawn", "leaves"]


class Refused(Exception):
    """What the program refuses, with its status and its line."""


class Pack:
    def __init__(self):
        self.rate, self.members = 0, []

    def take(self, rate, member):
        self.rate += rate
        self.members.append(member)


def answer(*words, given):
    """What the program writes."""
    done = subprocess.run([PROGRAM, *words], input=given, capture_output=True, check=False)
    if done.returncode:
        raise Refused(done.returncode, done.stderr.decode().strip() or f"{words[0]} ended with status {done.returncode}")
    return done.stdout


def counts(trace):
    """The preemptions and the migrations of a trace."""
    told = dict(line.split(b" ")[:2] for line in answer("check", given=trace).split(b"\n") if line.startswith((b"preemptions", b"migrations")))
    return int(told[b"preemptions"]), int(told[b"migrations"])


class Set:
    """The head of the tree text of a set, and the rates of its tasks."""

    def __init__(self, tree):
        lines = tree.decode().split("\n")
        number = {line.split()[0]: int(line.split()[1]) for line in lines if line.startswith(("processors", "scale", "tasks"))}
        self.scale = number["scale"]
        self.head = lines[: 5 + number["tasks"]]
        tasks = [line.split() for line in self.head[5:]]
        self.rates = [(int(work) * self.scale // int(period), name) for _, name, work, period in tasks]
        self.idle = number["processors"] * self.scale - sum(rate for rate, _ in self.rates)


class Recipe:
    """How a tree is packed: for each level the rule and the order of what is packed, and how the idle time is filled in."""

    def __init__(self, draw):
        self.seeds = [draw.getrandbits(32) for _ in range(12)]
        self.rules = [draw.choice(list(RULES)) for _ in self.seeds]
        self.orders = [draw.choice(["falling", "rising", "drawn", "drawn"]) for _ in self.seeds]
        self.swaps = [[] for _ in self.seeds]
        self.fill = draw.choice(FILLS)
        self.leaves = draw.randint(1, 6)

    def changed(self, draw):
        """The same with a small change."""
        made = Recipe(draw)
        made.seeds, made.rules, made.orders = self.seeds[:], self.rules[:], self.orders[:]
        made.swaps, made.fill, made.leaves = [swaps[:] for swaps in self.swaps], self.fill, self.leaves
        level = draw.choice([0, 0, 0, 1, 1, 2])
        what = draw.random()
        if what < 0.7:
            made.swaps[level].append((draw.getrandbits(16), draw.getrandbits(16)))
        elif what < 0.8:
            made.rules[level] = draw.choice(list(RULES))
        elif what < 0.9:
            made.seeds[level] = draw.getrandbits(32)
        else:
            made.fill, made.leaves = draw.choice(FILLS), draw.randint(1, 6)
        return made

    def in_order(self, level, items):
        level = min(level, len(self.seeds) - 1)
        items = items[:]
        random.Random(self.seeds[level]).shuffle(items)
        if self.orders[level] != "drawn":
            items.sort(key=lambda item: item[0], reverse=self.orders[level] == "falling")
        for first, second in self.swaps[level]:
            first, second = first % len(items), second % len(items)
            items[first], items[second] = items[second], items[first]
        return items

    def pack(self, level, items, scale):
        """Packs of a level: each item goes into one of those that have room, or into a new one."""
        choose = RULES[self.rules[min(level, len(self.rules) - 1)]]
        packs = []
        for rate, member in self.in_order(level, items):
            fitting = [pack for pack in packs if pack.rate + rate <= scale]
            if not fitting:
                packs.append(Pack())
                fitting = packs[-1:]
            choose(fitting).take(rate, member)
        return packs

    def tree(self, of):
        """The tree text."""
        leaves = []

        def leaf(rate):
            leaves.append(rate)
            return rate, f"-{len(leaves) - 1}"

        items, left = of.rates[:], of.idle
        if self.fill == "leaves" and left >= self.leaves:
            sizes = [left // self.leaves + (number < left % self.leaves) for number in range(self.leaves)]
            items += [leaf(size) for size in sizes if size <= of.scale]
            left -= sum(leaves)
        packs = self.pack(0, items, of.scale)
        for pack in sorted(packs, key=self.filled_first(of.scale)):
            if pack.rate < of.scale and left:
                rate = min(left, of.scale - pack.rate)
                pack.take(*leaf(rate))
                left -= rate
        while left:
            packs.append(Pack())
            packs[-1].take(*leaf(min(left, of.scale)))
            left -= packs[-1].rate
        levels = [packs]
        while any(pack.rate < of.scale for pack in levels[-1]):
            duals = [(of.scale - pack.rate, f"~{number}") for number, pack in enumerate(levels[-1]) if pack.rate < of.scale]
            levels.append(self.pack(len(levels), duals, of.scale))
        lines = of.head + [f"idles {len(leaves)}"] + [f"idle {number} {rate}" for number, rate in enumerate(leaves)]
        for number, packs in enumerate(levels):
            lines.append(f"level {number} {len(packs)}")
            lines += [" ".join(["pack", str(pack.rate), *pack.members]) for pack in packs]
        return "\n".join(lines + [f"levels {len(levels)}"]).encode() + b"\n"

    def filled_first(self, scale):
        """Which pack gets idle time first."""
        draw = random.Random(self.seeds[0])
        return {"fullest": lambda pack: scale - pack.rate, "emptiest": lambda pack: pack.rate}.get(self.fill, lambda pack: draw.random())


def search(of, cost, tries, draw):
    """The best tree and what it counts; of the first two fifths of the tries each is drawn anew, each further one is the best with a change."""
    best, seen = None, set()
    for number in range(tries):
        recipe = best[2].changed(draw) if best and number >= tries * 2 // 5 else Recipe(draw)
        tree = recipe.tree(of)
        if tree in seen:
            continue
        seen.add(tree)
        try:
            found = counts(answer("follow", given=tree))
        except Refused as refused:
            if refused.args[0] in (9, 16):  # too many rows, or no reduction tree
                continue
            raise
        if best is None or cost(found) <= cost(best[0]):
            best = found, tree, recipe
    return best


def main():
    words = argparse.ArgumentParser(description=__doc__.split("\n")[0], epilog=__doc__.split("\n", 1)[1], formatter_class=argparse.RawDescriptionHelpFormatter)
    options = [("tries", 200, "how many packings are tried"), ("seed", 1, "what they are drawn from"), ("migration", 1, "what a migration counts")]
    for word, usual, text in options:
        words.add_argument(f"--{word}", type=int, default=usual, metavar="N", help=f"{text} ({usual})")
    given = words.parse_args()
    if given.tries < 1 or given.seed < 0 or given.migration < 0:
        words.error("--tries is from 1 on, --seed and --migration from 0 on")

    def cost(found):
        return found[0] + given.migration * found[1]

    try:
        text = sys.stdin.buffer.read()
        own = answer("tree", given=text)
        trace = answer("trace", given=text)
        if trace.startswith(b"run-trace 2"):
            print("fewer.py: the set has offsets, which a tree text doesn't have", file=sys.stderr)
            return 6
        first = counts(trace)
        best = search(Set(own), cost, given.tries, random.Random(given.seed))
    except Refused as refused:
        print(refused.args[1], file=sys.stderr)
        return refused.args[0]
    except OSError as fault:
        print(f"fewer.py: {fault}", file=sys.stderr)
        return 127
    print("first fit: %d preemptions, %d migrations" % first, file=sys.stderr)
    if best is None or cost(best[0]) >= cost(first):
        print(f"none of {given.tries} packings has fewer", file=sys.stderr)
        best = first, own
    else:
        print("the best of %d packings: %d preemptions, %d migrations" % (given.tries, *best[0]), file=sys.stderr)
    try:
        sys.stdout.buffer.write(best[1])
        sys.stdout.flush()
    except OSError as fault:
        print(f"fewer.py: the tree can't be written: {fault.strerror}", file=sys.stderr)
        return 4
    return 0


if __name__ == "__main__":
    sys.exit(main())

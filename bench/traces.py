#!/usr/bin/env python3
"""Writes trace texts near the limit of rows, to time `check` on.

    traces.py LIST            prints the names of all texts, the plain ones first
    traces.py NAME            writes the text NAME to standard output

A plain text is a valid schedule as `trace` writes it: in each period the tasks are wrapped around the processors, so rows stand
by processor and a task that meets the end of a processor goes on at the next. A hostile text is one that a reader might be slow at.
"""
import math
import random
import sys

MOST_ROWS = 2_097_152


class Wrapped:
    """Tasks of one period, wrapped around the processors in each period."""

    def __init__(self, processors, tasks, period, rows=MOST_ROWS, wide=0):
        self.processors = processors
        self.period = period
        share = processors * period
        working = tasks - 1 if wide else tasks
        works = [share * (i + 1) // working - share * i // working for i in range(working)]
        assert all(0 < work <= period for work in works)
        self.tasks = [(f"task{i}", work) for i, work in enumerate(works)]
        self.lanes = [[] for _ in range(processors)]
        lane, at = 0, 0
        for name, work in self.tasks:
            while work > 0:
                ticks = min(work, period - at)
                self.lanes[lane].append((at, at + ticks, name))
                work -= ticks
                at += ticks
                if at == period:
                    lane, at = lane + 1, 0
        each = sum(len(lane) for lane in self.lanes)
        self.periods = min(rows // each, (2**32 - 1) // period)
        self.horizon = self.periods * period
        # The last task of a wide text: its first period is still open at the horizon, so it needs no rows, and the scale is long.
        self.wide = max(wide, self.horizon + 1) if wide else 0
        self.scale = math.lcm(period, self.wide) if wide else period

    def head(self, version=1):
        yield f"run-trace {version}"
        yield f"processors {self.processors}"
        yield f"horizon {self.horizon}"
        yield f"scale {self.scale}"
        rest = " 0" if version == 2 else ""
        tasks = [f"task {name} {work} {self.period}{rest}" for name, work in self.tasks]
        if self.wide:
            tasks.append(f"task wide 1 {self.wide}{rest}")
        yield f"tasks {len(tasks)}"
        yield from tasks

    def rows(self):
        for processor, lane in enumerate(self.lanes):
            for k in range(self.periods):
                begin = k * self.period
                for start, end, name in lane:
                    yield f"row {processor} {(begin + start) * self.scale} {(begin + end) * self.scale} {name}"

    def totals(self):
        for name, work in self.tasks:
            yield f"total {name} {work * self.periods * self.scale}"
        if self.wide:
            yield "total wide 0"

    def mets(self):
        for name, _ in self.tasks:
            ends = [end for lane in self.lanes for _, end, named in lane if named == name]
            for k in range(self.periods):
                yield f"met {name} {k} {(k * self.period + max(ends)) * self.scale}"

    def text(self, order=None, version=1, change=None):
        rows = list(self.rows())
        if order:
            rows = order(rows)
        if change:
            change(rows)
        yield from self.head(version)
        yield from rows
        yield from self.totals()
        if version == 2:
            yield from self.mets()
        yield f"rows {len(rows)}"


def shuffled(rows):
    random.Random(1).shuffle(rows)
    return rows


def at_the_end(find, put):
    """Changes the last row line that has `find`."""

    def change(rows):
        for i in range(len(rows) - 1, -1, -1):
            if find in rows[i]:
                rows[i] = put(rows[i])
                return

    return change


def shorter(line):
    """The row with its last tick left out: its total is wrong then, which is told only after all rows are read."""
    word, processor, start, end, name = line.split()
    return f"{word} {processor} {start} {int(end) - 1} {name}"


def other_processor(line):
    word, processor, start, end, name = line.split()
    return f"{word} {int(processor) - 1} {start} {end} {name}"


def slot_of(name):
    """Where the reader looks first for a name."""
    value = 0
    for byte in name.encode():
        value = ((value ^ byte) * 0x9E3779B1) & 0xFFFFFFFF
    return value >> 20


class OneGuess(Wrapped):
    """Names that all have the same place in the reader's table of names."""

    def __init__(self, *words, **more):
        super().__init__(*words, **more)
        names, i = [], 0
        while len(names) < len(self.tasks):
            name = f"same_guess_{i}"
            i += 1
            if slot_of(name) == 7:
                names.append(name)
        new = {old: name for (old, _), name in zip(self.tasks, names)}
        self.tasks = [(new[name], work) for name, work in self.tasks]
        self.lanes = [[(start, end, new[name]) for start, end, name in lane] for lane in self.lanes]


class OneTask(Wrapped):
    """One task that has the first half of each period."""

    def __init__(self):
        super().__init__(1, 1, 2)
        self.tasks = [("a", 1)]
        self.lanes = [[(0, 1, "a")]]
        self.periods = MOST_ROWS
        self.horizon = 2 * MOST_ROWS


class LongRows(Wrapped):
    """One task that has all time, in rows over two thousand periods each."""

    def __init__(self):
        super().__init__(1, 1, 1)
        self.span = 2047
        self.periods = MOST_ROWS * self.span
        self.horizon = self.periods

    def rows(self):
        for i in range(MOST_ROWS):
            yield f"row 0 {i * self.span} {(i + 1) * self.span} task0"


class FewTasksOneRow(Wrapped):
    """256 tasks with one row each, over the longest horizon."""

    def __init__(self):
        super().__init__(32, 256, 2**32 - 1)


class LongNumbers(Wrapped):
    """Row lines whose numbers have 39 digits, which are read word by word; each ends past the horizon."""

    def rows(self):
        base = 10**38
        for i in range(MOST_ROWS):
            yield f"row 0 {base + i} {base + i + 1} -"

    def totals(self):
        for name, _ in self.tasks:
            yield f"total {name} 0"


PLAIN = {
    "m1-256": lambda: Wrapped(1, 256, 256 * 17, wide=1).text(),
    "m1-few": lambda: Wrapped(1, 5, 20, wide=1).text(),
    "m4-256": lambda: Wrapped(4, 256, 251, rows=600_000).text(),
    "m4-few": lambda: Wrapped(4, 7, 1009, rows=1_000_000).text(),
    "m4-wide": lambda: Wrapped(4, 10, 10007, rows=1_000_000, wide=4294967291).text(),
    "m8-deep": lambda: Wrapped(8, 24, 509, rows=500_000).text(),
    "m16-256": lambda: Wrapped(16, 256, 251, rows=300_000).text(),
    "m16-few": lambda: Wrapped(16, 19, 509, rows=300_000).text(),
    "m32-256": lambda: Wrapped(32, 256, 251, rows=150_000).text(),
    "m32-deep": lambda: Wrapped(32, 80, 509, rows=150_000).text(),
    "m32-few": lambda: Wrapped(32, 35, 509, rows=150_000).text(),
}

HOSTILE = {
    "reverse": lambda: Wrapped(4, 7, 509).text(order=lambda rows: rows[::-1]),
    "shuffled": lambda: Wrapped(4, 256, 251).text(order=shuffled),
    "by-start": lambda: Wrapped(4, 7, 509).text(order=lambda rows: sorted(rows, key=lambda line: int(line.split()[2]))),
    "one-task": lambda: OneTask().text(),
    "one-task-reverse": lambda: OneTask().text(order=lambda rows: rows[::-1]),
    "one-row-a-task": lambda: FewTasksOneRow().text(),
    "one-guess": lambda: OneGuess(1, 256, 256 * 17).text(),
    "long-numbers": lambda: LongNumbers(1, 1, 2).text(),
    "long-rows": lambda: LongRows().text(),
    "million-mets": lambda: Wrapped(1, 2, 4000, rows=1_048_576).text(version=2),
    "million-mets-few-rows": lambda: million_mets(),
    "last-overlaps": lambda: Wrapped(4, 7, 509).text(change=at_the_end("row 3", other_processor)),
    "last-lacks": lambda: lacking(),
}


def million_mets():
    """Two million `met` lines over one row."""
    count = MOST_ROWS
    yield from ["run-trace 2", "processors 1", f"horizon {count}", "scale 1", "tasks 1", "task a 1 1 0"]
    yield f"row 0 0 {count} a"
    yield f"total a {count}"
    for k in range(count):
        yield f"met a {k} {k + 1}"
    yield "rows 1"


def lacking():
    """The last row lacks its last tick, and the total says so: the last task's last period is found wanting."""
    made = Wrapped(1, 256, 256 * 17)
    name, work = made.tasks[-1]
    for line in made.text(change=at_the_end(f" {name}", shorter)):
        if line == f"total {name} {work * made.periods * made.scale}":
            line = f"total {name} {work * made.periods * made.scale - 1}"
        yield line


def main():
    texts = {**PLAIN, **HOSTILE}
    if len(sys.argv) != 2:
        sys.exit(__doc__)
    if sys.argv[1] == "LIST":
        print("\n".join(texts))
        return
    out = sys.stdout
    lines = []
    for line in texts[sys.argv[1]]():
        lines.append(line)
        if len(lines) == 65_536:
            out.write("\n".join(lines) + "\n")
            lines.clear()
    if lines:
        out.write("\n".join(lines) + "\n")


if __name__ == "__main__":
    main()

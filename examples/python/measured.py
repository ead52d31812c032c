#!/usr/bin/env python3
"""Compares what ran by the clock with the schedule: measured.py MEASURED TRACE [TRACE]... [--svg FILE] [--from UNIT] [--units N]

MEASURED is what examples/c/dispatch.c wrote, and each TRACE the trace text of a mode's set, in their order. It tells of each task how late its
rows began on their processors, how long it ran in its rows and outside of them, and of its jobs which overran (weren't finished at the end of
their last row) and which were late (weren't finished when they were due). With --svg it draws the schedule and what ran, one beneath the
other, with a ring where a job was finished, red where that was late.

It ends with 0 where all jobs were finished in time, with 1 where some weren't, with 2 at faulty words or a file that can't be read, with 4
where the picture can't be written, and with 6 where a text isn't of its form. It wants Python 3.8 or later and nothing beside it.
"""
import argparse
import sys
from bisect import bisect_right
from collections import defaultdict
from html import escape

COLOURS = ["#0072b2", "#e69f00", "#009e73", "#cc79a7", "#56b4e9", "#d55e00", "#f0e442", "#595959"]


class BadText(Exception):
    """A text isn't of its form."""


class Plan:
    """A schedule, its rows in nanoseconds.

    >>> plan = Plan("run-trace 1\\nprocessors 1\\nhorizon 3\\nscale 3\\ntasks 1\\ntask a 2 3\\nrow 0 0 6 a\\nrow 0 6 9 -\\ntotal a 6\\nrows 2", 1000)
    >>> plan.length, plan.rows, plan.periods
    (3000, [(0, 0, 2000, 'a')], {'a': (3000, 0)})
    """

    def __init__(self, text, unit):
        lines = [line.split() for line in text.splitlines()]
        if not lines or lines[0] not in (["run-trace", "1"], ["run-trace", "2"]):
            raise BadText("a schedule is a trace text")
        try:
            numbers = {line[0]: int(line[1]) for line in lines if line[0] in ("processors", "horizon", "scale")}
            self.processors, scale = numbers["processors"], numbers["scale"]
            self.length = numbers["horizon"] * unit
            tasks = [line for line in lines if line[0] == "task"]
            self.periods = {line[1]: (int(line[3]) * unit, int(line[4]) * unit if len(line) > 4 else 0) for line in tasks}
            rows = [line for line in lines if line[0] == "row" and line[4] != "-"]
            self.rows = [(int(p), round_to(int(start) * unit, scale), round_to(int(end) * unit, scale), name) for _, p, start, end, name in rows]
        except (KeyError, IndexError, ValueError) as fault:
            raise BadText(f"a trace text has a bad line: {fault}") from fault
        if any(name not in self.periods for *_, name in self.rows):
            raise BadText("a trace text has a row of another task")

    def last_ends(self, name):
        """Of each period that ends by the horizon, where the task's last row in it ends."""
        period, offset = self.periods[name]
        ends = [0] * ((self.length - offset) // period if self.length > offset else 0)
        for _, start, end, named in self.rows:
            if named == name:
                for job in range((start - offset) // period, min(len(ends), (end - 1 - offset) // period + 1)):
                    ends[job] = max(ends[job], min(end, offset + (job + 1) * period))
        return ends


def round_to(number, scale):
    """The nearest whole number to number / scale.

    >>> round_to(7, 2), round_to(8, 3)
    (4, 3)
    """
    return (2 * number + scale) // (2 * scale)


class Measured:
    """What ran: of each mode its begin, length and frames, and by mode and task the times in which it ran, and its jobs."""

    def __init__(self, text):
        lines = [line.split() for line in text.splitlines()]
        if not lines or lines[0] != ["run-measured", "1"]:
            raise BadText("what ran begins with run-measured 1")
        self.ran, self.jobs, self.modes = defaultdict(list), defaultdict(list), []
        told = {}
        try:
            for word, *line in lines[1:]:
                if word == "row":
                    self.ran[int(line[0]), line[4]].append((int(line[1]), int(line[2]), int(line[3])))
                elif word == "job":
                    finish = None if line[4] == "-" else int(line[4])
                    self.jobs[int(line[0]), line[1]].append((int(line[2]), int(line[3]), finish))
                elif word == "mode":
                    self.modes.append(tuple(int(it) for it in line[1:4]))
                else:
                    told[word] = int(line[0])
            self.unit, self.processors = told["unit"], told["processors"]
            whole = told["rows"] == sum(map(len, self.ran.values())) and told["jobs"] == sum(map(len, self.jobs.values()))
        except (KeyError, IndexError, ValueError) as fault:
            raise BadText(f"what ran has a bad line: {fault}") from fault
        if not whole or told.get("modes") != len(self.modes) or self.unit < 1:
            raise BadText("what ran isn't whole")


def compare_rows(planned, ran):
    """Of the rows of one task and what it ran, as (processor, start, end): the time that it ran in its rows, and how late each row began.

    A row in which it didn't run isn't counted: its job was finished before, or it ran elsewhere.

    >>> compare_rows([(0, 0, 10), (1, 20, 30)], [(0, 1, 8), (0, 9, 12), (1, 25, 30), (0, 40, 50)])
    (13, [1, 5])
    """
    inside, late = 0, []
    by_processor = defaultdict(list)
    for processor, start, end in sorted(ran):
        by_processor[processor].append((start, end))
    first = defaultdict(int)
    for processor, start, end in sorted(planned, key=lambda row: row[1]):
        lane, k = by_processor[processor], first[processor]
        while k < len(lane) and lane[k][1] <= start:
            k += 1
        first[processor] = k
        if k < len(lane) and lane[k][0] < end:
            late.append(max(0, lane[k][0] - start))
        while k < len(lane) and lane[k][0] < end:
            inside += min(end, lane[k][1]) - max(start, lane[k][0])
            k += 1
    return inside, late


def planned_rows(plan, mode, name):
    """The rows of a task over all frames of its mode."""
    begin, length, frames = mode
    rows = [(p, start, end) for p, start, end, named in plan.rows if named == name]
    return [(p, begin + k * length + start, begin + k * length + end) for k in range(frames) for p, start, end in rows]


def compare_jobs(plan, mode, name, jobs):
    """How many jobs overran, how many were late, and the longest response of those that were finished."""
    begin, length, frames = mode
    ends = plan.last_ends(name)
    if len(jobs) != frames * len(ends):
        raise BadText(f"task {name} has {len(jobs)} jobs and not {frames * len(ends)}")
    overran = late = longest = 0
    for number, (release, due, finish) in enumerate(jobs):
        frame, job = divmod(number, len(ends))
        overran += finish is None or finish > begin + frame * length + ends[job]
        late += finish is None or finish > due
        longest = max(longest, finish - release if finish is not None else 0)
    return overran, late, longest


def table_of(number, plan, mode, measured):
    """The lines that compare a mode, and how many jobs of it were late."""
    lines = [f"mode {number}: {mode[2]} frames of {mode[1] / 1e6:.3f} ms, {len(plan.periods)} tasks on {plan.processors} processors"]
    wide = max([4, *map(len, plan.periods)])
    lines.append(f"{'task':{wide}}   jobs overran   late   response us   period us   planned us    in rows us    outside us    rows"
                 "  late by us: mean, 99 of 100, most")
    all_late, every = 0, []
    for name, (period, _) in plan.periods.items():
        planned, ran, jobs = planned_rows(plan, mode, name), measured.ran[number, name], measured.jobs[number, name]
        inside, late = compare_rows(planned, ran)
        overran, late_jobs, longest = compare_jobs(plan, mode, name, jobs)
        outside = sum(end - start for _, start, end in ran) - inside
        lines.append(f"{name:{wide}} {len(jobs):6} {overran:7} {late_jobs:6} {longest / 1e3:13.1f} {period / 1e3:11.1f} "
                     f"{sum(end - start for _, start, end in planned) / 1e3:12.1f} {inside / 1e3:13.1f} {outside / 1e3:13.1f} {len(planned):7}  {spread(late)}")
        all_late += late_jobs
        every += late
    lines.append(f"all rows: {spread(every)}")
    return lines, all_late


def spread(late):
    """The mean, the 99th of 100 and the greatest of some times, in microseconds.

    >>> spread([1000, 3000])
    '2.0, 3.0, 3.0'
    """
    late = sorted(late)
    return f"{sum(late) / len(late) / 1e3:.1f}, {late[len(late) * 99 // 100] / 1e3:.1f}, {late[-1] / 1e3:.1f}" if late else "-"


def step_of(length):
    """A round step that cuts a length into 5 to 12 parts.

    >>> step_of(30), step_of(1000)
    (5, 100)
    """
    step = 1
    while True:
        for factor in (1, 2, 5):
            if length <= 12 * factor * step:
                return factor * step
        step *= 10


def boxes(rows, colour_of, at, scale, begin, end, y, height):
    """The rows of one lane that lie in the window, with their names where there is room."""
    for start, stop, name in rows:
        left, right = max(start, begin), min(stop, end)
        if left < right:
            x, width = at + (left - begin) * scale, max((right - left) * scale, 0.5)
            yield f"<rect x='{x:.1f}' y='{y}' width='{width:.1f}' height='{height}' fill='{colour_of[name]}'/>"
            if width > 9 * len(name) + 6:
                yield f"<text class='b' x='{x + width / 2:.1f}' y='{y + height / 2 + 5:.1f}'>{escape(name)}</text>"


def legend_of(colour_of, at, y, width):
    """The names beside their colours, in lines: pairs of a line's place and the text."""
    x = at
    for name, colour in colour_of.items():
        wide = 40 + 10 * len(name)
        if x + wide > width:
            x, y = at, y + 26
        yield y, f"<rect x='{x}' y='{y - 14}' width='16' height='16' fill='{colour}'/><text x='{x + 22}' y='{y}'>{escape(name)}</text>"
        x += wide


def rings(measured, at, scale, begin, end, y_of):
    """A ring where each job was finished, on the processor on which its task ran last; red where it was late."""
    for (mode, name), jobs in measured.jobs.items():
        ran = sorted(measured.ran[mode, name], key=lambda row: row[2])
        ends = [stop for _, _, stop in ran]
        for _, due, finish in jobs:
            if finish is not None and begin <= finish <= end and ran:
                processor = ran[max(0, bisect_right(ends, finish) - 1)][0]
                yield (f"<circle cx='{at + (finish - begin) * scale:.1f}' cy='{y_of(processor)}' r='5.5' fill='#fff' "
                       f"stroke='{'#b00000' if finish > due else '#000'}' stroke-width='2.5'/>")


def picture_of(plans, measured, begin, end):
    """What was planned and what ran, one beneath the other for each processor, from one time to another."""
    names = list(dict.fromkeys(name for plan in plans for name in plan.periods))
    colour_of = {name: COLOURS[k % len(COLOURS)] for k, name in enumerate(names)}
    at, width, height, top = 150, 1200, 34, 90
    scale = width / (end - begin)
    bottom = top + measured.processors * (2 * height + 26)
    legend = list(legend_of(colour_of, at, bottom + 26, at + width))
    whole = bottom + 26 + 26 * len({line for line, _ in legend})
    yield f"<svg xmlns='http://www.w3.org/2000/svg' role='img' aria-labelledby='t' viewBox='0 0 {at + width + 40} {whole}'>"
    yield f"<title id='t'>Planned and measured on {measured.processors} processors</title>"
    yield ("<style>text{font:16px ui-monospace,DejaVu Sans Mono,monospace;fill:#333}.h{font-size:20px;font-weight:bold}.e{text-anchor:end}"
           ".m,.b{text-anchor:middle}.b{fill:#fff;font-size:15px;stroke:#000;stroke-width:.16em;paint-order:stroke}</style>")
    yield f"<rect width='{at + width + 40}' height='{whole}' fill='#fff'/>"
    yield f"<text class='h' x='20' y='36'>Planned and measured, from {begin / 1e6:g} to {end / 1e6:g} ms</text>"
    yield f"<text class='e' x='{at - 12}' y='{top - 20}'>ms</text>"
    step = step_of(max(1, round((end - begin) / 1000)))
    for k in range(-(-begin // (1000 * step)), end // (1000 * step) + 1):
        x = at + (k * 1000 * step - begin) * scale
        yield f"<path d='M{x:.1f} {top - 14}V{bottom}' stroke='#ccc'/><text class='m' x='{x:.1f}' y='{top - 20}'>{k * step / 1000:g}</text>"
    planned, ran = defaultdict(list), defaultdict(list)
    for number, (plan, mode) in enumerate(zip(plans, measured.modes)):
        for name in plan.periods:
            for processor, start, stop in planned_rows(plan, mode, name):
                planned[processor].append((start, stop, name))
            for processor, start, stop in measured.ran[number, name]:
                ran[processor].append((start, stop, name))
    for processor in range(measured.processors):
        y = top + processor * (2 * height + 26)
        for word, lane, down in (("planned", planned, 0), ("ran", ran, height + 4)):
            yield f"<text class='e' x='{at - 12}' y='{y + down + 22}'>cpu {processor} {word}</text>"
            yield f"<rect x='{at}' y='{y + down}' width='{width}' height='{height}' fill='#f2f2f2'/>"
            yield from boxes(lane[processor], colour_of, at, scale, begin, end, y + down, height)
    yield from rings(measured, at, scale, begin, end, lambda processor: top + processor * (2 * height + 26) + height + 4)
    yield from (text for _, text in legend)
    yield "</svg>"


def read_file(name):
    try:
        with open(name, encoding="utf-8") as file:
            return file.read()
    except (OSError, UnicodeDecodeError) as fault:
        sys.exit(refuse(2, f"{name} can't be read: {fault}"))


def refuse(status, line):
    print(f"measured.py: {line}", file=sys.stderr)
    return status


def main():
    parser = argparse.ArgumentParser(description=__doc__, formatter_class=argparse.RawDescriptionHelpFormatter)
    parser.add_argument("measured")
    parser.add_argument("traces", nargs="+", metavar="trace")
    parser.add_argument("--svg")
    parser.add_argument("--from", dest="begin", type=int, default=0, metavar="UNIT")
    parser.add_argument("--units", type=int, default=0, metavar="N")
    words = parser.parse_args()
    if words.begin < 0 or words.units < 0:
        parser.error("units are counted from 0")
    try:
        measured = Measured(read_file(words.measured))
        plans = [Plan(read_file(name), measured.unit) for name in words.traces]
        if len(plans) != len(measured.modes):
            raise BadText(f"{len(measured.modes)} modes ran, and there are {len(plans)} schedules")
        late = 0
        for number, (plan, mode) in enumerate(zip(plans, measured.modes)):
            if (plan.length, plan.processors) != (mode[1], measured.processors):
                raise BadText(f"mode {number} isn't of the schedule {words.traces[number]}")
            lines, late_here = table_of(number, plan, mode, measured)
            print("\n".join(lines))
            late += late_here
        if words.svg:
            begin, end = words.begin * measured.unit, measured.modes[-1][0] + measured.modes[-1][1] * measured.modes[-1][2]
            end = min(end, begin + words.units * measured.unit) if words.units else end
            if begin >= end:
                return refuse(2, f"nothing ran from unit {words.begin} on")
            with open(words.svg, "w", encoding="utf-8") as file:
                file.write("\n".join(picture_of(plans, measured, begin, end)) + "\n")
    except BadText as fault:
        return refuse(6, fault)
    except OSError as fault:
        return refuse(4, f"the picture can't be written: {fault}")
    count = sum(map(len, measured.jobs.values()))
    print(f"all {count} jobs in time" if late == 0 else f"{late} of {count} jobs late")
    return 1 if late else 0


if __name__ == "__main__":
    sys.exit(main())

#!/usr/bin/env python3
"""A trace for Perfetto: to_perfetto.py [--unit MICROSECONDS] < trace > trace.json

Of a trace text the rows as trace events in JSON, which https://ui.perfetto.dev opens (and chrome://tracing): a track for each processor with the
tasks that it runs, and one for each task with the processors that run it. MICROSECONDS is what a unit takes, 1 where it isn't given.
"""
import json
from fractions import Fraction

from task_set import Fault, Words, run


def head_of(text):
    """The ticks of a unit, and each task's words behind its name."""
    scale, tasks, lines = None, {}, text.split("\n")
    if lines[0] not in ("run-trace 1", "run-trace 2"):
        raise Fault("line 1 is that of no trace text")
    for line in lines:
        word, *rest = line.split(" ")
        if word == "scale" and len(rest) == 1 and rest[0].isdecimal() and int(rest[0]) > 0:
            scale = int(rest[0])
        elif word == "task" and len(rest) >= 3:
            tasks[rest[0]] = rest[1:]
        elif word == "row":
            break
    if scale is None:
        raise Fault("the trace has no scale")
    return scale, tasks


def named(kind, process, name, thread=None):
    """The event that names a process or a track."""
    event = {"name": kind, "ph": "M", "pid": process, "args": {"name": name}}
    return json.dumps(event if thread is None else {**event, "tid": thread}, separators=(",", ":"))


def box(name, begin, end, process, track):
    """The event of a box; times are in nanoseconds, and told in microseconds. The name is in quotes."""
    long = end - begin
    return (
        f'{{"name":{name},"ph":"X","ts":{begin // 1000}.{begin % 1000:03},"dur":{long // 1000}.{long % 1000:03},"pid":{process},"tid":{track}}}'
    )


def events_of(text, unit):
    """The events, in the order of the rows."""
    scale, tasks = head_of(text)
    tracks = {name: number for number, name in enumerate(tasks)}
    quoted = {name: json.dumps(name) for name in tasks}
    yield named("process_name", 1, "processors")
    yield named("process_name", 2, "tasks")
    for name, words in tasks.items():
        yield named("thread_name", 2, f"{name} {words[0]}/{words[1]}", tracks[name])
    # Both ends are rounded to a nanosecond, so that boxes that touch stay together.
    above, below = 2000 * unit.numerator, 2 * unit.denominator * scale
    processors = set()
    for number, line in enumerate(text.split("\n"), 1):
        if not line.startswith("row "):
            continue
        words = line.split(" ")
        if len(words) != 5 or not "".join(words[1:4]).isdecimal() or "" in words or words[4] not in tracks and words[4] != "-":
            raise Fault(f"line {number} is no row")
        processor, start, end, task = int(words[1]), int(words[2]), int(words[3]), words[4]
        if processor not in processors:
            processors.add(processor)
            yield named("thread_name", 1, f"processor {processor}", processor)
        if task != "-":
            begin, until = (start * above + below // 2) // below, (end * above + below // 2) // below
            yield box(quoted[task], begin, until, 1, processor)
            yield box(f'"processor {processor}"', begin, until, 2, tracks[task])


def convert(text, given):
    try:
        unit = Fraction(given.unit)
    except (ValueError, ZeroDivisionError):
        raise Fault(f"a unit is {given.unit!r}, and no number") from None
    if unit <= 0:
        raise Fault("a unit takes no time")
    events = ",\n".join(events_of(text, unit))
    return '{"displayTimeUnit":"ns","traceEvents":[\n' + events + "\n]}\n"


if __name__ == "__main__":
    words = Words(__doc__)
    words.add_argument("--unit", default="1", metavar="MICROSECONDS", help="what a unit takes; a fraction as 1/3 may be given too")
    run(convert, words)

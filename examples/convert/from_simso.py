#!/usr/bin/env python3
"""A task set of a simulation of SimSo: from_simso.py < simulation.xml > set.toml

Processors, periods, worst-case times (WCET) and activation dates are taken; the horizon is the simulation's duration, where --horizon isn't given. A
unit is the longest in which all of these are whole, and is told in the first line of the set. Where the deadline is before the period's end, the period
becomes the longest part of it (a half, a third ..) that ends by the deadline, and that is told on standard error: each job then has its work by its
deadline, and the task gets more than it needs. Tasks that aren't periodic, processors that aren't alike, deadlines of 0 or behind the period, and work
that is longer than that part are refused.
"""
import math
import xml.etree.ElementTree as xml
from fractions import Fraction

from task_set import Fault, Words, note, run, text_of


def milliseconds(element, key, usual=None):
    """The time that an attribute tells, in milliseconds."""
    told = element.get(key, usual)
    try:
        time = Fraction(told)
    except (TypeError, ValueError, ZeroDivisionError):
        raise Fault(f"{key} of {element.get('name', element.tag)} is {told!r}, and no number") from None
    if time < 0:
        raise Fault(f"{key} of {element.get('name', element.tag)} is below 0")
    return time


def times_of(task):
    """The name of a task and its times in milliseconds: work, period, offset."""
    name = task.get("name") or "task"
    if task.get("task_type", "Periodic") != "Periodic":
        raise Fault(f"{name} is {task.get('task_type')}, and not periodic")
    period = milliseconds(task, "period")
    deadline = milliseconds(task, "deadline", task.get("period"))
    if deadline > period:
        raise Fault(f"the deadline of {name} is behind its period")
    if deadline == 0:
        raise Fault(f"the deadline of {name} is 0")
    if deadline < period:
        part = period / math.ceil(period / deadline)
        note(f"{name} has the period {part} ms, the longest part of its {period} ms that ends by its deadline, {deadline} ms")
        period = part
    return name, milliseconds(task, "WCET"), period, milliseconds(task, "activationDate", "0")


def convert(text, given):
    try:
        root = xml.fromstring(text)
    except xml.ParseError as fault:
        raise Fault(f"this is no XML: {fault}") from None
    if root.tag != "simulation":
        raise Fault("this is no simulation of SimSo")
    processors = root.findall("./processors/processor")
    if any(milliseconds(processor, "speed", "1") != 1 for processor in processors):
        raise Fault("the processors aren't all of speed 1")
    tasks = [times_of(task) for task in root.findall("./tasks/task")]
    horizon = given.horizon
    duration = None
    if horizon is None and root.get("duration"):
        duration = milliseconds(root, "duration") / milliseconds(root, "cycles_per_ms", "1000000")
    times = [time for task in tasks for time in task[1:]] + [duration or Fraction(0)]
    steps = math.lcm(*(time.denominator for time in times))
    whole = [(name, *(int(time * steps) for time in rest)) for name, *rest in tasks]
    if horizon is None and duration:
        horizon = int(duration * steps)
    return text_of(whole, given.processors or len(processors) or None, horizon, f"from SimSo; a unit is {Fraction(1, steps)} ms")


if __name__ == "__main__":
    run(convert, Words(__doc__).with_set())

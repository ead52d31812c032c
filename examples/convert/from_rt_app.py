#!/usr/bin/env python3
"""A task set of a workload of rt-app: from_rt_app.py --processors 4 < workload.json > set.toml

A unit is a microsecond. A task's work is the sum of its `run` and `runtime` events, its period that of its one `timer`, its offset its `delay`; a
task of `dl-runtime` and `dl-period` without events has these. `instance` makes as many tasks. `global.duration` is the horizon, where --horizon
isn't given. A task that is something else (several phases, locks, sleeps) is no periodic task, and is refused by name; so is one whose `dl-deadline`
isn't its period. That a task is bound to some processors (`cpus`) is left out, and told on standard error.
"""
import json
import re

from task_set import Fault, Words, note, run, text_of, whole

# Events end in a number where there are several of a kind.
RUNS = re.compile(r"(run|runtime)[0-9]*")
TIMERS = re.compile(r"timer[0-9]*")
SETTINGS = {"instance", "loop", "policy", "priority", "delay", "dl-runtime", "dl-period", "dl-deadline", "cpus", "cgroup", "nodes_membind", "taskgroup"}


def once(pairs):
    """An object of which each key stands once; a reader would keep the last and drop the others."""
    made = dict(pairs)
    if len(made) < len(pairs):
        keys = [key for key, _ in pairs]
        raise Fault(f"the key {next(key for key in keys if keys.count(key) > 1)} stands twice in one object")
    return made


def one_phase(name, task):
    """The events of a task that has one phase, or none but the task itself."""
    phases = task.get("phases")
    if phases is None:
        return task
    if not isinstance(phases, dict) or len(phases) != 1:
        raise Fault(f"task {name} has several phases, so it isn't periodic")
    (phase,) = phases.values()
    if not isinstance(phase, dict):
        raise Fault(f"the phase of task {name} is no object")
    return {**{key: value for key, value in task.items() if key != "phases"}, **phase}


def numbers_of(name, task):
    """The work, the period and the offset of a task."""
    if not isinstance(task, dict):
        raise Fault(f"task {name} is no object")
    events = one_phase(name, task)
    work = [value for key, value in events.items() if RUNS.fullmatch(key)]
    timers = [value for key, value in events.items() if TIMERS.fullmatch(key)]
    other = [key for key in events if not RUNS.fullmatch(key) and not TIMERS.fullmatch(key) and key not in SETTINGS]
    if other:
        raise Fault(f"task {name} has the event {other[0]}, so it isn't only work in each period")
    if not timers and not work and "dl-period" in events:
        work, period = [events.get("dl-runtime")], events["dl-period"]
    elif len(timers) == 1 and isinstance(timers[0], dict):
        period = timers[0].get("period")
    else:
        raise Fault(f"task {name} has {len(timers)} timers, and not one")
    period = whole(period, f"the period of task {name}", 1)
    if "dl-deadline" in events and whole(events["dl-deadline"], f"the deadline of task {name}") != period:
        raise Fault(f"the deadline of task {name} is {events['dl-deadline']}, and its period {period}")
    if events.get("cpus") is not None:
        note(f"task {name} may run on all processors, and not only on {events['cpus']}")
    total = sum(whole(value, f"a run of task {name}") for value in work)
    return total, period, whole(events.get("delay", 0), f"the delay of task {name}")


def convert(text, given):
    try:
        workload = json.loads(text, object_pairs_hook=once)
        tasks = workload["tasks"].items()
    except ValueError as fault:
        raise Fault(f"this is no JSON: {fault}") from None
    except (AttributeError, KeyError, TypeError):
        raise Fault("there is no object of `tasks`") from None
    found = []
    for name, task in tasks:
        numbers = numbers_of(name, task)
        count = whole(task.get("instance", 1), f"the instances of task {name}")
        found += [(name if count == 1 else f"{name}-{number}", *numbers) for number in range(count)]
    horizon, globals_ = given.horizon, workload.get("global", {})
    if horizon is None and isinstance(globals_, dict) and globals_.get("duration", -1) != -1:
        horizon = 1_000_000 * whole(globals_["duration"], "the duration", 1)
    return text_of(found, given.processors, horizon, "from rt-app; a unit is a microsecond")


if __name__ == "__main__":
    run(convert, Words(__doc__).with_set())

"""A task set as the program reads it, made of what another tool had. The converters beside this file share it.

Nothing is written where something is wrong: then a line on standard error says what, and the status is 6 (2 where the words are none).
"""
import argparse
import math
import re
import sys

MOST = 2**32 - 1


class Fault(Exception):
    """What a set can't be made of, and why."""


class Words(argparse.ArgumentParser):
    """The words of a converter; faulty ones end it with status 2."""

    def __init__(self, text):
        super().__init__(description=text.split("\n")[0], epilog=text.split("\n", 1)[1], formatter_class=argparse.RawDescriptionHelpFormatter)

    def with_set(self):
        """Takes the two numbers of a set that other tools don't have."""
        self.add_argument("--processors", type=int, help="how many processors there are, from 1 to 32")
        self.add_argument("--horizon", type=int, help="where the schedule ends, in units; else where all periods end together, behind the last offset")
        return self


def whole(text, what, least=0):
    """The whole number that a text is."""
    if not re.fullmatch(r"[0-9]+", str(text).strip(), re.ASCII):
        raise Fault(f"{what} is {text!r}, and no whole number")
    if not least <= int(text) <= MOST:
        raise Fault(f"{what} is {int(text)}, and not from {least} to {MOST}")
    return int(text)


def lawful_names(names):
    """Names that the program takes: other characters become `_`, and a name that is there already gets a number."""
    taken = set()
    for name in names:
        base = re.sub(r"[^A-Za-z0-9_.-]", "_", name)
        base = (base if re.match(r"[A-Za-z_]", base) else "_" + base)[:32]
        lawful, number = base, 1
        while lawful in taken:
            number += 1
            lawful = f"{base[: 32 - len(str(number)) - 1]}_{number}"
        taken.add(lawful)
        yield lawful


def note(text):
    """Tells what was left out."""
    print(f"note: {text}", file=sys.stderr)


def text_of(tasks, processors, horizon, about):
    """The set, of tasks (name, work, period, offset) in units."""
    if processors is None:
        raise Fault("--processors is needed: how many there are stands nowhere else")
    if not 1 <= processors <= 32:
        raise Fault(f"there are {processors} processors, and not from 1 to 32")
    if len(tasks) > 256:
        raise Fault(f"there are {len(tasks)} tasks, and not at most 256")
    for name, work, period, offset in tasks:
        whole(period, f"the period of {name}", 1)
        whole(work, f"the work of {name}", 1)
        whole(offset, f"the offset of {name}")
        if work > period:
            raise Fault(f"the work of {name} is {work}, and its period {period}")
    if horizon is None:
        horizon = math.lcm(*(period for _, _, period, _ in tasks)) + max((offset for *_, offset in tasks), default=0)
        if horizon > MOST:
            raise Fault(f"all periods end together after {horizon} units, which is too far: --horizon says where to end")
    if not 1 <= horizon <= MOST:
        raise Fault(f"the horizon is {horizon}, and not from 1 to {MOST}")
    lines = [f"# {about}", f"processors = {processors}", f"horizon = {horizon}"]
    for name, (_, work, period, offset) in zip(lawful_names([task[0] for task in tasks]), tasks):
        lines += ["", "[[task]]", f'name = "{name}"', f"work = {work}", f"period = {period}"]
        lines += [f"offset = {offset}"] * (offset > 0)
    return "\n".join(lines) + "\n"


def run(convert, words):
    """Converts standard input by the function, and ends."""
    try:
        given = words.parse_args()
        text = convert(sys.stdin.buffer.read().decode(), given)
    except UnicodeDecodeError:
        print(f"{words.prog}: standard input isn't UTF-8", file=sys.stderr)
        sys.exit(6)
    except Fault as fault:
        print(f"{words.prog}: {fault}", file=sys.stderr)
        sys.exit(6)
    except OSError as fault:
        print(f"{words.prog}: standard input can't be read: {fault.strerror}", file=sys.stderr)
        sys.exit(3)
    try:
        sys.stdout.write(text)
        sys.stdout.flush()
    except OSError as fault:
        print(f"{words.prog}: the text can't be written: {fault.strerror}", file=sys.stderr)
        sys.stdout = None
        sys.exit(4)

#!/usr/bin/env python3
"""A task set of a table: from_csv.py --processors 4 < tasks.csv > set.toml

The first line names the columns: name, work and period, and offset if there are any; their order is free. All numbers are whole, in one unit of
your choice. Columns are divided by commas, semicolons or tabs. A line that is empty or begins with # isn't looked at.
"""
import csv

from task_set import Fault, Words, run, text_of, whole

COLUMNS = ["name", "work", "period", "offset"]


def convert(text, given):
    lines = [(number, line) for number, line in enumerate(text.lstrip("\ufeff").splitlines(), 1) if line.strip() and not line.startswith("#")]
    if not lines:
        raise Fault("there is no line with the names of columns")
    divider = max(",;\t", key=lines[0][1].count)
    rows = [[cell.strip() for cell in row] for row in csv.reader((line for _, line in lines), delimiter=divider)]
    head = [cell.lower() for cell in rows[0]]
    if not set(COLUMNS[:3]) <= set(head) <= set(COLUMNS) or len(set(head)) < len(head):
        raise Fault(f"line {lines[0][0]} names the columns {', '.join(head)}, and not name, work, period and perhaps offset")
    tasks = []
    for (number, _), row in zip(lines[1:], rows[1:]):
        if len(row) != len(head):
            raise Fault(f"line {number} has {len(row)} columns, and not {len(head)}")
        cells = dict(zip(head, row))
        if not cells["name"]:
            raise Fault(f"line {number} has no name")
        numbers = [whole(cells.get(column) or "0", f"line {number}: {column}") for column in COLUMNS[1:]]
        tasks.append((cells["name"], *numbers))
    return text_of(tasks, given.processors, given.horizon, "from a table")


if __name__ == "__main__":
    run(convert, Words(__doc__).with_set())

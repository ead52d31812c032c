#!/usr/bin/env python3
"""A picture of the table that sweep.py prints: sweep.py 4 20 | plot.py sweep.svg

The kind of picture goes by the ending of its name: svg, png or pdf. It wants matplotlib (Debian's package python3-matplotlib).
"""
import sys


def table(lines):
    """The rows of the table: the total rate, the preemptions and the migrations of a unit."""
    rows = [[float(word) for word in line.split()] for line in lines[1:]]
    if not rows or any(len(row) != 3 for row in rows):
        raise ValueError
    return rows


def draw(rows, name):
    """Writes the picture to a file of this name."""
    import matplotlib

    matplotlib.use("svg" if name.endswith(".svg") else "agg")
    matplotlib.rcParams.update({"svg.fonttype": "none", "svg.hashsalt": "sweep"})
    from matplotlib import pyplot

    totals, preemptions, migrations = zip(*rows)
    figure, axes = pyplot.subplots(figsize=(7, 4), layout="constrained")
    axes.plot(totals, preemptions, "o-", color="#0072b2", label="preemptions")
    axes.plot(totals, migrations, "s--", color="#d55e00", label="migrations")
    axes.set_xlabel("processors asked for")
    axes.set_ylabel("in each unit of time")
    axes.set_ylim(bottom=0)
    axes.grid(alpha=0.3)
    axes.legend(loc="upper left")
    figure.savefig(name, dpi=150, metadata={"Date": None} if name.endswith(".svg") else None)


def main():
    if len(sys.argv) != 2 or not sys.argv[1].endswith((".svg", ".png", ".pdf")):
        print("sweep.py | plot.py NAME.svg, NAME.png or NAME.pdf", file=sys.stderr)
        return 2
    try:
        rows = table(sys.stdin.read().splitlines())
    except ValueError:
        print("plot.py: standard input is no table of sweep.py", file=sys.stderr)
        return 6
    try:
        draw(rows, sys.argv[1])
    except ImportError:
        print("plot.py: matplotlib is needed, and isn't installed (Debian's package python3-matplotlib)", file=sys.stderr)
        return 127
    except OSError as fault:
        print(f"plot.py: {fault}", file=sys.stderr)
        return 4
    return 0


if __name__ == "__main__":
    sys.exit(main())

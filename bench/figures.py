"""How a benchmark tells its figures, and measures a command.

The line of a figure is its name, two blanks or more, what it is made of, if that is told, and two blanks or more, and then its
value, its unit if it has one, and in parentheses its bound: `at most 1.5`, `at least 0.5` or `no bound`, and `, missed` behind
it where it missed. `figure` prints it, `figures` of bench/begin.sh does so in awk, and bench/all reads it.
"""
import os
import subprocess
import sys

# The names of the figures that missed their bounds.
missed = []


def figure(name, value, bound=None, of="", unit="", least=False):
    """Tells a figure, and notes it where it is above its bound or, of one that has to be reached, below."""
    misses = bound is not None and (value < bound if least else value > bound)
    if misses:
        missed.append(name)
    side = "no bound" if bound is None else f"{'at least' if least else 'at most'} {bound:g}"
    shown = (str(value) if isinstance(value, int) else f"{value:.3f}") + (unit and f" {unit}")
    print(f"{name:62}  {of:>24}  {shown:>9} ({side}{', missed' if misses else ''})", flush=True)


def short(number):
    return f"{number:.4g}" if number < 10_000 else f"{number:.0f}"


def ratio(name, ours, theirs, bound=None, unit="s", least=False):
    """Tells as a figure how much the first is of the second."""
    figure(name, ours / theirs, bound, f"{short(ours)} to {short(theirs)} {unit}", least=least)


def measured(words, output):
    """The processor seconds of a command and its peak memory in KiB, its output in a file; the benchmark ends where it fails."""
    with open(output, "wb") as out:
        child = subprocess.Popen(words, stdout=out)
        _, status, usage = os.wait4(child.pid, 0)
    if status != 0:
        sys.exit(f"{os.environ['BENCH']}: {words[0]} ended with {status}")
    return usage.ru_utime + usage.ru_stime, usage.ru_maxrss

"""Boundary tables: the line at which one is refused, beside a model."""
import re

import bends
import opl
from opl import LAT

MOST = 1_048_576
MOST_LINES = 2**16 + 1
STYLE = b'[[table]]\nname = "t"\nsource = "node"\ngeometry = "point"\n'


BENDS = (*bends.ALL, bends.edge_number, bends.edge_number, lambda _, it: it + b"-900000000\n", lambda _, it: it.rstrip())


class Kind:
    def __init__(self, runs, known):
        self.runs, self.pool = runs, {zoom: known.rows(zoom) for zoom in (0, 1, 2, 3, 4, 8, 12, 16)}

    def trial(self, draw):
        data = self.table(draw)
        (self.runs.room / "rows").write_bytes(data)
        (self.runs.room / "style").write_bytes(STYLE)
        ended = self.runs.ask("replay", "store", "style", "rows", "/dev/null", may=(0, 5, 10))
        line = bad_line(data)
        if len(data) > MOST:
            self.runs.want(ended, 10, f"limit bounds-bytes value {MOST + 1}", b"")
        elif line:
            self.runs.want(ended, 5, f"bad bounds file 3 line {line}", b"")
        else:
            self.runs.want(ended, 0, "", b"version 0\ntable t\ntiles\n")
        return ended.status

    def table(self, draw):
        """A table of a zoom, often a small one; or one of its own."""
        zoom = draw.choice((0, 1, 2, 3, 3, 4, 4, 4, 8, 12, 16))
        data = self.pool[zoom]
        if draw.random() < 0.3:
            count = 2**zoom + draw.choice((1, 1, 1, 1, 0, 2))
            numbers = draw.sample(range(-LAT, LAT + 1), max(count - 2, 0)) + draw.choice(([], [LAT, -LAT]))
            data = "\n".join(map(str, sorted(numbers, reverse=True))).encode() + draw.choice((b"", b"\n"))
        return bends.bent(draw, data, BENDS) if draw.random() < 0.75 else data


def bad_line(data):
    """The line that is told, or None where the table is good."""
    last = LAT + 1
    lines = opl.lines_of(data)
    for number, line in enumerate(lines[:MOST_LINES], 1):
        if not re.fullmatch(b"-?[0-9]{1,10}", line) or not -LAT <= int(line) < last:
            return number
        last = int(line)
    if len(lines) > MOST_LINES:
        return MOST_LINES + 1
    return None if len(lines) - 1 in [2**zoom for zoom in range(17)] else len(lines) + 1

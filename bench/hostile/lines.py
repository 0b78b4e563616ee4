"""OPL files: what `points` and `lines` print of one or two, whether `import` reads one, and its rows, beside the model."""
import json
import pathlib
import re

import bends
import opl

# A file is read by lots of so many bytes, and each lot by pieces of so many, side by side.
LOT, PIECE = 4_194_304, 65_536
# Each node and each way has a row with all its tags.
STYLE = b"""
table = [
  { name = "nodes", source = "node", geometry = "point", column = [{ name = "t", from = "tags" }, { name = "k", from = "tag:k", type = "int" }] },
  { name = "ways", source = "way", geometry = "line", column = [{ name = "t", from = "tags" }, { name = "k", from = "tag:k" }] },
]
"""
CHARACTERS = [
    "a", "B", "7", "_", "-", ".", ":", "/", "é", "ß", "中", "\u0301", "\U0001f600", "\\", "'", '"', "%20%", "%2c%", "%a%", "%9%", "%5c%",
    "%10ffff%", "%1%", "\u2028", "\x7f", "\r", "~", "!", "#",
]
KEYS = ["amenity", "highway", "name", "%61%menity", "a%20%b", "k", "é", ""]


class Kind:
    def __init__(self, runs, known):
        self.runs, self.pool = runs, known.lines("town.opl") + known.lines("town_change.opl") + known.region(400)

    def trial(self, draw):
        """Writes and asks one input: the status with which it ended."""
        files = [self.file(draw, f"in{number}.opl") for number in range(draw.choice((1, 1, 1, 2)))]
        key = draw.choice(("amenity", "highway", "name", "k", "é", "a b"))
        paths = [path.name for path, _ in files]
        read, status, line = [], 0, ""
        for number, (_, data) in enumerate(files):
            try:
                read.append(opl.entries(data))
            except opl.Refused as refused:
                status, line, bad = 3, f"malformed file {number + 2} {refused}", number
                break
        objects = {} if status else opl.folded(read)
        for command, text in (("points", opl.points), ("lines", opl.lines)):
            ended = self.runs.ask(command, key, *paths)
            self.runs.want(ended, status, line, b"" if status else text(objects, key))
        if draw.random() < 0.3:
            self.imported(files[0][0].name, status and bad == 0 and line.replace("file 2", "file 5", 1), read[:1])
        return status

    def imported(self, name, line, read):
        """The first of the files is imported or refused for the same line."""
        (self.runs.room / "style").write_bytes(STYLE)
        self.runs.ask("init", "store", may=(0,))
        ended = self.runs.ask("import", "buckets=2", "workers=2", "store", "style", name)
        self.runs.want(ended, 3 if line else 0, line or "", b"" if line else b"version 0\n")
        if not line:
            objects = opl.folded(read)
            for table, rows in (("nodes", node_rows), ("ways", way_rows)):
                self.runs.want(self.runs.ask("export", "store", table, may=(0,)), 0, "", rows(objects))

    def file(self, draw, name):
        path = pathlib.Path(self.runs.room) / name
        if draw.random() < 0.05:
            data = large(draw)
            path.write_bytes(data)
            return path, data
        lines = self.chosen(draw)
        data = b"\n".join(lines) + draw.choice((b"", b"\n", b"\n", b"\n"))
        # A change concerns one line or a few, so that the rest of the file is looked at too.
        if lines and draw.random() < 0.85:
            data = bends.bent(draw, data)
        path.write_bytes(data)
        return path, data

    def chosen(self, draw):
        """Lines in their order: real ones, and made ones between them."""
        found = {}
        for line in draw.sample(self.pool, draw.randrange(1, 12)) + [made(draw) for _ in range(draw.randrange(6))]:
            try:
                found[opl.entry_of(line).key] = line
            except opl.Bad:
                found[(draw.randrange(3), draw.randrange(1, 100))] = line
        lines = [found[key] for key in sorted(found)]
        for _ in range(draw.randrange(3)):
            lines.insert(draw.randrange(len(lines) + 1), draw.choice((b"", b"# remark", b"c12 k3", b"#\xff\0", b"c")))
        return lines


def large(draw):
    """A file of several pieces, seldom of several lots, whose lines are of all lengths, with a change near where a piece begins."""
    wanted = LOT * draw.choice((1, 2)) + draw.randrange(LOT) if draw.random() < 0.1 else draw.randrange(PIECE, 5 * PIECE)
    lines, size, at = [], 0, 0
    while size < wanted:
        at += draw.choice((1, 1, 2))
        long = b"k=" + b"x" * draw.choice((1, 10, 3_000, 70_000 if wanted < LOT else 200))
        tags = draw.choice((b"", b"amenity=cafe,name=a%20%b", b"highway=street_lamp", long))
        line = b"n%d v1 dV T%s x13.%d y52.5\n" % (at, tags, at)
        lines.append(line if draw.random() < 0.98 else draw.choice((b"\n", b"# remark\n", b"n%d dD\n" % at)))
        size += len(lines[-1])
    lines.append(b"w1 Thighway=path N%s\n" % b",".join(b"n%d" % draw.randrange(1, at + 1) for _ in range(draw.choice((2, 20_000)))))
    data = b"".join(lines)
    if draw.random() < 0.7:
        border = PIECE * draw.randrange(1, len(data) // PIECE + 1)
        border = draw.choice((border, LOT * (border // LOT or 1), len(data)))
        low, high = max(0, border - draw.choice((3, 100, 400))), border + draw.choice((0, 3, 100))
        data = data[:low] + bends.bent(draw, data[low:high]) + data[high:]
    return data[: -1 if draw.random() < 0.3 else None]


def cells(entry, geometry, number):
    """The line of a row: all tags, and what the key k has."""
    tags = json.dumps(dict(sorted(entry.tags.items())), ensure_ascii=False, separators=(",", ":"))
    value = entry.tags.get("k")
    if value is not None and number:
        value = str(int(value)) if re.fullmatch("-?[0-9]{1,18}", value) else None
    told = "\\N" if value is None else value.translate(opl.ESCAPES)
    return f"{entry.key[1]}\t{tags.translate(opl.ESCAPES)}\t{told}\t{geometry}\n"


def node_rows(objects):
    return "".join(cells(it, f"POINT({opl.point(it.place)})", True) for it in objects.values() if it.key[0] == 0 and it.place).encode()


def way_rows(objects):
    found = ((it, opl.line_of(it, objects)) for it in objects.values() if it.key[0] == 1)
    return "".join(cells(it, line, False) for it, line in found if line).encode()


def made(draw):
    """A line of the grammar, with what is allowed and seldom."""
    kind = draw.choice("nwr")
    letters = draw.sample(opl.FIELDS[kind], draw.randrange(len(opl.FIELDS[kind]) + 1))
    fields = [f"{letter}{value(draw, letter)}" for letter in letters]
    if kind == "n" and ("x" in (it[0] for it in fields)) != ("y" in (it[0] for it in fields)):
        fields = [it for it in fields if it[0] not in "xy"]
    if kind == "n" and draw.random() < 0.7:
        fields = [it for it in fields if it[0] not in "xy"] + [f"x{coordinate(draw, 180)}", f"y{coordinate(draw, 90)}"]
    blank = draw.choice((" ", " ", " ", "  ", "\t", " \t "))
    return (draw.choice(("", "", "", " ")) + blank.join([f"{kind}{identifier(draw)}", *fields]) + draw.choice(("", "", " "))).encode()


def identifier(draw):
    small = str(draw.randrange(1, 60))
    return draw.choice((small, small, "9223372036854775807", "0" * 18 + "7", str(draw.randrange(1, 2**63))))


def coordinate(draw, most):
    whole = draw.randrange(-most, most)
    part = "".join(draw.choice("0123456789") for _ in range(draw.choice((0, 1, 6, 7, 7, 8, 9, 17))))
    with_part = f"{whole}.{part}" if part else str(whole)
    return draw.choice((str(whole), with_part, "-0", f"-0.{part or 0}", f"{most}", f"-{most}.0", f"{most}.00000004"))


def number(draw):
    return draw.choice(("0", "-0", "007", "-12", "9" * 18, "-" + "9" * 18, "9" * 19, "1.5", "+1", "-", ""))


def text(draw):
    return "".join(draw.choice(CHARACTERS) for _ in range(draw.choice((0, 1, 2, 5, 20))))


def value(draw, letter):
    if letter in "vci":
        return draw.choice(("", "1", "-5", "0" * 19, "9" * 19))
    if letter == "t":
        return draw.choice(("", "2024-05-01T10:00:00Z", "9999-99-99T99:99:99Z"))
    if letter == "d":
        return draw.choice("VVVD")
    if letter == "u":
        return text(draw)
    if letter == "T":
        keys = draw.sample(KEYS, draw.randrange(5))
        return ",".join(f"{key}={number(draw) if key == 'k' and draw.random() < 0.5 else text(draw)}" for key in keys)
    if letter in "xy":
        return draw.choice(("", coordinate(draw, 180 if letter == "x" else 90)))
    if letter == "N":
        return ",".join(f"n{identifier(draw)}{draw.choice(('', '', 'xy', 'x1.5y2', 'x-180y90.0'))}" for _ in range(draw.randrange(6)))
    return ",".join(f"{draw.choice('nwr')}{identifier(draw)}@{text(draw)}" for _ in range(draw.randrange(5)))

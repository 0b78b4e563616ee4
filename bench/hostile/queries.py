"""Files of queries: which is refused at which line, and counts, rows and boxes, beside the rows that `export` prints."""
import random
import re

import bends
import opl

MOST = 1_048_576
# The side of a cell of the grid by which a served reader finds rows.
CELL = 4_194_304
TABLES = ("cafes", "roads", "areas")
KINDS = {"cafes": "n", "roads": "w", "areas": "wr"}


class Bad(Exception):
    """A line is no query by this cause."""


class Place:
    """A store, whose bytes are kept for each input, and its rows with their boxes."""

    def __init__(self, runs, style, lines):
        (runs.room / "map.opl").write_bytes(b"".join(line + b"\n" for line in lines))
        (runs.room / "style").write_bytes(style)
        (runs.room / "store").unlink(missing_ok=True)
        runs.ask("init", "store", may=(0,))
        runs.ask("import", "buckets=16", "store", "style", "map.opl", may=(0,), seconds=60)
        self.rows = {table: runs.ask("export", "store", table, may=(0,)).out.splitlines(True) for table in TABLES}
        self.boxes = {table: [box(row) for row in rows] for table, rows in self.rows.items()}
        self.store = (runs.room / "store").read_bytes()


def world(draw):
    """Lines of a map whose objects stand anywhere, many of them where the cells of a grid meet."""
    def side(most):
        where_cells_meet = CELL * draw.randrange(2 * most // CELL + 1) - most + draw.choice((-1, 0, 0, 1))
        return max(-most, min(most, draw.choice((-most, most, 0, draw.randrange(-most, most + 1), where_cells_meet))))

    places = [(side(opl.LON), side(opl.LAT)) for _ in range(300)]
    nodes = [f"n{at} Tamenity=cafe,name={at} x{opl.degrees(lon)} y{opl.degrees(lat)}" for at, (lon, lat) in enumerate(places, 1)]
    near = lambda: draw.choice((draw.randrange(1, 301), draw.randrange(1, 301), 1))
    ways = [f"w{at} Thighway=road Nn{near()},n{near()}" for at in range(1, 60)]
    rings = [(at, near(), near(), near()) for at in range(60, 100)]
    areas = [f"w{at} Tlanduse=grass Nn{a},n{b},n{c},n{a}" for at, a, b, c in rings]
    return [line.encode() for line in [*nodes, *ways, *areas]]


class Kind:
    def __init__(self, runs, known):
        """A town, and a map of the whole world."""
        self.runs, self.bounds, style = runs, known.rows(1), known.styles()[0]
        self.places = [Place(runs, style, known.town()), Place(runs, style, world(random.Random(1)))]

    def trial(self, draw):
        self.place = draw.choice(self.places)
        self.rows, self.boxes = self.place.rows, self.place.boxes
        (self.runs.room / "store").write_bytes(self.place.store)
        (self.runs.room / "rows").write_bytes(self.bounds)
        data = self.queries(draw)
        (self.runs.room / "asked").write_bytes(data)
        status, line, out = self.wanted(data)
        self.runs.want(self.runs.ask("query", "store", "asked", may=(0, 10, 12)), status, line, out)
        if draw.random() < 0.3:
            # A reader that is served looks for the rows in a grid.
            out = b"" if status else b"reader 1 round 1\n" + out
            ended = self.runs.ask("serve", "readers=1", "store", "rows", "asked", may=(0, 10, 12))
            self.runs.want(ended, status, line.replace("file 2", "file 4"), out)
        return status

    def wanted(self, data):
        """The status, the line and the output for a file of queries."""
        out = b""
        if len(data) > MOST:
            return 10, f"limit query-bytes value {MOST + 1}", b""
        for number, line in enumerate(opl.lines_of(data), 1):
            try:
                out += self.answer(line)
            except Bad as bad:
                return 12, f"bad query file 2 line {number} cause {bad}", b""
        return 0, "", out

    def queries(self, draw):
        lines = [self.query(draw).encode() for _ in range(draw.choice((0, 1, 1, 2, 3, 5, 20)))]
        data = b"\n".join(lines) + draw.choice((b"", b"\n", b"\n"))
        return bends.bent(draw, data) if draw.random() < 0.6 else data

    def query(self, draw):
        table = draw.choice(TABLES)
        form = draw.choice(("count", "row", "row", "box", "box", "box"))
        if form == "count":
            return f"count {table}"
        row = draw.choice(self.rows[table]).decode() if self.rows[table] else "1\t"
        if form == "row":
            number = int(row.split("\t")[0])
            kind = "r" if number < 0 else KINDS[table][0]
            of = abs(number) if draw.random() < 0.8 else draw.randrange(1, 10**9)
            return f"row {table} {kind if draw.random() < 0.8 else draw.choice('nwr')} {of}"
        west, south, east, north = (0, 0, 0, 0) if row == "1\t" else box(row.encode())
        sides = [draw.choice((-1, 0, 0, 1, 100, 100_000, 10_000_000)) for _ in range(4)]
        asked = [west - sides[0], south - sides[1], east + sides[2], north + sides[3]]
        # A box that only touches the row's, or just misses it.
        if draw.random() < 0.5:
            beside = [east, south, east + 5, north], [east + 1, south, east + 5, north]
            asked = draw.choice((*beside, [west, north, east, north + 9], [west - 9, south - 9, west, south]))
        if draw.random() < 0.3:
            asked = sorted(self.side(draw, opl.LON) for _ in range(2)) + sorted(self.side(draw, opl.LAT) for _ in range(2))
            asked[1], asked[2] = asked[2], asked[1]
        return f"box {table} {' '.join(map(opl.degrees, asked))}"

    def side(self, draw, most):
        """A side of a box anywhere, often where cells meet."""
        where_cells_meet = CELL * draw.randrange(2 * most // CELL + 1) - most + draw.choice((-1, 0, 1))
        return draw.choice((-most, most, draw.randrange(-most, most), where_cells_meet))

    # --- The model

    def answer(self, line):
        try:
            words = line.decode("utf-8").split(" ")
        except UnicodeDecodeError:
            raise Bad(1) from None
        count = {"count": 2, "row": 4, "box": 6}.get(words[0])
        if len(words) != count or "" in words or words[0] == "row" and words[2] not in ("n", "w", "r"):
            raise Bad(1)
        if words[1] not in TABLES:
            raise Bad(2)
        rows = self.rows[words[1]]
        if words[0] == "count":
            return f"version 0 count {len(rows)}\n".encode()
        found = self.row(words, rows) if words[0] == "row" else self.box(words, rows)
        return f"version 0 rows {len(found)}\n".encode() + b"".join(found)

    def row(self, words, rows):
        try:
            number = opl.identifier(words[3])
        except opl.Bad:
            raise Bad(3) from None
        if words[2] not in KINDS[words[1]]:
            return []
        number = -number if words[2] == "r" else number
        return [row for row in rows if row.startswith(b"%d\t" % number)]

    def box(self, words, rows):
        try:
            west, south, east, north = (opl.units(word, most) for word, most in zip(words[2:], (opl.LON, opl.LAT) * 2))
        except opl.Bad:
            raise Bad(3) from None
        if west > east or south > north:
            raise Bad(4)
        boxes = self.boxes[words[1]]
        return [row for row, (w, s, e, n) in zip(rows, boxes) if w <= east and west <= e and s <= north and south <= n]


def box(row):
    """The least and the greatest longitude and latitude of the places of a row."""
    geometry = row.decode().rstrip("\n").rpartition("\t")[2]
    numbers = [it.split(" ") for it in re.findall(r"-?[0-9.]+ -?[0-9.]+", geometry)]
    lons, lats = [opl.units(lon, opl.LON) for lon, _ in numbers], [opl.units(lat, opl.LAT) for _, lat in numbers]
    return min(lons), min(lats), max(lons), max(lats)

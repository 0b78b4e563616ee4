"""Reads a feed, block by block, and the rows in it as the text that `export` gives for COPY.

The form of a feed is that of docs/STANDARDS.md, "Feeds", and the bytes of rows are those of docs/FILES.md, "Buckets, and the eight
maps". A block is given as soon as its line `end` is there: no line behind it is waited for.
"""

import re
import struct

FORM, NUMBER, HEX, ROW, ORDER, END = range(1, 7)
CAUSES = {
    FORM: "the line has no form that may stand there",
    NUMBER: "a number is not in its form or out of its range",
    HEX: "the bytes are not 2 to 1,048,576 digits, two for each",
    ROW: "the bytes are no row of that table of the style",
    ORDER: "the row does not come behind the one before it",
    END: "the feed ends within a block",
}
NO_STYLE = "the bytes are no style"
# The most bytes of a line and the most digits of its bytes, and the greatest numbers of a version, an id and a table.
MOST_LINE, MOST_DIGITS = 4_194_304, 1_048_576
LAST, LAST_TABLE = 9_223_372_036_854_775_807, 255
# Which lines may stand in a place, and how many words each has.
BETWEEN, OPENED, FULL, DELTA, BEGUN = range(5)
MAY_STAND = {BETWEEN: (b"full", b"delta"), OPENED: (b"style",), FULL: (b"set", b"end"), DELTA: (b"set", b"del", b"end"), BEGUN: (b"more",)}
WORDS = {b"full": 2, b"delta": 2, b"style": 2, b"set": 5, b"del": 4, b"more": 2, b"end": 1}
KINDS = {b"n": 0, b"w": 1, b"r": 2}
RELATION = KINDS[b"r"]
NUMERAL, DIGITS = re.compile(rb"0|[1-9][0-9]{0,18}"), re.compile(rb"(?:[0-9a-f]{2})+")
# So many bytes of a table's rows stay in memory.
IN_MEMORY = 1 << 24
# Numbers in the bytes of rows, and the ends of the earth in units of 1e-7 degree.
COUNT, SIGNED, UNITS = struct.Struct("<Q"), struct.Struct("<q"), 10_000_000
EAST, NORTH = 180 * UNITS, 90 * UNITS
ESCAPES = str.maketrans({8: "\\b", 9: "\\t", 10: "\\n", 11: "\\v", 12: "\\f", 13: "\\r", 92: "\\\\"})
NAMES = {2: "LINESTRING", 3: "MULTILINESTRING", 4: "MULTIPOLYGON"}


class Bad(Exception):
    """A line that is not good, with its number and its cause."""

    def __init__(self, line, cause, what=None):
        super().__init__(f"bad feed line {line} cause {cause}: {what or CAUSES[cause]}")


class Refused(Exception):
    """A line that is too long to be read, or one that PostgreSQL can't take."""


# --- The text of a row


def row_text(data, columns):
    """The cells of a row, so many, and its geometry. Bytes that are no row end in a ValueError, an IndexError or a struct.error."""
    cells, at = [], 0
    for _ in range(columns):
        form, at = data[at], at + 1
        if form == 0:
            cells.append("\\N")
        elif form == 1:
            end = at + 8 + COUNT.unpack_from(data, at)[0]
            text, at = whole(data, at + 8, end).decode(), end
            cells.append(text.translate(ESCAPES))
        elif form == 2:
            cells.append(str(SIGNED.unpack_from(data, at)[0]))
            at += 8
        else:
            raise ValueError
    geometry, at = geometry_text(data, at)
    if at != len(data):
        raise ValueError
    return cells, geometry


def whole(data, at, end):
    """The bytes from one place to another, where there are so many."""
    if end > len(data):
        raise ValueError
    return data[at:end]


def geometry_text(data, at):
    """The geometry at a place as well-known text, and the place behind it."""
    form, at = data[at], at + 1
    if form == 1:
        places, at = places_text(data, at, 1)
        return f"POINT({places})", at
    text, at = listed(data, at, form - 1 if form in NAMES else 0)
    return NAMES[form] + text, at


def listed(data, at, depth):
    """A list in brackets, with lists in it that are one less deep, down to places."""
    (count,) = COUNT.unpack_from(data, at)
    at += 8
    if depth == 1:
        text, at = places_text(data, at, count)
        return f"({text})", at
    if depth == 0 or 8 * count > len(data) - at:
        raise ValueError
    parts = []
    for _ in range(count):
        text, at = listed(data, at, depth - 1)
        parts.append(text)
    return f"({','.join(parts)})", at


def places_text(data, at, count):
    """So many places, and the place in the bytes behind them."""
    end = at + 8 * count
    numbers = struct.unpack(f"<{2 * count}i", whole(data, at, end))
    lons, lats = numbers[::2], numbers[1::2]
    if count and (max(lons) > EAST or min(lons) < -EAST or max(lats) > NORTH or min(lats) < -NORTH):
        raise ValueError
    return ",".join([f"{degrees(lon)} {degrees(lat)}" for lon, lat in zip(lons, lats)]), end


def degrees(units):
    whole_part, rest = divmod(abs(units), UNITS)
    text = f"{whole_part}.{rest:07}".rstrip("0") if rest else str(whole_part)
    return f"-{text}" if units < 0 else text


# --- Blocks


class Changed:
    """What a block says of a table: the numbers of the rows that it names, and the lines of those that it sets."""

    def __init__(self):
        self.ids, self.lines, self.size, self.file = [], [], 0, None

    def set(self, number, cells, geometry):
        # COPY takes a place on the earth into a table's own column by its system.
        line = "\t".join([str(number), *cells, f"SRID=4326;{geometry}\n"]).encode()
        self.lines.append(line)
        self.size += len(line)
        if self.size > IN_MEMORY:
            self.put_aside()

    def put_aside(self):
        """The lines so far go to a file."""
        import tempfile

        self.file = self.file or tempfile.TemporaryFile()
        self.file.writelines(self.lines)
        self.lines, self.size = [], 0

    def has_lines(self):
        return bool(self.lines or self.file)

    def pieces(self):
        """All lines, in pieces."""
        if self.file:
            self.file.seek(0)
            while piece := self.file.read(1 << 20):
                yield piece
        yield from self.lines


class Block:
    """A block: its version, the bytes of its style where it is a full one, and what it says of each table that it names."""

    def __init__(self, version, style):
        self.version, self.style, self.tables = version, style, {}

    def table(self, number):
        return self.tables.get(number) or self.tables.setdefault(number, Changed())


class Reader:
    """The blocks of a feed under the tables of a style."""

    def __init__(self, file, tables):
        self.file, self.number, self.ahead = file, 0, None
        self.columns = [len(table.get("column", [])) for table in tables]
        self.is_area = [table["geometry"] == "polygon" for table in tables]

    def bad(self, cause, what=None):
        return Bad(self.number, cause, what)

    def look(self):
        """The next line, which stays the next one; nothing behind the last."""
        if self.ahead is None:
            self.ahead = self.file.readline(MOST_LINE + 2)
        return self.ahead

    def line(self, place):
        """The words of the next line, in a place. `None`: there is none."""
        line = self.look()
        if not line:
            return None
        self.ahead, self.number = None, self.number + 1
        line = line.removesuffix(b"\n")
        if len(line) > MOST_LINE:
            raise Refused(f"feed line {self.number}: it has more than {MOST_LINE:,} bytes")
        words = line.split(b" ")
        if words[0] not in MAY_STAND[place] or len(words) != WORDS[words[0]] or b"" in words:
            raise self.bad(FORM)
        if len(words) > 3 and words[2] not in KINDS:
            raise self.bad(FORM)
        return words

    def within(self, place):
        """The words of the next line within a block."""
        words = self.line(place)
        if words is None:
            raise Bad(self.number + 1, END)
        return words

    def count(self, word, least, most):
        if not NUMERAL.fullmatch(word) or not least <= int(word) <= most:
            raise self.bad(NUMBER)
        return int(word)

    def data(self, word):
        if len(word) > MOST_DIGITS or not DIGITS.fullmatch(word):
            raise self.bad(HEX)
        return bytes.fromhex(word.decode())

    def goes_on(self, word):
        """Whether the bytes go on in the next line. None is looked at but behind a line that has the most digits."""
        return len(word) == MOST_DIGITS and re.match(rb"more(?=[ \n]|\Z)", self.look())

    def behind(self, word, data):
        """The bytes that began with these, with those of the lines `more` behind them."""
        parts = [data]
        while self.goes_on(word):
            word = self.within(BEGUN)[1]
            parts.append(self.data(word))
        return b"".join(parts)

    def next(self, style_of):
        """The next block, or None at the end. `style_of` takes the bytes of a style, and ends in a ValueError where they are none."""
        words = self.line(BETWEEN)
        if words is None:
            return None
        version, style = self.count(words[1], 0, LAST), None
        is_full = words[0] == b"full"
        if is_full:
            word = self.within(OPENED)[1]
            style = self.behind(word, self.data(word))
            try:
                style_of(style)
            except ValueError:
                raise self.bad(ROW, NO_STYLE) from None
        block = Block(version, style)
        self.rows(block, FULL if is_full else DELTA)
        return block

    def rows(self, block, place):
        """Takes the lines of a block up to its end."""
        last = -1, 0, 0
        while (words := self.within(place))[0] != b"end":
            table, key = self.count(words[1], 0, LAST_TABLE), self.count(words[3], 1, LAST)
            spot = table, KINDS[words[2]], key
            if words[0] == b"set":
                row = self.row(words[4], spot, last)
            elif spot <= last:
                raise self.bad(ORDER)
            last = spot
            if table >= len(self.columns):
                continue
            changed = block.table(table)
            number = -key if self.is_area[table] and spot[1] == RELATION else key
            if place == DELTA:
                changed.ids.append(number)
            if words[0] == b"set":
                changed.set(number, *row)

    def row(self, word, spot, last):
        """The row of a line `set` and of those that carry it on."""
        data, table = self.data(word), spot[0]
        if self.goes_on(word):
            if spot <= last:
                raise self.bad(ORDER)
            data = self.behind(word, data)
        try:
            row = row_text(data, self.columns[table])
        except (ValueError, IndexError, KeyError, struct.error, OverflowError):
            raise self.bad(ROW) from None
        if spot <= last:
            raise self.bad(ORDER)
        if any("\0" in cell for cell in row[0]):
            raise Refused(f"feed line {self.number}: it has a character zero, which PostgreSQL does not take")
        return row

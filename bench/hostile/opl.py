"""A model of OPL files, by the grammar of the lines alone: which file is read, at which line another is refused, and what
`points` and `lines` print of what is read.
"""
import re

LAST_ID = 2**63 - 1
LON, LAT = 1_800_000_000, 900_000_000
FIELDS = {"n": "vdctiuTxy", "w": "vdctiuTN", "r": "vdctiuTM"}
ORDER = "nwr"
# What a text may not have as it is.
SPECIAL = re.compile("[ \t\n,=@%\0]")
ESCAPE = re.compile("%([0-9a-fA-F]{1,6})%")
TIME = re.compile(r"[0-9]{4}-[0-9]{2}-[0-9]{2}T[0-9]{2}:[0-9]{2}:[0-9]{2}Z")


class Bad(Exception):
    """A line is refused by this cause."""

    def __init__(self, cause, keys=""):
        super().__init__(cause)
        self.cause, self.keys = cause, keys


class Refused(Exception):
    """A file is refused: the line, the cause and, of an order that is wrong, both keys, as they are told."""

    def __init__(self, line, bad):
        super().__init__(f"line {line} cause {bad.cause}{bad.keys}")


class Entry:
    """What a line says: a key, and an object or that there is none."""

    def __init__(self, key, tags=None, place=None, refs=(), is_there=True):
        self.key, self.tags, self.place, self.refs, self.is_there = key, tags or {}, place, refs, is_there


def lines_of(data):
    """The lines of a file: a last one without a newline counts where it has a byte."""
    lines = data.split(b"\n")
    return lines if lines[-1] else lines[:-1]


def entries(data):
    """The entries of a file in their order."""
    found, last = [], None
    for number, line in enumerate(lines_of(data), 1):
        if not line or line[:1] in b"#c":
            continue
        try:
            entry = entry_of(line)
            if last is not None and entry.key <= last:
                raise Bad(13, f" {spelled(last)} {spelled(entry.key)}")
        except Bad as bad:
            raise Refused(number, bad) from None
        last = entry.key
        found.append(entry)
    return found


def spelled(key):
    return f"{ORDER[key[0]]}{key[1]}"


def entry_of(line):
    try:
        text = line.decode("utf-8")
    except UnicodeDecodeError:
        raise Bad(1) from None
    fields = [it for it in re.split("[ \t]", text) if it]
    if not fields or fields[0][0] not in FIELDS:
        raise Bad(2)
    kind = fields[0][0]
    key = ORDER.index(kind), identifier(fields[0][1:])
    seen = {}
    for field in fields[1:]:
        letter, value = field[0], field[1:]
        if letter not in FIELDS[kind]:
            raise Bad(4)
        if letter in seen:
            raise Bad(5)
        seen[letter] = VALUES[letter](value)
    lon, lat = seen.get("x"), seen.get("y")
    if (lon is None) != (lat is None):
        raise Bad(12)
    if seen.get("d") == "D":
        return Entry(key, is_there=False)
    return Entry(key, seen.get("T"), None if lon is None else (lon, lat), seen.get("N") or seen.get("M") or ())


# --- Values


def identifier(digits):
    if not re.fullmatch("[0-9]{1,19}", digits) or not 1 <= int(digits) <= LAST_ID:
        raise Bad(3)
    return int(digits)


def visible(value):
    if value not in ("V", "D"):
        raise Bad(4)
    return value


def number(value):
    if value and not re.fullmatch("-?[0-9]{1,19}", value):
        raise Bad(6)


def time(value):
    if value and not TIME.fullmatch(value):
        raise Bad(6)


def text(value):
    """A text with its escapes resolved."""
    made, at = [], 0
    for escape in ESCAPE.finditer(value):
        # Where a sign of an escape is the end of none the text is refused, whichever ends are taken.
        made += [value[at : escape.start()], scalar(escape[1])]
        if SPECIAL.search(made[-2]):
            raise Bad(8)
        at = escape.end()
    if SPECIAL.search(value[at:]):
        raise Bad(8)
    return "".join([*made, value[at:]])


def scalar(digits):
    code = int(digits, 16)
    if code == 0 or 0xD800 <= code < 0xE000 or code > 0x10FFFF:
        raise Bad(8)
    return chr(code)


def tags(value):
    found = {}
    for piece in value.split(",") if value else []:
        if "=" not in piece:
            raise Bad(9)
        key, _, rest = piece.partition("=")
        key, rest = text(key), text(rest)
        if key in found:
            raise Bad(10)
        found[key] = rest
    return found


def units(value, most):
    """A coordinate in units of 1e-7 degree."""
    if not re.fullmatch(r"-?[0-9]+(\.[0-9]+)?", value) or len(re.sub("[-.]", "", value)) > 20:
        raise Bad(6)
    whole, _, part = value.lstrip("-").partition(".")
    size = int(whole) * 10**7 + int(part[:7].ljust(7, "0")) + (part[7:8] >= "5")
    if size > most:
        raise Bad(7)
    return -size if value.startswith("-") else size


def coordinate(most):
    return lambda value: units(value, most) if value else None


def with_id(piece):
    """The id that a piece begins with, and what is behind it."""
    digits = re.match("[0-9]*", piece)[0]
    return identifier(digits), piece[len(digits) :]


def node_ref(piece):
    if not piece.startswith("n"):
        raise Bad(11)
    ref, rest = with_id(piece[1:])
    if not rest:
        return ref
    if not rest.startswith("x"):
        raise Bad(11)
    lon, sign, lat = rest[1:].partition("y")
    if not sign or bool(lon) != bool(lat):
        raise Bad(12)
    if lon:
        units(lon, LON), units(lat, LAT)
    return ref


def member(piece):
    if piece[:1] not in tuple(ORDER):
        raise Bad(11)
    ref, rest = with_id(piece[1:])
    if not rest.startswith("@"):
        raise Bad(11)
    return ORDER.index(piece[0]), ref, text(rest[1:])


def pieces(of):
    return lambda value: [of(piece) for piece in value.split(",")] if value else []


VALUES = {
    "v": number, "c": number, "i": number, "t": time, "d": visible, "u": text, "T": tags,
    "x": coordinate(LON), "y": coordinate(LAT), "N": pieces(node_ref), "M": pieces(member),
}


# --- What is made of entries


def folded(files):
    """The objects that are there behind all entries of some files, by their keys: the last entry of a key counts."""
    found = {}
    for entry in (it for file in files for it in file):
        found[entry.key] = entry
    return {key: entry for key, entry in sorted(found.items()) if entry.is_there}


def degrees(of):
    whole, part = divmod(abs(of), 10**7)
    return f"{'-' if of < 0 else ''}{whole}" + (f".{part:07}".rstrip("0") if part else "")


def point(place):
    return f"{degrees(place[0])} {degrees(place[1])}"


ESCAPES = str.maketrans({"\b": "\\b", "\f": "\\f", "\n": "\\n", "\r": "\\r", "\t": "\\t", "\v": "\\v", "\\": "\\\\"})


def points(objects, key):
    """The text that `points` prints."""
    rows = (it for it in objects.values() if it.key[0] == 0 and key in it.tags and it.place)
    return "".join(f"{it.key[1]}\t{it.tags[key].translate(ESCAPES)}\tPOINT({point(it.place)})\n" for it in rows).encode()


def line_of(way, objects):
    """The geometry of a way; None where it has no two places."""
    places = [objects[0, ref].place for ref in way.refs if (0, ref) in objects and objects[0, ref].place]
    places = [place for at, place in enumerate(places) if at == 0 or place != places[at - 1]]
    return f"LINESTRING({','.join(map(point, places))})" if len(places) > 1 else None


def lines(objects, key):
    """The text that `lines` prints."""
    ways = ((it, line_of(it, objects)) for it in objects.values() if it.key[0] == 1 and key in it.tags)
    return "".join(f"{it.key[1]}\t{it.tags[key].translate(ESCAPES)}\t{line}\n" for it, line in ways if line).encode()

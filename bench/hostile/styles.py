"""Styles: whether one is read, and the names of its tables, beside a model over Python's reader of TOML."""
import re
import tomllib

import bends
from runs import Finding

MOST = 1_048_576
# A value or a key that is nested deeper than 80 is no document to the program.
DEEP = 78
# A line with more points or brackets is not given to Python's reader.
MANY = 200
GEOMETRY = {"node": "point", "way": "line", "area": "polygon", "relation": "lines"}
NEEDED = {"select": ("name", "where", "take"), "table": ("name", "source", "geometry"), "column": ("name", "from")}
ALLOWED = {
    "top": ("select", "table"), "select": NEEDED["select"], "table": (*NEEDED["table"], "where", "any", "expire", "column"),
    "column": (*NEEDED["column"], "type"),
}
# Texts, values and lines that may be put anywhere.
TEXTS = [
    "node", "way", "area", "relation", "point", "line", "polygon", "lines", "full-area", "boundary-only", "text", "int", "tags",
    "tag:name", "tag:", "selected:bus", "selected:tram", "selected:", "!name", "!", "a=b=c", "=x", "!a=b", "a!=b", "!=", "a=", "",
    "name", "Roads", "a-b", "a" * 63, "a" * 64, "é", "\\u0000", "\\u00e9", "\\n", "roads", "cafes", "bus", "type=route", "0", "_",
]
VALUES = [
    "1", "1.5", "true", "[]", "{}", "[[]]", "[1]", '["a", 1]', '[{name = "x"}]', "1979-05-27", "inf", "0x10",
    "9223372036854775808", "-9223372036854775808", '"""a\nb"""', "'a'", '["highway"]', '[["highway"]]', '{name = "x", from = "tags"}',
    '[{name = "x", from = "tags"}, {name = "y", from = "tag:y", type = "int"}]',
]
LINES = [
    "[[table]]", "[[select]]", "[[table.column]]", "[table]", "[select]", "[x]", "layer = 1", 'name = "x"', 'source = "way"',
    'geometry = "line"', 'expire = "full-area"', 'expire = "boundary-only"', "where = []", "any = []", 'any = ["a", "b=c"]',
    'where = ["selected:bus"]', 'from = "selected:bus"', 'from = "tags"', 'type = "int"', 'type = "text"', 'take = "ref"',
    "table = []", "select = []", "# remark", "name.first = 1", '"name" = "y"', "column = []",
]


class Unsure(Exception):
    """Python's reader and the program's may differ about such a document."""


class Bad(Exception):
    def __init__(self, cause, part):
        super().__init__(f"cause {cause} part {part}")


class Kind:
    def __init__(self, runs, known):
        self.runs, self.rows, self.pool = runs, known.rows(2), known.styles()

    def trial(self, draw):
        data = self.style(draw)
        (self.runs.room / "style").write_bytes(data)
        (self.runs.room / "rows").write_bytes(self.rows)
        ended = self.runs.ask("replay", "store", "style", "rows", "/dev/null", may=(0, 4, 10))
        if len(data) > MOST:
            self.runs.want(ended, 10, f"limit style-bytes value {MOST + 1}", b"")
            return 10
        if ended.status == 10:
            raise Finding(f"`{ended.line}` for {len(data)} bytes", ended.words)
        try:
            names = tables(data)
            told = "".join(f"table {name}\n" for name in names)
            self.runs.want(ended, 0, "", f"version 0\n{told}tiles\n".encode())
        except Bad as bad:
            self.runs.want(ended, 4, f"bad style file 2 {bad}", b"")
        except Unsure:
            if ended.told() != (4, "bad style file 2 cause 1 part top"):
                return f"not judged, with status {ended.status}"
        return ended.status

    def style(self, draw):
        chosen = draw.choice((1, 1, 1, 2, 3))
        data = b"\n".join(draw.sample(self.pool, chosen))
        if draw.random() < 0.08:
            return nested(draw, data)
        if draw.random() < 0.03:
            return many(draw)
        for _ in range(draw.choice((0, 1, 1, 1, 1, 2, 3))):
            hows = other_text, other_text, other_value, line_put, line_put, bends.bent, bends.bent, bends.near_byte
            data = draw.choice(hows)(draw, data)
        return data


# --- How styles are changed


def spot(draw, form, data):
    """A place where this form fits; None where there is none."""
    found = list(re.finditer(form, data))
    return draw.choice(found) if found else None


def other_text(draw, data):
    of = spot(draw, rb'"[^"\n]*"', data)
    return data[: of.start()] + f'"{draw.choice(TEXTS)}"'.encode() + data[of.end() :] if of else data


def other_value(draw, data):
    of = spot(draw, rb"(?m)(?<== ).*$", data)
    return data[: of.start()] + draw.choice(VALUES).encode() + data[of.end() :] if of else data


def line_put(draw, data):
    lines = data.split(b"\n")
    at = draw.randrange(len(lines) + 1)
    return b"\n".join(lines[:at] + [draw.choice(LINES).encode()] + lines[at + draw.randrange(2) :])


def nested(draw, data):
    """A value, a key or a header that is nested deep."""
    depth = draw.choice((10, 50, 79, 80, 81, 100, 1_000, 10_000, 100_000, 300_000, 524_000, 1_100_000))
    put = draw.choice((
        b"x = " + b"[" * depth + b"]" * draw.choice((0, depth)), b"x = " + b"{a=" * depth + b"1" + b"}" * draw.choice((0, depth)),
        b"x = " + b"[{a=" * depth, b"a." * depth + b"a = 1", b"[" + b"a." * depth + b"a]", b"[[" + b"a." * depth + b"a]]",
        b"x = \"" + b"\\\\" * depth + b"\"", b"[[table]]\nwhere = " + b"[" * depth + b"]" * depth,
        b"select = " + b"[" * depth + b"]" * depth, b"[[a]]\n" * depth, b"[[a.b]]\n" * (depth // 2), b"[a]\n" * depth,
        b'"a".' * depth + b"a = 1", b"x = [" + b"1," * depth + b"]", b"#" * depth, b"\n" * depth, b"x = '''" + b"'" * depth,
        b"x = {" + b",".join(b"a%d=1" % at for at in range(min(depth, 50_000))) + b"}",
    ))
    return draw.choice((put, data + b"\n" + put, put + b"\n" + data))


def many(draw):
    """About as many tables, selections and columns as there may be."""
    tables, selects, columns = (draw.choice((1, limit, limit + 1)) for limit in (256, 64, 256))
    made = "".join(f'[[select]]\nname = "s{at}"\nwhere = []\ntake = "t"\n' for at in range(selects))
    for at in range(tables):
        made += f'[[table]]\nname = "t{at}"\nsource = "node"\ngeometry = "point"\n'
        made += "".join(f'[[table.column]]\nname = "c{own}"\nfrom = "tags"\n' for own in range(columns if at == tables // 2 else 0))
    return made.encode()


# --- The model


def tables(data):
    """The names of the tables, or `Bad`."""
    document = parsed(data)
    judge_top(document)
    selects, names = document.get("select", []), []
    seen = set()
    for number, select in enumerate(selects, 1):
        judge_select(select, f"selection {number}", seen)
        seen.add(select["name"])
    for number, table in enumerate(document["table"], 1):
        judge_table(table, f"table {number}", names, seen)
        names.append(table["name"])
    return names


def parsed(data):
    try:
        text = data.removeprefix(b"\xef\xbb\xbf").decode("utf-8")
    except UnicodeDecodeError:
        raise Bad(1, "top") from None
    # Python's reader keeps a copy of each front of a key: one of many parts takes gigabytes.
    if any(max(map(line.count, ".[{")) > MANY for line in text.split("\n")):
        raise Unsure
    try:
        document = tomllib.loads(text)
    except (tomllib.TOMLDecodeError, RecursionError):
        raise Unsure from None
    if any(isinstance(it, int) and not -(2**63) <= it < 2**63 for it, _ in values(document)):
        raise Bad(1, "top")
    if any(depth > DEEP for _, depth in values(document)):
        raise Unsure
    return document


def values(of):
    """All values within a value, and how deep they are."""
    left = [(of, 0)]
    while left:
        it, depth = left.pop()
        yield it, depth
        within = it.values() if isinstance(it, dict) else it if isinstance(it, list) else []
        left += ((own, depth + 1) for own in within)


def are(type_, of):
    return isinstance(of, list) and all(isinstance(it, type_) for it in of)


def fault(part, *causes):
    """The first of these that applies."""
    for cause, applies in causes:
        if applies():
            raise Bad(cause, part)


def lacks(of, form):
    return any(key not in of for key in NEEDED[form])


def strange(of, form):
    return any(key not in ALLOWED[form] for key in of)


def length(of):
    return len(of) if isinstance(of, list) else 0


def is_name(of):
    return re.fullmatch("[a-z0-9_]{1,63}", of) is not None


def judge_top(of):
    lists = [of.get("select", []), of.get("table", [])]
    fault(
        "top",
        (10, lambda: length(lists[0]) > 64 or length(lists[1]) > 256),
        (2, lambda: strange(of, "top")),
        (3, lambda: of.get("table", []) == []),
        (4, lambda: not all(are(dict, it) for it in lists)),
    )


def judge_select(of, part, seen):
    fault(
        part,
        (2, lambda: strange(of, "select")),
        (3, lambda: lacks(of, "select")),
        (4, lambda: not (isinstance(of["name"], str) and isinstance(of["take"], str) and are(str, of["where"]))),
        (5, lambda: not is_name(of["name"]) or of["name"] in seen),
        (7, lambda: not of["take"] or not all(is_condition(it, "") for it in of["where"])),
    )


def is_condition(of, source):
    if of.startswith("selected:"):
        return source in ("node", "way", "area")
    if of.startswith("!"):
        return len(of) > 1 and "=" not in of
    key, sign, _ = of.partition("=")
    return bool(key.removesuffix("!") if sign else key)


def judge_table(of, part, names, selections):
    columns = of.get("column", [])
    own = [it for it in columns if isinstance(it, dict)] if isinstance(columns, list) else []
    conditions = lambda: [*of.get("where", []), *of.get("any", [])]
    fault(
        part,
        (10, lambda: length(columns) > 256),
        (2, lambda: strange(of, "table") or any(strange(it, "column") for it in own)),
        (3, lambda: lacks(of, "table") or any(lacks(it, "column") for it in own)),
        (4, lambda: not (is_typed(of) and are(dict, columns) and all(is_column_typed(it) for it in own))),
        (5, lambda: not is_name(of["name"]) or of["name"] in names or not all(is_name(it["name"]) for it in own)
            or len({it["name"] for it in own}) < len(own)),
        (6, lambda: GEOMETRY[of["source"]] != of["geometry"]),
        (7, lambda: not all(is_condition(it, of["source"]) for it in conditions())),
        (8, lambda: not all(is_column(it, of["source"]) for it in own)),
        (9, lambda: any(is_unknown(it, selections) for it in [*conditions(), *(it["from"] for it in own)])),
    )


def is_unknown(of, selections):
    return of.startswith("selected:") and of[9:] not in selections


def is_typed(of):
    return (
        isinstance(of["name"], str) and of["source"] in (*GEOMETRY,) and of["geometry"] in (*GEOMETRY.values(),)
        and are(str, of.get("where", [])) and are(str, of.get("any", [])) and of.get("expire", "full-area") in ("full-area", "boundary-only")
    )


def is_column_typed(of):
    return isinstance(of["name"], str) and isinstance(of["from"], str) and of.get("type", "text") in ("text", "int")


def is_column(of, source):
    form = of["from"]
    if form.startswith("tag:"):
        return len(form) > 4
    if of.get("type", "text") == "int":
        return False
    return form == "tags" or form.startswith("selected:") and source in ("node", "way", "area")

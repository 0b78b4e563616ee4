"""Styles that were refused: what stands in which line of the file against which rule of docs/STYLES.md."""

import difflib
import json
import re

from explain_files import either, listed, name, shown, whole_of
from explain_words import wrong_file

try:
    import tomllib
except ImportError:
    tomllib = None

STYLE_CAUSES = {
    2: "a key that has no meaning there",
    3: "a key is missing",
    4: "a value of another type, or another word",
    5: "a name that is not in its form, or that stood before",
    6: "a geometry that the source does not give",
    7: "a condition that is not in its form or may not stand there",
    8: "a from that is not in its form or may not stand there",
    9: "a selection that is not there",
    10: "too many",
}
SOURCES = {"node": "point", "way": "line", "area": "polygon", "relation": "lines"}
KEYS = {
    "select": ("name", "where", "take"),
    "table": ("name", "source", "geometry", "where", "any", "expire", "column"),
    "column": ("name", "from", "type"),
}
NEEDED = {"select": ("name", "where", "take"), "table": ("name", "source", "geometry"), "column": ("name", "from")}
WORDS = {
    "source": tuple(SOURCES),
    "geometry": tuple(SOURCES.values()),
    "expire": ("full-area", "boundary-only"),
    "type": ("text", "int"),
}


def levels(part, kind):
    """A table of a style and its columns: the number of the column, what it is, and the values."""
    yield None, kind, part
    columns = part.get("column", []) if kind == "table" else []
    for number, column in enumerate(columns if isinstance(columns, list) else [], 1):
        if isinstance(column, dict):
            yield number, "column", column


def wrong_keys(part, kind, cause):
    """Keys that have no meaning, and keys that are missing."""
    for column, level, it in levels(part, kind):
        for key in it if cause == 2 else ():
            if key not in KEYS[level]:
                near = difflib.get_close_matches(key, KEYS[level], 1)
                yield column, key, f"no such key; {f'is {near[0]} meant?' if near else 'there are ' + ', '.join(KEYS[level])}"
        for key in NEEDED[level] if cause == 3 else ():
            if key not in it:
                yield column, None, f"{key} is missing"


def wrong_types(part, kind):
    for column, level, it in levels(part, kind):
        for key, value in it.items():
            if key in ("where", "any") and not (isinstance(value, list) and all(isinstance(text, str) for text in value)):
                yield column, key, "has to be a list of texts"
            elif key in WORDS and value not in WORDS[key]:
                yield column, key, f"may be {either(WORDS[key])}"
            elif key == "column" and not (isinstance(value, list) and all(isinstance(it, dict) for it in value)):
                yield column, key, "has to be a list of tables, as [[table.column]] makes it"
            elif key in ("name", "from", "take") and not isinstance(value, str):
                yield column, key, "has to be a text"


def wrong_names(part, kind, before):
    stood = {it.get("name") for it in before if isinstance(it, dict)}
    for column, level, it in levels(part, kind):
        if level == "column" and column == 1:
            stood = set()
        text = it.get("name")
        if not re.fullmatch("[a-z0-9_]{1,63}", str(text)):
            yield column, "name", "a name has 1 to 63 of a to z, 0 to 9 and _"
        elif text in stood:
            yield column, "name", "this name stood before"
        stood.add(text)


def condition_fault(text, may_select):
    """What stands against a condition; None where nothing does."""
    if text.startswith("selected:"):
        return None if may_select else "selected: may not stand here"
    if text.startswith("!"):
        return "has no key behind the !" if text == "!" else "has a = behind the !: write KEY!=VALUE" if "=" in text else None
    front, equals, _ = text.partition("=")
    key = front.removesuffix("!") if equals else front
    return None if key else "has no key"


def wrong_conditions(part, kind):
    may_select = kind == "table" and part.get("source") != "relation"
    for key in ("where", "any"):
        for text in part.get(key, []):
            fault = condition_fault(text, may_select)
            if fault:
                yield None, key, f"condition {told_value(text)} {fault}"
    if part.get("take") == "":
        yield None, "take", "has to be the key of a tag"


def wrong_origins(part, kind):
    for column, level, it in levels(part, kind):
        text = it.get("from", "") if level == "column" else "tags"
        if text.startswith("selected:") and part.get("source") == "relation":
            yield column, "from", "relations are not selected"
        elif it.get("type") == "int" and not text.startswith("tag:"):
            yield column, "from", "type int goes with tag:KEY alone"
        elif text == "tag:" or not (text == "tags" or text.startswith(("tag:", "selected:"))):
            near = f" (here tag:{text})" if re.fullmatch("[a-z_]+", text) else ""
            yield column, "from", f"may be tag:KEY{near}, tags or selected:NAME"


def unknown_selections(part, kind, names):
    there = f"there are {listed(names)}" if names else "there is none"
    for column, level, it in levels(part, kind):
        texts = [("from", it.get("from"))] if level == "column" else [(key, text) for key in ("where", "any") for text in it.get(key, [])]
        for key, text in texts:
            if text.startswith("selected:") and text[9:] not in names:
                yield column, key, f"{told_value(text)} is no selection; {there}"


def top_faults(document, cause):
    for key in document:
        if cause == 2 and key not in ("select", "table"):
            yield None, key, "at the top stand select and table alone"
        if cause == 4 and key in ("select", "table"):
            yield None, key, f"has to be a list of tables, as [[{key}]] makes it"
    if cause == 3:
        yield None, None, "there is no [[table]]"
    if cause == 10:
        yield None, None, "there may be 64 selections and 256 tables"


def style_faults(document, cause, kind, number):
    """What stands against a part of a style by this cause: the number of the column, the key, and what is said."""
    if kind == "top":
        return top_faults(document, cause)
    parts = document[kind]
    part = parts[number - 1]
    names = [it.get("name") for it in document.get("select", []) if isinstance(it, dict)]
    geometry = SOURCES.get(part.get("source")) if cause == 6 else None
    return {
        2: lambda: wrong_keys(part, kind, 2),
        3: lambda: wrong_keys(part, kind, 3),
        4: lambda: wrong_types(part, kind),
        5: lambda: wrong_names(part, kind, parts[: number - 1]),
        6: lambda: iter([(None, "geometry", f"source {part.get('source')} gives {geometry}")]),
        7: lambda: wrong_conditions(part, kind),
        8: lambda: wrong_origins(part, kind),
        9: lambda: unknown_selections(part, kind, names),
        10: lambda: iter([(None, None, "there may be 256 columns")]),
    }[cause]()


def told_value(value):
    return shown(json.dumps(value, ensure_ascii=False, default=str), 60)


def headers_of(lines):
    """The headers of a document: the line of each, its name, and whether it is one of a list."""
    for at, line in enumerate(lines, 1):
        found = re.match(r"\s*\[(\[?)([^\[\]]+)\]", line)
        if found:
            yield at, re.sub(r"[\s\"']", "", found[2]), found[1] == "["


def key_line(lines, begin, stop, key):
    """The line between two headers in which a key gets its value; None where none does."""
    spelled = re.compile(rf"\s*[\"']?{re.escape(key)}[\"']?\s*[.=]")
    return next((at for at, line in enumerate(lines[begin : stop - 1], begin + 1) if spelled.match(line)), None)


def lines_of_style(text, kind, number, column, key):
    """The lines of a part of a style and of a key in it; None for what does not stand in a line of its own."""
    lines = text.split("\n")
    headers = list(headers_of(lines))
    starts = [0] if kind == "top" else [at for at, header, in_list in headers if header == kind and in_list]
    start = starts[max(number, 1) - 1] if number <= len(starts) else None
    if start is None:
        return None, None
    begin = start
    if column:
        end = next((at for at, header, _ in headers if at > start and header in ("table", "select")), len(lines) + 1)
        columns = [at for at, header, _ in headers if start < at < end and header == "table.column"]
        if column > len(columns):
            return start, None
        begin = columns[column - 1]
    stop = next((at for at, _, _ in headers if at > begin), len(lines) + 1)
    found = key_line(lines, begin, stop, key) if key else None
    return start or None, found or (begin if column else None)


def style_message(path, data, cause, kind, number):
    """What is said of a style that reads as TOML."""
    text = data.decode("utf-8-sig")
    word = {"select": "selection"}.get(kind, kind)
    try:
        document = tomllib.loads(text)
        column, key, fault = next(iter(style_faults(document, cause, kind, number)))
    except Exception:
        # The document is TOML of a newer kind than this Python reads, or the style was mended meanwhile.
        start, _ = lines_of_style(text, kind, number, None, None)
        at = f" (line {start})" if start else ""
        return [f"{name(path)}, {word}{f' {number}' if number else ''}{at}: {STYLE_CAUSES[cause]} (docs/STYLES.md)"]
    part = document if kind == "top" else document[kind][number - 1]
    start, line = lines_of_style(text, kind, number, column, key)
    own = f'"{shown(part["name"], 63)}"' if isinstance(part.get("name"), str) else number
    where = f", {word} {own}{f' (line {start})' if start else ''}" if kind != "top" else ""
    it = part["column"][column - 1] if column else part
    pieces = [f"column {column}"] if column else []
    if key:
        pieces.append(f"{shown(key, 40)} = {told_value(it[key])}" if isinstance(it.get(key), (str, int, float)) else shown(key, 40))
    at = f" (line {line})" if line and line != start else ""
    return [f"{name(path)}{where}: {', '.join(pieces)}{at}{': ' if pieces else ''}{fault}"]


def toml_message(path, data):
    """What is said of a file that does not read as TOML."""
    try:
        text = data.decode("utf-8-sig")
        tomllib.loads(text)
    except UnicodeDecodeError as fault:
        line = data.count(b"\n", 0, fault.start)
        there = shown(data.split(b"\n")[line])
        return [f"{name(path)}, line {line + 1}, is not UTF-8: {there}"]
    except tomllib.TOMLDecodeError as fault:
        found = re.fullmatch(r"(?s)(.*) \(at line (\d+), column (\d+)\)", str(fault))
        if not found:
            return [f"{name(path)} is no TOML: {shown(str(fault))}"]
        line, lines = int(found[2]), text.split("\n")
        there = shown(lines[line - 1] if line <= len(lines) else "")
        return [f"{name(path)}, line {line}, column {found[3]}: {shown(found[1], 80)}: {there}"]
    return [f"{name(path)} is no TOML (docs/STYLES.md says how a style is written)"]


def bad_style(call, file, cause, part, number):
    """What is said of a refused style: what stands in its way, and in which line."""
    path, cause = call.path(int(file)), int(cause)
    if path is None:
        return []
    told = wrong_file(call, path, "STYLE")
    if told:
        return told
    data = whole_of(path)
    if data is None or tomllib is None:
        return [f"{name(path)}, {part}{number and f' {number}'}: {STYLE_CAUSES.get(cause, 'is no TOML')} (docs/STYLES.md)"]
    if cause == 1:
        return toml_message(path, data)
    kind = {"selection": "select"}.get(part, part)
    return style_message(path, data, cause, kind, int(number or 0))

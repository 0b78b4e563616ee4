"""Lines of OPL that were refused: the piece of a line that its cause concerns, and what to do with the file."""

import re

from explain_files import KINDS, MAP_DATA, UNPACK, as_opl, kind_of, lines_at, name, new_name, quoted, shown
from explain_words import wrong_file

CAUSES = {
    1: "is not UTF-8",
    2: "begins with neither n, w nor r",
    3: "has an id that is no number from 1 to 9223372036854775807",
    4: "has a field that may not stand there",
    5: "has a field twice",
    6: "has a number, a coordinate or a time that is none",
    7: "has a coordinate out of its range",
    8: "has an escape or a character that may not stand in a text",
    9: 'has a tag without "="',
    10: "has a key of a tag twice",
    11: "has an item of a list that is not in its form",
    12: "has only one of longitude and latitude",
    13: "is not above the line before",
}
OF_FIELDS = {
    b"v": "has a version that is no number",
    b"c": "has a changeset that is no number",
    b"i": "has a user id that is no number",
    b"t": "has a time that is not written as 2024-05-01T10:00:00Z",
    b"x": "has a longitude that is no decimal number",
    b"y": "has a latitude that is no decimal number",
}
ESCAPE = rb"%([0-9A-Fa-f]{1,6})%"
OWN_LETTERS = {b"n": b"xy", b"w": b"N", b"r": b"M"}


def is_id(text):
    return re.fullmatch(rb"\d{1,19}", text) is not None and 1 <= int(text) < 1 << 63


def is_text(text):
    """Whether a text is in its form: of what has a meaning in a line there are escapes alone."""
    codes = [int(it, 16) for it in re.findall(ESCAPE, text)]
    in_form = not re.search(rb"[\0\t\n %,=@]", re.sub(ESCAPE, b"", text))
    return in_form and all(0 < it < 0xD800 or 0xDFFF < it <= 0x10FFFF for it in codes)


def is_place(text):
    found = re.fullmatch(rb"-?(\d{1,20})(?:\.(\d{1,20}))?", text)
    return found is not None and len(found[1]) + len(found[2] or b"") <= 20


def plain(text):
    """A text of a line without its escapes."""
    return re.sub(ESCAPE, lambda it: chr(min(int(it[1], 16), 0x10FFFF)).encode("utf-8", "replace"), text)


def is_far(x, y):
    return any(is_place(it) and abs(float(it)) > most for it, most in ((x, 180), (y, 90)))


def in_fields(kind, fields, cause):
    """The fields to which a cause may apply, each with whether it does."""
    stood = set()
    letters = b"vdctiuT" + OWN_LETTERS.get(kind, b"")
    for it in fields:
        letter, value = it[:1], it[1:]
        number = letter in b"vci" and not re.fullmatch(rb"(-?\d{1,19})?", value)
        time = letter == b"t" and not re.fullmatch(rb"(\d{4}-\d\d-\d\dT\d\d:\d\d:\d\dZ)?", value)
        place = letter in b"xy" and value and not is_place(value)
        yield it, (
            (cause == 4 and (letter not in letters or (letter == b"d" and value not in (b"V", b"D"))))
            or (cause == 5 and letter in stood)
            or (cause == 6 and (number or time or place))
            or (cause == 7 and (is_far(value, b"") if letter == b"x" else letter == b"y" and is_far(b"", value)))
            or (cause == 8 and letter == b"u" and not is_text(value))
            or (cause == 12 and letter in b"xy" and value != b"")
        )
        stood.add(letter)


def items(fields, letter):
    return [item for it in fields if it[:1] == letter and it[1:] for item in it[1:].split(b",")]


def in_tags(fields, cause):
    """The same of the tags."""
    stood = set()
    for it in items(fields, b"T"):
        key, equals, value = it.partition(b"=")
        yield it, (
            (cause == 9 and not equals)
            or (cause == 8 and equals and not (is_text(key) and is_text(value)))
            or (cause == 10 and plain(key) in stood)
        )
        stood.add(plain(key))


def in_lists(fields, cause):
    """The same of nodes and members."""
    for it in items(fields, b"N"):
        parts = re.fullmatch(rb"(?s)n(\d*)(?:x([^y]*)(y?)(.*))?", it)
        x, y = (parts[2] or b"", parts[4] or b"") if parts else (b"", b"")
        yield it, (
            (cause == 3 and it[:1] == b"n" and not is_id(parts[1] if parts else b""))
            or (cause == 11 and not parts)
            or (cause == 6 and any(value and not is_place(value) for value in (x, y)))
            or (cause == 7 and is_far(x, y))
            or (cause == 12 and parts and parts[2] is not None and (not parts[3] or (x == b"") != (y == b"")))
        )
    for it in items(fields, b"M"):
        parts = re.fullmatch(rb"(?s)[nwr](\d*)@(.*)", it)
        yield it, (
            (cause == 3 and re.match(rb"[nwr]", it) and not is_id(re.match(rb".(\d*)", it)[1]))
            or (cause == 11 and not parts)
            or (cause == 8 and parts and not is_text(parts[2]))
        )


def piece_of(line, cause):
    """The piece of a line to which a cause applies; None where it is not found."""
    fields = [it for it in re.split(rb"[ \t]+", line) if it]
    if cause == 1 or not fields:
        return None
    if cause == 2 or (cause == 3 and not is_id(fields[0][1:])):
        return fields[0]
    found = [it for it, applies in in_fields(fields[0][:1], fields[1:], cause) if applies]
    found += [it for pieces in (in_tags, in_lists) for it, applies in pieces(fields[1:], cause) if applies]
    return found[0] if found else None


def hint_of(piece, cause):
    """What is behind a cause that many meet."""
    if cause == 3 and re.match(rb"[nwr]?-\d", piece):
        return ": editors give negative ids to what was never uploaded"
    if cause == 4 and piece[:1] not in b"vdctiuTxyNM":
        return ": a blank in a text is written %20%"
    if cause == 7:
        return ": longitudes go to 180, latitudes to 90"
    return ""


def version_of(line):
    found = re.search(rb"[ \t]v(\d+)", line)
    return found[1].decode() if found else None


def out_of_order(call, path, role, number, keys, lines):
    """What is said of a line whose key is not above that of the object before it."""
    earlier, later = keys
    out, word = quoted(new_name(path)), quoted(path)
    if earlier != later:
        deed = f"osmium merge-changes -s {word} -o {out}" if role == "CHANGE" else f"osmium sort {word} -o {out}"
        return [f"{name(path)} is not sorted: {later} stands behind {earlier} (line {number}): {deed}"]
    versions = [it for it in map(version_of, lines) if it]
    told = f", versions {versions[0]} and {versions[1]}" if len(versions) == 2 else ""
    what = f"{later} stands twice in {name(path)} (line {number}{told})"
    merged = f"osmium merge-changes -s {word} -o {out}"
    if role == "CHANGE":
        return [f"{what}; of each object the last version counts: {merged}"]
    return [f"{what}: a history, or files that were joined", f"of a history: osmium time-filter {word} -o {out}; of changes: {merged}"]


def not_opl(call, path, role):
    """What is said of a file that is no OPL file; None where it may be one."""
    kind = kind_of(path)
    if kind in MAP_DATA or kind in UNPACK:
        command = as_opl(path, kind, role)
        return [f"{name(path)} {KINDS[kind]}; write it as OPL first: {command}"]
    if kind == "bom":
        return [f"{name(path)} {KINDS[kind]}; OPL has none: tail -c +4 {quoted(path)} > {quoted(new_name(path))}"]
    if kind == "utf16":
        return [f"{name(path)} {KINDS[kind]}; OPL is UTF-8: iconv -f UTF-16 -t UTF-8 {quoted(path)} > {quoted(new_name(path))}"]
    return None if kind in ("opl", "pipe", "folder") else wrong_file(call, path, role)


def piped(path, line, cause, what):
    """What is said of a line that came through a pipe, and is gone."""
    if line == 1 and cause in (1, 2):
        return f"{name(path)} gave no OPL text; in front of the pipe: osmium cat -f opl FILE"
    return f"{what} ({name(path)} {KINDS['pipe']}, so the line can't be shown)"


def malformed(call, file, line, cause, *keys):
    """What is said of a refused line: what the file is, where it is none of OPL; else the line, its cause and its piece."""
    path, line, cause = call.path(int(file)), int(line), int(cause)
    if path is None or cause not in CAUSES:
        return []
    role = call.role(int(file))
    told = not_opl(call, path, role)
    if told:
        return told
    lines = lines_at(path, max(1, line - 1), 2 if line > 1 else 1)
    if cause == 13 and keys[0]:
        return out_of_order(call, path, role, line, keys, lines)
    fault = CAUSES[cause]
    what = f"{name(path)}, line {line}, {fault}"
    if len(lines) < min(line, 2):
        return [piped(path, line, cause, what) if kind_of(path) == "pipe" else what]
    text = lines[-1].removesuffix(b"\n")
    piece = piece_of(text, cause)
    fault = OF_FIELDS.get(piece[:1], fault) if cause == 6 and piece else fault
    if text.endswith(b"\r") and (piece is None or b"\r" in piece):
        return [f"{name(path)}: its lines end in CR LF; OPL has LF alone: tr -d '\\r' < {quoted(path)} > {quoted(new_name(path))}"]
    what = f"{name(path)}, line {line},"
    if not lines[-1].endswith(b"\n"):
        what = f"{name(path)} ends within line {line}, as a file that was cut off (fetch it anew); the line"
    at = "" if piece is None else f" ({shown(piece, 60)}{hint_of(piece, cause)})" if piece else " (an empty one)"
    return [f"{what} {fault}{at}: {shown(text)}"]

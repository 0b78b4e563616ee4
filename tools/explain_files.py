"""How the words of an explanation are shown, and what a file is by its first bytes. Files are only read, and never one that is no
file on a disk: a pipe would give its bytes to nobody else."""

import bz2
import lzma
import os
import re
import shlex
import stat
import zlib

MOST_LINE = 4_194_304
MOST_WHOLE = 1_048_576


class Late(Exception):
    """The time for a look at files is over."""


# --- Texts


def shown(text, most=120):
    """A text of one line, with its control characters written out, and cut."""
    if isinstance(text, bytes):
        text = text[: 4 * most + 4].decode("utf-8", "backslashreplace")
    plain = "".join(it if it.isprintable() else it.encode("unicode_escape").decode() for it in text[: most + 1])
    return plain if len(plain) <= most else plain[:most] + " .."


def name(path):
    return shown(path, 200)


def quoted(path):
    """A path as a word of a shell, without control characters."""
    path = "./" + path if path.startswith("-") else path
    if path.isprintable():
        return shlex.quote(path)
    data = os.fsencode(path)
    return "$'" + "".join(chr(it) if 32 <= it < 127 and it not in b"'\\" else f"\\x{it:02x}" for it in data) + "'"


def listed(names, most=12):
    return ", ".join(names[:most]) + (f" and {len(names) - most} others" if len(names) > most else "")


def either(words):
    return ", ".join(words[:-1]) + " or " + words[-1]


def counted(number):
    return f"{number:,}"


def megabytes(count):
    return f"{count / 1e6:,.0f} MB" if count >= 1e6 else f"{count:,} bytes"


# --- Files


def opened(path):
    """A file, open to be read; None where it is none that can be read twice, or may not be read."""
    try:
        if not stat.S_ISREG(os.stat(path).st_mode):
            return None
        handle = os.open(path, os.O_RDONLY | os.O_NONBLOCK | os.O_NOCTTY | os.O_CLOEXEC)
    except (OSError, ValueError):
        return None
    it = os.fdopen(handle, "rb")
    if stat.S_ISREG(os.fstat(handle).st_mode):
        return it
    it.close()
    return None


def head_of(path, most=65_536):
    """The first bytes of a file; None where it can't be read."""
    it = opened(path)
    if it is None:
        return None
    try:
        with it:
            return it.read(most)
    except OSError:
        return None


def whole_of(path):
    """A file that may be read whole; None where it is longer, or can't be read."""
    data = head_of(path, MOST_WHOLE + 1)
    return None if data is None or len(data) > MOST_WHOLE else data


def lines_at(path, first, count):
    """So many lines of a file from this one on, each with its end: what comes before is only counted."""
    it, skip = opened(path), first - 1
    if it is None:
        return []
    try:
        with it:
            while skip > 0:
                block = it.read(1 << 20)
                ends = block.count(b"\n")
                if not block:
                    return []
                if ends >= skip:
                    at = -1
                    for _ in range(skip):
                        at = block.index(b"\n", at + 1)
                    it.seek(at + 1 - len(block), os.SEEK_CUR)
                skip -= min(ends, skip)
            return [line for line in (it.readline(MOST_LINE + 1) for _ in range(count)) if line]
    except (OSError, Late):
        return []


# The first bytes of files that tell what they are.
MARKS = (
    (rb"\x1f\x8b", "gzip"),
    (rb"BZh", "bzip2"),
    (rb"\xfd7zXZ\0", "xz"),
    (rb"\x28\xb5\x2f\xfd", "zstd"),
    (rb"PK\x03\x04", "zip"),
    (rb"(?s)....\x0a\x09OSM(Header|Data)", "pbf"),
    (rb"\xff\xe0\x04o5[mc]", "o5m"),
    (rb"SLIMUPD1", "store"),
    (rb"\xff\xfe|\xfe\xff", "utf16"),
    (rb"\xef\xbb\xbf[nwr#]", "bom"),
    (rb"(?is)(\xef\xbb\xbf)?\s*<(!doctype html|html)", "html"),
    (rb"(\xef\xbb\xbf)?\s*<(\?xml|osm)", "xml"),
    (rb"\s*\{", "json"),
    (rb"-?\d{1,10}\r?\n(-?\d|$)", "rows"),
    (rb"(count|row|box) ", "queries"),
    (rb"(full|delta) \d", "feed"),
)

# What stands for each in a sentence.
KINDS = {
    "gzip": "is gzipped",
    "bzip2": "is packed with bzip2",
    "xz": "is packed with xz",
    "zstd": "is packed with zstd",
    "zip": "is a zip file",
    "pbf": "is a PBF file",
    "o5m": "is an o5m file",
    "xml": "is OSM XML",
    "osc": "is an OSM change file (XML)",
    "html": "is a web page (a download that failed?)",
    "json": "is JSON",
    "utf16": "is UTF-16",
    "bom": "begins with a byte order mark",
    "store": "is a store",
    "opl": "is an OPL file",
    "style": "is a style",
    "rows": "is a boundary table",
    "queries": "is a file of queries",
    "feed": "is a feed",
    "empty": "is empty",
    "folder": "is a folder",
    "pipe": "is a pipe or a device",
}
MAP_DATA = ("gzip", "bzip2", "xz", "pbf", "o5m", "xml", "osc")
UNPACK = {"xz": "xz -dc", "zstd": "zstd -dc", "zip": "unzip -p", "gzip": "gunzip -c", "bzip2": "bunzip2 -c"}


def kind_in(data):
    """What these first bytes of a file are; None where they are none of these."""
    if not data:
        return "empty"
    lines = (it for it in data.split(b"\n") if it.strip() and it[:1] not in (b"#", b"c"))
    if re.match(rb"[ \t]*[nwr]\d+([ \t\r]|$)", next(lines, b"")):
        return "opl"
    found = next((kind for mark, kind in MARKS if re.match(mark, data)), None)
    if found == "xml" and b"<osmChange" in data[:4_096]:
        return "osc"
    is_style = re.search(rb"(?m)^[ \t]*(\[\[?[ \t]*(table|select)\b|(table|select)[ \t]*=)", data)
    return "style" if is_style and found in (None, "bom") else found


def kind_of(path):
    """What a file is; None where it is not there, can't be read or is none of these."""
    try:
        mode = os.stat(path).st_mode
    except (OSError, ValueError):
        return None
    if stat.S_ISDIR(mode):
        return "folder"
    if not stat.S_ISREG(mode):
        return "pipe"
    data = head_of(path)
    return None if data is None else kind_in(data)


def unpacked_kind(path, kind):
    """What a packed file holds, by its first bytes or by its name."""
    data = head_of(path, 1_000_000 if kind == "bzip2" else 65_536) or b""
    try:
        if kind == "gzip":
            found = kind_in(zlib.decompressobj(31).decompress(data, 4_096))
        elif kind == "bzip2":
            found = kind_in(bz2.BZ2Decompressor().decompress(data, 4_096))
        else:
            found = kind_in(lzma.LZMADecompressor().decompress(data, 4_096)) if kind == "xz" else None
    except (OSError, EOFError, ValueError, zlib.error, lzma.LZMAError):
        found = None
    if found in ("opl", "xml", "osc"):
        return found
    named = re.search(r"\.(osm|osc|opl)\.\w+$", path)
    return {"osm": "xml", "osc": "osc", "opl": "opl"}[named[1]] if named else None


def new_name(path):
    """The name of an OPL file beside this one, under which nothing stands."""
    front = re.sub(r"(?<=[^/.])(\.(osm|osc|osh|opl|o5m|o5c))?(\.(pbf|gz|bz2|xz|zst|zip|osm|osc|opl|o5m|o5c))?$", "", path)
    names = [f"{front}.opl", *(f"{front}.{number}.opl" for number in range(2, 10))]
    return next((it for it in names if not os.path.lexists(it)), names[0])


def as_opl(path, kind, role):
    """The command that writes a file as OPL; None where there is none."""
    inner = unpacked_kind(path, kind) if kind in UNPACK else kind
    out = quoted(new_name(path))
    form = {"xml": "osm", "osc": "osc", "opl": "opl", "pbf": "pbf", "o5m": "o5m"}.get(inner)
    deed = "merge-changes -s" if role == "CHANGE" or inner == "osc" else "cat"
    if form is None or kind in ("zip", "zstd"):
        return f"{UNPACK[kind]} {quoted(path)} > {out}" if kind in UNPACK else None
    if kind == "xz":
        return f"xz -dc {quoted(path)} | osmium {deed} -F {form} - -o {out}"
    form += {"gzip": ".gz", "bzip2": ".bz2"}.get(kind, "")
    told = "" if path.endswith("." + form) else f" -F {form}"
    return f"osmium {deed}{told} {quoted(path)} -o {out}"

"""Small changes of good inputs, each drawn from a seed."""
import re

EDGES = (2**15, 2**31, 2**32, 2**53, 2**63, 2**64, 10**18, 10**19, 900_000_000, 1_800_000_000)
NUMBERS = [str(edge + step) for edge in EDGES for step in (-1, 0, 1)] + [
    "0", "-0", "00", "007", "-1", "1", "1.5", ".5", "5.", "-", "1e3", "0x1", "+1", "90", "-90.0", "180", "-180.00000004",
    "180.00000005", "90.00000004", "-90.00000005", "0.00000005", "-0.00000004", "13.37770009", "9" * 20, "0" * 20, "0" * 21,
    "0.0000000000000000000", "1" + "0" * 40, "-9223372036854775808", "-2147483649", "\u0663", "1\u0661",
]
ESCAPES = [
    "%20%", "%2c%", "%3D%", "%0%", "%000000%", "%1%", "%7f%", "%a%", "%9%", "%d%", "%8%", "%5c%", "%d7ff%", "%d800%", "%dfff%",
    "%e000%", "%10ffff%", "%110000%", "%1f600%", "%ffffff%", "%000041%", "%0000041%", "%%", "%", "%g%", "%20", "%25%", "%-1%", "%2 0%",
]
ODD = [
    b"\0", b"\r", b"\r\n", b"\xef\xbb\xbf", b"\xff", b"\xc0\x80", b"\xed\xa0\x80", b"\xf4\x90\x80\x80", b"\xc3", b"\xe2\x80\xa8",
    b"\xc2\x85", b"\x7f", b"\x1b", b"\\", b"\"", b"'", b" ", b"\t", b"\n", b"\n\n", b",", b"=", b"@", b"%", b"#", b"!", b"[", b"]", b"{",
    b"}", b".", b"-", b"\f", b"\v",
]


def place(draw, data):
    return draw.randrange(len(data) + 1)


def other_byte(draw, data):
    at = place(draw, data)
    return data[:at] + bytes([draw.randrange(256)]) + data[at + 1 :]


def near_byte(draw, data):
    """A bit is turned, so that what stands there is often of the same kind."""
    at = draw.randrange(len(data)) if data else 0
    return data[:at] + bytes(it ^ 1 << draw.randrange(8) for it in data[at : at + 1]) + data[at + 1 :]


def dropped(draw, data):
    at = place(draw, data)
    return data[:at] + data[at + draw.choice((1, 1, 1, 2, 3, 10, 100)) :]


def doubled(draw, data):
    at, length = place(draw, data), draw.choice((1, 1, 1, 2, 3, 10, 100))
    return data[: at + length] + data[at:]


def odd_bytes(draw, data):
    at = place(draw, data)
    return data[:at] + draw.choice(ODD) + data[at + draw.randrange(2) :]


def edge_number(draw, data):
    """A number, wherever one stands, becomes one at an edge."""
    found = list(re.finditer(rb"-?[0-9]+(\.[0-9]+)?", data))
    if not found:
        return data
    of = draw.choice(found)
    return data[: of.start()] + draw.choice(NUMBERS).encode() + data[of.end() :]


def escaped(draw, data):
    at = place(draw, data)
    return data[:at] + draw.choice(ESCAPES).encode() + data[at:]


def spliced(draw, data):
    """The front of one line is put before the end of another."""
    lines = data.split(b"\n")
    a, b = draw.randrange(len(lines)), draw.randrange(len(lines))
    lines[a] = lines[a][: place(draw, lines[a])] + lines[b][place(draw, lines[b]) :]
    return b"\n".join(lines)


def line_doubled(draw, data):
    lines = data.split(b"\n")
    lines.insert(draw.randrange(len(lines) + 1), draw.choice(lines))
    return b"\n".join(lines)


def line_dropped(draw, data):
    lines = data.split(b"\n")
    del lines[draw.randrange(len(lines))]
    return b"\n".join(lines)


def cut(draw, data):
    return data[: place(draw, data)]


def swapped(draw, data):
    """Two words change their places."""
    found = list(re.finditer(rb"[^ \t\n,=]+", data))
    if len(found) < 2:
        return data
    a, b = sorted(draw.sample(found, 2), key=lambda it: it.start())
    return data[: a.start()] + b[0] + data[a.end() : b.start()] + a[0] + data[b.end() :]


ALL = (
    other_byte, near_byte, near_byte, dropped, doubled, odd_bytes, edge_number, edge_number, escaped, spliced, line_doubled,
    line_dropped, cut, swapped,
)


def bent(draw, data, bends=ALL, most=3):
    """An input with one change or a few; it may be that none is seen."""
    for _ in range(draw.choice((0, *[1] * 6, *range(2, most + 1)))):
        data = draw.choice(bends)(draw, data)
    return data

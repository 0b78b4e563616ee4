"""Stores: `check` beside a model that reads the changed bytes by docs/FILES.md and imports what they hold anew, and then what all
other commands do with them.
"""
import re

import bends
import opl
import stored
from runs import Finding

PLAIN = re.compile("[A-Za-z0-9_.:/-]")


CHANGE = b"""n1 dD
n5 Tshop=bakery x13.3802 y52.5159
n80 Tamenity=cafe,name=Neu x13.3801 y52.5161
w2 Thighway=footway Nn5,n6,n80
r9 Ttype=route,route=bus,ref=7 Mw2@,n1@stop
"""
# Its tiles take several pages.
WIDE = b"""n90 x12.5 y51.5
n91 x14 y51.6
n92 x14.1 y53
w90 Tlanduse=forest Nn90,n91,n92,n90
w91 Thighway=road Nn92,n1
"""
QUERIES = b"count roads\nrow roads w 1\nbox roads 13 52 13.4 52.6\n"
# What changes a store, or serves it.
OTHERS = [
    ("append", "store", "rows", "change2.opl"), ("migrate", "store"), ("tiles", "clear=yes", "store", "3"),
    ("serve", "store", "rows", "asked", "change2.opl"), ("import", "buckets=2", "store", "style", "town.opl"),
]


class Base:
    """A good store: its bytes, what they spell, and what is printed of it."""

    def __init__(self, data, tables):
        self.data, self.image, self.tables, self.printed = data, stored.Image(data).read(), tables, {}


class Kind:
    def __init__(self, runs, known):
        self.runs, self.known, self.fresh = runs, known, {}
        self.files = {
            "town.opl": (known.EXAMPLES / "town.opl").read_bytes(), "rows": known.rows(12), "none": b"",
            "change1.opl": (known.EXAMPLES / "town_change.opl").read_bytes(),
            "change2.opl": CHANGE, "change3.opl": WIDE, "deep": known.rows(16),
            "piece.opl": b"\n".join(known.piece(60)) + b"\n", "style": known.styles()[0], "styles": b"\n".join(known.styles()[1:]),
            "asked": QUERIES,
        }
        self.fill()
        if self.runs.ask("check", "none").status == 2:
            raise SystemExit("bench/fuzz: this program has no command `check`")
        both = "change1.opl", "change2.opl"
        self.bases = [self.made("init"), self.made("style", "town.opl", 4, both), self.made("styles", "piece.opl", 8, both[:1])]
        self.bases += [self.made("style", "piece.opl", 1, both), self.made("style", "town.opl", 2, both[:1], cleared=True)]
        self.bases += [self.made("style", "town.opl", 1024, ("change3.opl",), "deep"), *self.older(self.bases[1])]

    def fill(self):
        for name, data in self.files.items():
            (self.runs.room / name).write_bytes(data)

    def made(self, style, town=None, buckets=1, changes=(), rows="rows", cleared=False):
        """A good store, with what the commands print of it."""
        good, store = lambda *words: self.runs.ask(*words, may=(0,), seconds=60).out, self.runs.room / "store"
        store.unlink(missing_ok=True)
        good("init", "store")
        if town:
            good("import", f"buckets={buckets}", "store", style, town)
        for change in changes:
            good("append", "store", rows, change)
        if cleared:
            good("tiles", "clear=yes", "store", "0")
        tables = re.findall(r'\[\[table\]\]\s*name = "(\w+)"', self.files[style].decode()) if town else []
        return self.base(store.read_bytes(), tables)

    def base(self, data, tables):
        base = Base(data, tables)
        if tables and not base.image.is_old:
            base.printed = {words: self.asked(words, data, (0,)).out for words in self.looks(base)}
        return base

    def older(self, base):
        """A store of the old format with the same objects, and what it becomes by `migrate`, which knows no tags of nodes."""
        data = stored.old(base.image)
        self.runs.want(self.asked(("migrate", "store"), data, (0,)), 0, "", b"format 2\n")
        return [self.base(data, base.tables), self.base((self.runs.room / "store").read_bytes(), base.tables)]

    def looks(self, base):
        return [("export", "store", name) for name in base.tables] + [("tiles", "store", "0"), ("query", "store", "asked")]

    def asked(self, words, data, may):
        """A run over a store of these bytes."""
        (self.runs.room / "store").write_bytes(data)
        return self.runs.ask(*words, may=may)

    # --- A trial

    def trial(self, draw):
        self.fill()
        base = draw.choice(self.bases)
        data = self.changed(draw, base)
        (self.runs.room / "bent").write_bytes(data)
        wanted = self.judged(base, data)
        ended = self.asked(("check", "store"), data, (0, 6))
        self.compare(ended, wanted)
        if self.asked(("check", "store"), data, (0, 6)).told() != ended.told():
            raise Finding("a second check answers another thing", ended.words)
        if ended.status == 0:
            self.is_sound(base, data)
            return "sound"
        # Some of these, since the runs take their time.
        for words in draw.sample([*self.looks(base), *OTHERS], 3):
            self.asked(words, data, (0, 6, *self.besides(base, data, words)))
        return ended.line.rstrip("0123456789").rstrip()

    def besides(self, base, data, words):
        """What else may be answered where a reader may take a change for good: no such table in another style, a count that is full."""
        found = style_and_count(data)
        if not found:
            return ()
        unknown = (12,) if words[0] in ("export", "query", "serve") and found[0] != base.image.texts[1] else ()
        full = (10,) if words[0] in ("append", "serve") and found[1] >= stored.LAST_CHANGE else ()
        return unknown + full

    def compare(self, ended, wanted):
        """The answer of `check` beside that of the model: `sound`, another line, or a bad page of which the model knows some."""
        if wanted is None:
            return
        kind, pages, why = wanted
        if kind != ended.line.rstrip("0123456789").rstrip() and not (kind == "sound" and ended.status == 0):
            raise Finding(f"`check` answers `{ended.line or 'sound'}`, and the model `{kind} {pages or ''}` ({why})", ended.words)
        if kind == "bad store page" and pages is not None and int(ended.line.rpartition(" ")[2]) not in pages:
            raise Finding(f"`check` answers `{ended.line}`, and the model the page {pages} ({why})", ended.words)
        if ended.status == 0 and ended.out != b"sound\n":
            raise Finding(f"`check` prints {ended.out!r}", ended.words)

    def is_sound(self, base, data):
        """Behind `sound` all looks end in 0 and print what they printed of the good store, where style, count and due tiles are as before;
        a change is appended, and the store is sound behind it."""
        image = stored.Image(data).read()
        if not image.state:
            self.asked(("import", "buckets=2", "store", "style", "town.opl"), data, (0,))
            return self.runs.want(self.runs.ask("check", "store"), 0, "", b"sound\n")
        is_same = [image.texts[1] == base.image.texts[1], image.texts[2] == base.image.texts[2], image.changes == base.image.changes]
        for words, out in base.printed.items():
            ended = self.asked(words, data, (0,) if is_same[0] else (0, 12))
            if is_same[0] and (words[0] == "export" or words[0] == "tiles" and is_same[1] or words[0] == "query" and is_same[2]):
                self.runs.want(ended, 0, "", out)
        if image.changes < stored.LAST_CHANGE:
            ended = self.asked(("append", "store", "rows", "change2.opl"), data, (0,))
            self.runs.want(ended, 0, "", b"version %d\n" % (image.changes + 1))
            self.runs.want(self.runs.ask("check", "store"), 0, "", b"sound\n")
            self.is_fold()
        self.runs.want(self.asked(("migrate", "store"), data, (0,)), 0, "", b"format 2\n")

    def is_fold(self):
        """The maps behind the change are those of a fresh import of what they hold."""
        behind = stored.Image((self.runs.room / "store").read_bytes()).read()
        made = self.imported(behind)
        unknown = {(6, key) for which, key in behind.records if which == 0 and stored.object_of(0, key, behind.records[0, key])[0] is None}
        maps = [{key: value for key, value in (of or {}).items() if key[0] > 2 and key not in unknown} for of in (made, behind.records)]
        if made is not None and maps[0] != maps[1]:
            raise Finding("behind a change the maps are not those of a fresh import", self.runs.log[-1])

    # --- The model

    def judged(self, base, data):
        """What `check` has to answer: a line without its number, the pages that it may tell (None: any), and why."""
        try:
            image = stored.Image(data)
            if image.is_old:
                style = image.chain(1, image.root(1))
                return ("old format", None, "") if style == base.image.texts[1] else None
            if image.is_follower:
                return "follower", None, ""
            image.read(self.reads_style)
        except stored.NotFormatted:
            return "not formatted", None, "mark or length"
        except stored.Bad as bad:
            return "bad store page", None if bad.page is None else {bad.page}, str(bad)
        if not image.state:
            good = image.is_empty and not image.texts[1] and not image.texts[2] and image.changes <= stored.LAST_CHANGE
            return ("sound", None, "") if good else ("bad store page", {1}, "a store without import")
        return self.judged_values(base, image)

    def judged_values(self, base, image):
        """The same of a store whose records are spelled. Of nodes whose tags are not known it is known alone that rows as before are right."""
        unknown = set()
        for which, key in sorted(it for it in image.records if it[0] < 3):
            try:
                tags, _ = stored.object_of(which, key, image.records[which, key])
            except stored.NoValue:
                return "bad store page", {image.page_of(which, key)}, f"the value of {key} in map {which}"
            if tags is None:
                unknown.add((6, key))
        made = self.imported(image)
        if made is None or unknown and image.texts[1] != base.image.texts[1]:
            return None
        kept = {key: value for key, value in image.records.items() if key[0] > 2}
        wrong = sorted(key for key in {*made, *kept} - unknown if made.get(key) != kept.get(key))
        was = base.image.records
        if any(kept.get(key) != was.get(key) or image.records[0, key[1]] != was.get((0, key[1])) for key in unknown):
            return None
        if wrong and unknown and wrong[0] > (5, 0):
            return "bad store page", None, f"the value of {wrong[0][1]} in map {wrong[0][0]}"
        if wrong:
            return "bad store page", {image.page_of(*wrong[0])}, f"the value of {wrong[0][1]} in map {wrong[0][0]}"
        good = image.is_empty and stored.are_due(image.texts[2])
        return ("sound", None, "") if good else ("bad store page", {1}, "texts or the count")

    def reads_style(self, style):
        if style not in self.fresh:
            (self.runs.room / "own_style").write_bytes(style)
            (self.runs.room / "trial").unlink(missing_ok=True)
            self.fresh[style] = self.runs.ask("replay", "trial", "own_style", "rows", "none", may=(0, 4)).status == 0
        return self.fresh[style]

    def imported(self, image):
        """The maps 3 to 7 of a fresh import of the objects that the maps 0 to 2 have; None where no file can say these."""
        lines = []
        for which, key in sorted(it for it in image.records if it[0] < 3):
            tags, rest = stored.object_of(which, key, image.records[which, key])
            lines.append(line_of(which, key, tags or (), rest))
        text = "".join(lines).encode()
        if "%0%" in "".join(lines):
            return None
        wanted = image.texts[1], image.buckets, text
        if wanted not in self.fresh:
            if len(self.fresh) > 300:
                self.fresh.clear()
            (self.runs.room / "own_style").write_bytes(image.texts[1])
            (self.runs.room / "own.opl").write_bytes(text)
            (self.runs.room / "trial").unlink(missing_ok=True)
            self.runs.ask("init", "trial", may=(0,))
            self.runs.ask("import", f"buckets={image.buckets}", "trial", "own_style", "own.opl", may=(0,))
            made = stored.Image((self.runs.room / "trial").read_bytes()).read()
            self.fresh[wanted] = {key: value for key, value in made.records.items() if key[0] > 2}
        return self.fresh[wanted]

    # --- How stores are changed

    def changed(self, draw, base):
        hows = some_bytes, some_bytes, head_bytes, head_bytes, numbers, a_page, a_page, length, gate, record, record, record, record
        return draw.choice(hows)(draw, base)


def style_and_count(data):
    """The style and the count of changes of bytes that may be no sound store; None where they can't be told."""
    try:
        image = stored.Image(data)
        return image.chain(1, image.root(1)), image.changes
    except (stored.Bad, stored.NotFormatted):
        return None


def quoted(text):
    return "".join(it if PLAIN.match(it) else f"%{ord(it):x}%" for it in text)


def line_of(which, key, tags, rest):
    """The line of an object."""
    parts = [f"{'nwr'[which]}{key} T" + ",".join(f"{quoted(own)}={quoted(value)}" for own, value in tags)]
    if which == 0 and rest:
        parts.append(f"x{opl.degrees(rest[0])} y{opl.degrees(rest[1])}")
    elif which == 1:
        parts.append("N" + ",".join(f"n{ref}" for ref in rest))
    elif which == 2:
        parts.append("M" + ",".join(f"{kind}{ref}@{quoted(role)}" for kind, ref, role in rest))
    return " ".join(parts) + "\n"


def put(data, at, new):
    return data[:at] + new + data[at + len(new) :]


def some_bytes(draw, base):
    data = base.data
    for _ in range(draw.choice((1, 1, 2, 3))):
        at = draw.randrange(len(data))
        data = put(data, at, bytes([draw.choice((draw.randrange(256), data[at] ^ 1 << draw.randrange(8), (data[at] + 1) % 256))]))
    return data


def head_bytes(draw, base):
    """A byte of the fields of page 0 or 1, or of the head of a page."""
    page = draw.choice((0, 1, 1, draw.randrange(len(base.data) // stored.PAGE)))
    at = page * stored.PAGE + draw.randrange(24 if page == 0 else 176 if page == 1 else 16)
    return put(base.data, at, bytes([draw.choice((0, 1, 2, 255, draw.randrange(256), base.data[at] ^ 1))]))


def numbers(draw, base):
    """A number of eight bytes, often one of a page's head or of the root, becomes another."""
    page = draw.choice((1, 1, draw.randrange(len(base.data) // stored.PAGE)))
    at = page * stored.PAGE + 8 * draw.choice((0, 1, draw.randrange(22), draw.randrange(22), draw.randrange(510)))
    home, own = base.image.home, stored.number(base.data, at)
    near = 0, 1, 2, 3, 4, home - 1, home, home + 1, draw.randrange(home), own + 1, own * 2
    value = draw.choice((*near, 2**16, 2**17, 2**31, 2**32 - 1, 2**32, 2**52, 2**63 - 1, 2**63, 2**64 - 1))
    return put(base.data, at, (value % 2**64).to_bytes(8, "little"))


def a_page(draw, base):
    size, count = stored.PAGE, len(base.data) // stored.PAGE
    at, other = draw.randrange(count), draw.randrange(count)
    of = lambda page: base.data[page * size : (page + 1) * size]
    others = of((at + 1) % count), of(at - 1) if at else of(count - 1), of(other)
    new = draw.choice((b"\xff" * size, b"\0" * size, *others, bends.near_byte(draw, of(at)), draw.randbytes(size)))
    data = put(base.data, at * size, new)
    return put(data, other * size, of(at)) if draw.random() < 0.2 else data


def length(draw, base):
    """The file is cut or has more behind it."""
    data = base.data
    home, page = base.image.home * stored.PAGE, stored.PAGE * draw.randrange(len(data) // stored.PAGE + 1)
    front = data[: draw.choice((draw.randrange(len(data) + 1), page, home, home - 1))]
    return draw.choice((front, front, data + b"\0" * draw.randrange(9_000), data + draw.randbytes(5_000)))


def gate(draw, base):
    """The gate is open, over the journal that stands there or another one."""
    data = put(base.data, stored.GATE, b"\1")
    for _ in range(draw.choice((0, 0, 1, 2))):
        journal = stored.number(data, 8) * stored.PAGE
        at = draw.choice((8, 16, journal, journal + 8, journal + 8 * draw.randrange(20), journal + stored.PAGE * draw.randrange(1, 9)))
        if at + 8 <= len(data):
            value = draw.choice((0, 1, 2, stored.number(data, at) + 1, stored.number(data, at) - 1, draw.randrange(60), 2**62, 2**64 - 1))
            data = put(data, at, (value % 2**64).to_bytes(8, "little"))
    return data


def record(draw, base):
    """A value or a text is another one, in pages that are written anew."""
    image = base.image
    if not image.state:
        return some_bytes(draw, base)
    texts, records, count = dict(image.texts), dict(image.records), image.changes
    texts = {chain: texts[chain] for chain in (1, 2)}
    for _ in range(draw.choice((0, 1, 1, 1, 2))):
        count = one_record(draw, texts, records, count)
    of = {}
    for which, key in sorted(records):
        of.setdefault((which, key % image.buckets), []).append((key, records[which, key]))
    if draw.random() < 0.05:
        draw.shuffle(of[draw.choice(list(of))])
    return stored.written(image.format, image.state, count, image.buckets, texts, of, draw.randrange(3))


def one_record(draw, texts, records, count):
    """One change of texts or records; the count of changes behind it."""
    keys = list(records)
    which, key = own = draw.choice([it for it in keys if it[0] == draw.choice(sorted({it[0] for it in keys}))] or keys)
    chance = draw.random()
    if chance < 0.08:
        texts[1] = bends.bent(draw, texts[1], most=1)
    elif chance < 0.14:
        texts[2] = draw.choice((bends.bent(draw, texts[2]), texts[2][32:], texts[2] * 2, bytes(32), draw.randbytes(32)))
    elif chance < 0.17:
        texts[draw.choice((0, 3, 7))] = b"x"
    elif chance < 0.19:
        return draw.choice((0, count + 1, 2**63 - 2, 2**63 - 1, 2**63))
    elif chance < 0.28:
        del records[own]
    elif chance < 0.36:
        records[which, draw.choice((0, key + 1, key * 2, 2**63 - 1, 2**63, 2**64 - 1))] = records[own]
    else:
        hows = bends.near_byte, bends.near_byte, bends.other_byte, bends.dropped, bends.doubled, bends.odd_bytes, edge
        records[own] = draw.choice(hows)(draw, records[own])
    return count


def edge(draw, data):
    """A number within a value becomes one at an edge."""
    at = draw.randrange(max(1, len(data) - 7))
    return put(data, at, draw.choice((0, 1, 2, 5, 2**31, 2**32, 2**60, 2**63 - 1, 2**63, 2**64 - 1)).to_bytes(8, "little"))

"""The bytes of a store read by what docs/FILES.md says, and written: its pages, its chains, and what its maps spell."""
import struct

PAGE, LINK = 4096, 16
HELD = PAGE - LINK
FREE = 2**32 - 1
MARK = b"SLIMUPD1"
GATE = PAGE - 1
LAST_ID = LAST_CHANGE = 2**63 - 1
MOST_BUCKETS = 65_536
LON, LAT = 1_800_000_000, 900_000_000


class NotFormatted(Exception):
    pass


class Bad(Exception):
    """The bytes are no store: the page that tells where. None is any page."""

    def __init__(self, page, why):
        super().__init__(f"page {page}: {why}")
        self.page = page


class NoValue(Exception):
    """Bytes spell no value."""


def number(data, at, length=8):
    return int.from_bytes(data[at : at + length], "little")


def attached(data):
    """The pages of a store once an open journal is copied home."""
    if len(data) < 2 * PAGE or data[:8] != MARK:
        raise NotFormatted
    if data[GATE] == 1:
        data = moved(data)
    if not 2 <= number(data, PAGE) <= len(data) // PAGE:
        raise Bad(1, "the number of home pages")
    return data


def moved(data):
    first, count = number(data, 8), number(data, 16)
    begins = first + (count + 511) // 512
    if not count or (begins + count) * PAGE > len(data):
        raise Bad(0, "the journal")
    numbers = [number(data, first * PAGE + 8 * at) for at in range(count)]
    if numbers[0] < 1 or numbers[-1] >= first or any(a >= b for a, b in zip(numbers, numbers[1:])):
        raise Bad(0, "the numbers of the journal")
    made = bytearray(data)
    for at, page in enumerate(numbers):
        made[page * PAGE : (page + 1) * PAGE] = data[(begins + at) * PAGE : (begins + at + 1) * PAGE]
    made[GATE] = 0
    return bytes(made)


class Image:
    """What the pages of a store spell: texts and maps, each chain with its pages."""

    def __init__(self, data):
        self.data = data = attached(data)
        self.home, self.format, self.state, self.changes, self.buckets, self.first_free = (number(data, PAGE + 8 * at) for at in range(6))
        self.owners, self.firsts, self.texts, self.records = {}, {}, {}, {}
        self.read_directories()
        # What stands in the root is looked at behind the directories.
        fields = self.state, self.format, bool(self.buckets)
        if fields not in ((0, 1, False), (1, 2, True), (1, 1, True), (2, 2, True)) or self.state and self.changes > LAST_CHANGE:
            raise Bad(1, "the fields of the root")
        self.is_old, self.is_follower = (self.state, self.format) == (1, 1), self.state == 2

    def read(self, is_style=lambda text: True):
        """All loads in their order, the style of an imported store first, and then the pages that are left over."""
        self.texts[1] = self.chain(1, self.root(1))
        if self.state and not is_style(self.texts[1]):
            raise Bad(1, "the style")
        self.texts[2] = self.chain(2, self.root(2))
        for which in range(8) if self.buckets else ():
            for bucket in range(self.buckets):
                self.read_bucket(which, bucket)
        self.chain(FREE, self.first_free)
        self.is_empty = True
        for chain in (0, 3, 4, 5, 6, 7):
            self.is_empty &= not self.root(chain)
            try:
                self.chain(chain, self.root(chain))
            except Bad:
                self.owners = {page: own for page, own in self.owners.items() if own != chain}
        for page in range(2, self.home):
            if page not in self.owners:
                raise Bad(page, "left over")
        return self

    def root(self, chain):
        return number(self.data, PAGE + 48 + 8 * chain)

    def chain(self, chain, first):
        """The bytes of a chain, whose pages are noted."""
        made, at, seen = [], first, set()
        while at:
            if at == 1 or at >= self.home:
                raise Bad(at, f"chain {chain} goes on with no page")
            if at in seen:
                raise Bad(None, f"chain {chain} goes in a circle")
            seen.add(at)
            head = at * PAGE
            after, length, own = number(self.data, head), number(self.data, head + 8, 4), number(self.data, head + 12, 4)
            if own != chain or chain != FREE and not (length == HELD if after else 1 <= length <= HELD):
                raise Bad(at, f"the head of a page of chain {chain}")
            self.owners[at] = chain
            made.append(b"" if chain == FREE else self.data[head + LINK : head + LINK + length])
            at = after
        self.firsts[chain] = first
        return b"".join(made)

    def read_directories(self):
        if self.buckets & (self.buckets - 1) or self.buckets > MOST_BUCKETS:
            raise Bad(1, "the number of buckets")
        self.directories = []
        for chain in range(8, 16):
            data = self.chain(chain, self.root(chain))
            if len(data) != 8 * self.buckets:
                raise Bad(self.root(chain) or 1, "the length of a directory")
            self.directories.append(struct.unpack(f"<{self.buckets}Q", data))

    def read_bucket(self, which, bucket):
        chain, first = 16 + MOST_BUCKETS * which + bucket, self.directories[which][bucket]
        data, at, last = self.chain(chain, first), 0, -1
        while at < len(data):
            key, length = number(data, at), number(data, at + 8)
            if len(data) - at < 16 or length > len(data) - at - 16 or key <= last or key % self.buckets != bucket:
                raise Bad(first, f"the records of bucket {bucket} of map {which}")
            self.records[which, key] = data[at + 16 : at + 16 + length]
            at, last = at + 16 + length, key

    def page_of(self, which, key):
        """The page that tells of a value."""
        return self.directories[which][key % self.buckets]


# --- Values


class Reader:
    def __init__(self, data):
        self.data, self.at = data, 0

    def take(self, length):
        if length > len(self.data) - self.at:
            raise NoValue
        self.at += length
        return self.data[self.at - length : self.at]

    def number(self):
        return number(self.take(8), 0)

    def identifier(self):
        found = self.number()
        if not 1 <= found <= LAST_ID:
            raise NoValue
        return found

    def text(self):
        try:
            return self.take(self.number()).decode("utf-8")
        except UnicodeDecodeError:
            raise NoValue from None

    def several(self, of):
        count = self.number()
        if count > len(self.data):
            raise NoValue
        return [of() for _ in range(count)]

    def member(self):
        kind = self.take(1)[0]
        if kind > 2:
            raise NoValue
        return "nwr"[kind], self.identifier(), self.text()

    def tags(self):
        found = self.several(lambda: (self.text(), self.text()))
        keys = [key.encode() for key, _ in found]
        if any(a >= b for a, b in zip(keys, keys[1:])):
            raise NoValue
        return found

    def flag(self):
        found = self.take(1)[0]
        if found > 1:
            raise NoValue
        return found

    def place(self):
        if not self.flag():
            return None
        lon, lat = struct.unpack("<ii", self.take(8))
        if abs(lon) > LON or abs(lat) > LAT:
            raise NoValue
        return lon, lat

    def end(self):
        if self.at < len(self.data):
            raise NoValue


def object_of(which, key, data):
    """The object of a record of the maps 0 to 2: its tags, which are None where they are not known, and its place, nodes or members."""
    if not 1 <= key <= LAST_ID:
        raise NoValue
    reader = Reader(data)
    if which == 0:
        rest = reader.place()
        tags = reader.tags() if reader.flag() else None
    else:
        rest = reader.several(reader.identifier if which == 1 else reader.member)
        tags = reader.tags()
    reader.end()
    return tags, rest


def are_due(data):
    """Whether bytes spell a set of due tiles."""
    if len(data) % 32:
        return False
    runs, last = list(struct.iter_unpack("<4Q", data)), None
    for zoom, row, first, end in runs:
        if zoom > 16 or row >= 2**zoom or not first <= end < 2**zoom:
            return False
        if last and not ((zoom, row) > last[:2] or (zoom, row) == last[:2] and first > last[2] + 1):
            return False
        last = zoom, row, end
    return True


# --- Writing


def spelled(records):
    return b"".join(struct.pack("<QQ", key, len(value)) + value for key, value in records)


def written(format_, state, changes, buckets, texts, records, free=2):
    """A store of these texts and of these records, given by map and bucket: its pages one after another, and so many free ones."""
    pages, firsts = [], {}

    def put(chain, data):
        parts = [data[at : at + HELD] for at in range(0, len(data), HELD)]
        firsts[chain] = len(pages) + 2 if parts else 0
        for at, part in enumerate(parts):
            after = len(pages) + 3 if at + 1 < len(parts) else 0
            pages.append((struct.pack("<QII", after, len(part), chain) + part).ljust(PAGE, b"\0"))

    for chain, data in texts.items():
        put(chain, data)
    for which in range(8) if buckets else ():
        for bucket in range(buckets):
            put(16 + MOST_BUCKETS * which + bucket, spelled(records.get((which, bucket), [])))
        put(8 + which, struct.pack(f"<{buckets}Q", *(firsts[16 + MOST_BUCKETS * which + bucket] for bucket in range(buckets))))
    first_free = len(pages) + 2 if free else 0
    for at in range(free):
        pages.append(struct.pack("<QII", len(pages) + 3 if at + 1 < free else 0, 0, FREE).ljust(PAGE, b"\0"))
    chains = [firsts.get(chain, 0) for chain in range(16)]
    root = struct.pack("<22Q", len(pages) + 2, format_, state, changes, buckets, first_free, *chains).ljust(PAGE, b"\0")
    return MARK.ljust(PAGE, b"\0") + root + b"".join(pages)


def old(image):
    """The bytes of a store of the old format with these objects: of nodes no tags are known."""
    of = {}
    for (which, key), value in sorted(image.records.items()):
        of.setdefault((which, key % image.buckets), []).append((key, value if which else value[: 9 if value[0] else 1]))
    return written(1, 1, image.changes, image.buckets, {chain: image.texts[chain] for chain in (1, 2)}, of)

"""Reads what a store's file says of itself: its root page and its style, as docs/FILES.md has them.

Nothing is written and no lock is taken, so a file is read beside a command that works on it. While a commit is under way its
gate is open; page 0 and the root are looked at again behind the rest, and where the gate is open or they differ, all is read
again, for a second.
"""

import functools
import hashlib
import os
import stat
import time

try:
    import tomllib
except ImportError:
    # What stands in a store's pages is read by an older Python too.
    tomllib = None

PAGE = 4096
MARK = b"SLIMUPD1"
GATE, OPEN = 4095, 1
# Where numbers stand in page 0, and how many page numbers one page of the journal has.
JOURNAL, MOVED, NUMBERS = 8, 16, PAGE // 8
# Where numbers stand in the root page.
HOME, FORMAT, STATE, CHANGES, BUCKETS, CHAINS = 0, 8, 16, 24, 32, 48
EMPTY_FORMAT, IMPORTED_FORMAT = 1, 2
# The state of a store that follows another one.
FOLLOWING = 2
STYLE_CHAIN = 1
# A page of a chain has the next page, how many bytes it holds and the chain's number, and then these bytes.
CHAIN_HEAD, MOST = 16, PAGE - 16
# The most bytes that a style may have.
MOST_STYLE = 1_048_576


class Fault(Exception):
    """Why a file can't be read as a store, and what to do."""


class Busy(Fault):
    """A command is at work on the file, or one was cut off in the middle of a commit."""


class Store:
    """What a store said of itself at one moment."""

    def __init__(self, root, style, file):
        self.format, self.changes, self.follows = number(root, FORMAT), number(root, CHANGES), number(root, STATE) == FOLLOWING
        self.buckets, self.pages, self.size = number(root, BUCKETS), number(root, HOME), file.st_size
        # The bytes of the style as the store keeps them, and the tables that they define.
        self.style, self.tables = style, tables_of(style)
        self.checksum = hashlib.sha256(style).hexdigest()
        # Two looks at one version of one file give the same.
        self.version = self.changes, self.checksum, file.st_dev, file.st_ino


def number(page, at, length=8):
    return int.from_bytes(page[at : at + length], "little")


def page_of(file, at):
    """A page, or less where the file ends. A damaged store may name pages that no file can have."""
    return os.pread(file, PAGE, at * PAGE) if at < 1 << 50 else b""


def is_open(head):
    """Whether a commit is under way, or was cut off, by page 0."""
    return head.startswith(MARK) and head[GATE:] == bytes([OPEN])


class Pages:
    """The pages of a store as the next command will find them: where the gate is open, those that the journal holds count."""

    def __init__(self, file):
        self.file, self.moved = file, {}
        head = page_of(file, 0)
        if not head.startswith(MARK):
            raise Fault("not formatted: this file is no store")
        first, count = number(head, JOURNAL), min(number(head, MOVED), 1 << 20) if is_open(head) else 0
        behind = first + -(-count // NUMBERS)
        for at in range(count):
            if at % NUMBERS == 0:
                numbers = page_of(file, first + at // NUMBERS)
            if len(numbers) < PAGE:
                break
            self.moved[number(numbers, 8 * (at % NUMBERS))] = behind + at

    def page(self, at):
        return page_of(self.file, self.moved.get(at, at))


def chain(page, root, which, most=MOST_STYLE):
    """The bytes of a chain, of which page gives each page by its number."""
    at, pages, parts = number(root, CHAINS + 8 * which), number(root, HOME), []
    while at:
        data = page(at) if 2 <= at < pages and MOST * len(parts) < most else b""
        after, length = number(data, 0), number(data, 8, 4)
        good = MOST == length if after else 1 <= length <= MOST
        if len(data) < PAGE or number(data, 12, 4) != which or not good:
            raise Fault(f"bad store page {at}: the file was damaged; take the backup")
        parts.append(data[CHAIN_HEAD : CHAIN_HEAD + length])
        at = after
    return b"".join(parts)


def tables_of(style):
    """The tables of a style that a store keeps."""
    if tomllib is None:
        raise Fault("to read its style Python 3.11 or later is needed")
    try:
        return tomllib.loads(style.decode("utf-8-sig"))["table"]
    except (ValueError, KeyError):
        raise Fault("bad store page 1: its style does not read; take the backup") from None


def imported(file, head, root):
    """The store, where the pages are those of an imported one in the format of today, or of one that follows another."""
    if len(root) < PAGE or not head.startswith(MARK):
        raise Fault("not formatted: this file is no store")
    kind = number(root, STATE), number(root, FORMAT)
    if kind == (0, EMPTY_FORMAT):
        raise Fault("not imported: the store is empty; import an extract into it first")
    if kind == (1, EMPTY_FORMAT):
        raise Fault("old format: run `yilgartzu migrate` on it first")
    if kind not in ((1, IMPORTED_FORMAT), (FOLLOWING, IMPORTED_FORMAT)):
        raise Fault("bad store page 1: its format and state are those of no store; take the backup")
    return Store(root, chain(functools.partial(page_of, file), root, STYLE_CHAIN), os.fstat(file))


def settled(file):
    """The store or its fault, or None where the file moves meanwhile."""
    head, root = page_of(file, 0), page_of(file, 1)
    try:
        found = imported(file, head, root)
    except Fault as fault:
        found = fault
    return None if is_open(head) or (page_of(file, 0), page_of(file, 1)) != (head, root) else found


def opened(path):
    """The file, to be read."""
    if not stat.S_ISREG(os.stat(path).st_mode):
        raise Fault("this is no file")
    return os.open(path, os.O_RDONLY)


def read(path, seconds=1.0):
    """What the store in a file says of itself. Any `Fault` has the path in front."""
    ends = time.monotonic() + seconds
    try:
        file = opened(path)
        try:
            while (found := settled(file)) is None:
                if time.monotonic() > ends:
                    raise Busy("busy: a command writes it, or one was cut off in a commit, which the next command finishes")
                time.sleep(0.01)
        finally:
            os.close(file)
    except OSError as error:
        raise Fault(f"{path}: {error.strerror}") from None
    except Fault as fault:
        raise type(fault)(f"{path}: {fault}") from None
    if isinstance(found, Fault):
        raise Fault(f"{path}: {found}")
    return found

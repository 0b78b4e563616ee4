"""Stores: the few bytes of one that say in which state it is, and what keeps a command from reading or writing it. Each function
that has the name of a line of the program gives what is said of it."""

import difflib
import fcntl
import os
import pwd
import re
import resource
import stat

from explain_files import KINDS, counted, head_of, kind_of, listed, megabytes, name, opened, quoted, shown
from explain_words import order_hint
from store_file import CHANGES, FOLLOWING, FORMAT, HOME, MARK, PAGE, STATE, STYLE_CHAIN, Fault, Pages, chain, is_open, number
from store_file import tables_of as tables_in


def in_store(path, what):
    """What a function gives of the pages of a store; None where they can't be read."""
    it = opened(path)
    if it is None:
        return None
    try:
        with it:
            return what(Pages(it.fileno()))
    except (OSError, Fault):
        return None


def root_of(store):
    """Of a store: its pages, its format, whether something was imported, its changes; None where it can't be read."""
    return in_store(store, lambda pages: tuple(number(pages.page(1), at) for at in (HOME, FORMAT, STATE, CHANGES)))


def tables_of(store):
    """The names of the tables of a store, from the style that it holds; none where it can't be read."""
    style = in_store(store, lambda pages: chain(pages.page, pages.page(1), STYLE_CHAIN))
    try:
        return [str(table["name"]) for table in tables_in(style or b"")]
    except (Fault, KeyError, TypeError):
        return []


def no_table(store, table):
    tables = tables_of(store) if store else []
    if not tables:
        return f'{name(store or "the store")} has no table "{shown(table, 63)}"'
    near = difflib.get_close_matches(table, tables, 3) if len(tables) > 12 else []
    there = listed([shown(it, 63) for it in (*near, *(it for it in tables if it not in near))])
    return f'{name(store)} has no table "{shown(table, 63)}"; it has {there}'


def unknown_table(call):
    tables = call.paths("TABLE")
    return [no_table(call.store(), tables[0])] if tables and call.store() else []


def not_empty(call):
    store = call.store()
    root = root_of(store) if store else None
    if store is None:
        return []
    if root is None:
        kind = kind_of(store)
        what = f", it {KINDS[kind]}" if kind in KINDS else ""
        return [f"{name(store)} is there already and is no store{what}; give a name that is free: nothing is written over it"]
    if root[2] == 0:
        return [f"{name(store)} is an empty store already; go on with: yilgartzu import {quoted(store)} STYLE INPUT"]
    if root[2] == FOLLOWING:
        return [f"{name(store)} is a store already, which follows another one; a new store needs another name"]
    return [f"{name(store)} is a store that holds a map already; changes go in by yilgartzu append, and a new store needs another name"]


def not_formatted(call):
    store = call.store()
    if store is None:
        return []
    data, hint = head_of(store), order_hint(call)
    if data == b"":
        return [f"{name(store)} is empty; this makes it a store: yilgartzu init {quoted(store)}"]
    if data and data.startswith(MARK) and len(data) < 2 * PAGE:
        return [f"{name(store)} is cut off: a store has 8,192 bytes at least, and it has {len(data)}; take the backup"]
    kind = kind_of(store)
    what = KINDS.get(kind, "does not begin as a store does")
    return [f"{name(store)} is no store, it {what}{'; ' + hint if hint else ''}"]


def not_imported(call):
    store = call.store()
    if store and call.command == "follow":
        return [f"{name(store)} has no tables yet, and a difference is told: the first block has to be one of all tables",
            f"yilgartzu feed full=yes SOURCE BOUNDS | yilgartzu follow {quoted(store)} /dev/stdin"]
    return [f"{name(store)} holds no map yet; first: yilgartzu import {quoted(store)} STYLE INPUT"] if store else []


def already_imported(call):
    store = call.store()
    if store is None:
        return []
    if call.command == "follow":
        return [f"{name(store)} holds a map of its own, and follows no other store; one that follows is made by: yilgartzu init NEW_STORE"]
    root = root_of(store)
    changes = f" and {root[3]} changes of it" if root and root[3] else ""
    word = quoted(store)
    return [f"{name(store)} holds a map already{changes}; changes go in by: yilgartzu append {word} BOUNDS CHANGE..",
        "a new import needs a new store: yilgartzu init NEW_STORE"]


def old_format(call):
    store = call.store()
    return [f"{name(store)} was made by an earlier version; first, once: yilgartzu migrate {quoted(store)}"] if store else []


def follower(call):
    store = call.store()
    if store is None:
        return []
    changes = "; changes go into the store that it follows" if call.command in ("append", "feed", "import", "serve") else ""
    return [f"{name(store)} follows another store, whose tables alone it has: follow and export take it, and no other command{changes}"]


def gap(call, file, have, got):
    path, store = call.path(int(file)), call.store()
    if path is None or store is None:
        return []
    return [f"{name(path)} tells change {got} of a store, and {name(store)} has the tables of {have}: those between are lacking; follow their files first",
        f"or take all tables: yilgartzu feed full=yes SOURCE BOUNDS | yilgartzu follow {quoted(store)} /dev/stdin"]


def bad_store(call, page):
    store = call.store()
    if store is None:
        return []
    root, what = root_of(store), f"page {page} does not hold what a store has there"
    if page == "0":
        what = "a commit of it that was cut off is not whole, or a value is missing"
    try:
        there = os.stat(store).st_size // PAGE
        if root and root[0] > there:
            what = f"it is cut off: {there} of its {root[0]} pages are there"
    except OSError:
        pass
    if root and page == "1" and root[1:3] == (1, 1):
        return [f"{name(store)} was made by an earlier version, whose stores can't serve its style; import a fresh extract into a new store"]
    return [f"{name(store)} is damaged, {what}; take the backup, and append the changes since then"]


def told_error(fault):
    return os.strerror(fault.errno) if fault.errno else str(fault)


def away(path):
    """Where a path that is not absolute was looked for."""
    return "" if path.startswith("/") else f" (in {name(os.getcwd())})"


def read_fault(call, file):
    path = call.path(int(file))
    if path is None:
        return []
    if path == "":
        return ["an empty word stands for a file"]
    if path == "-" and not os.path.exists(path):
        return ["- is the name of a file here: /dev/stdin reads standard input"]
    hint = order_hint(call)
    behind = f"; {hint}" if hint else ""
    try:
        mode = os.stat(path).st_mode
        if stat.S_ISDIR(mode):
            return [f"{name(path)} is a folder{behind}"]
        if stat.S_ISREG(mode):
            with open(path, "rb") as it:
                it.read(1)
    except OSError as fault:
        where = away(path) if fault.errno == 2 else rights(path) if fault.errno == 13 else ""
        return [f"{name(path)}: {told_error(fault)}{where}{behind}"]
    return [f"{name(path)} can be opened now: it came in meanwhile, or its disk failed to read; run the command again"]


def user():
    try:
        return pwd.getpwuid(os.geteuid()).pw_name
    except KeyError:
        return str(os.geteuid())


def rights(path):
    """Who may do what with a file, where it can be looked at."""
    try:
        found = os.stat(path)
        owner = pwd.getpwuid(found.st_uid).pw_name
    except (OSError, KeyError):
        return f" (user {user()})"
    return f" (user {user()}; it is {owner}'s, {stat.filemode(found.st_mode)[1:]})"


def write_fault(call):
    if call.command == "tiles" and "clear=yes" in call.options:
        kept = "; nothing was cleared"
    elif call.command == "feed":
        # To run it again would make one more version.
        kept = "; the last step may be in the store without its block: tools/load_postgis --if-behind brings tables up that follow it"
        return [f"standard output took no more: what read it has ended (it may say why), or its disk is full{kept}"]
    elif call.command in ("import", "append", "follow", "serve", "replay", "demo", "migrate", "init"):
        kept = "; the last step may be in the store without its line"
    else:
        kept = ""
    return [f"standard output took no more: what read it has ended (it may say why), or its disk is full{kept}; run it again"]


def may(path, right):
    return os.access(path, right, effective_ids=os.access in os.supports_effective_ids)


def process(pid):
    """A process and the first words of its command line; a lock may outlive the one that took it."""
    try:
        with open(f"/proc/{pid}/cmdline", "rb") as it:
            words = it.read(4_096).split(b"\0")
    except OSError:
        words = [b""]
    what = shown(b" ".join([os.path.basename(words[0]), *words[1:3]]).strip(), 60)
    return f"another process ({pid}, {what})" if what else "another process"


def lock_holder(path, found, shares):
    """Who has a file locked so that the command could not have it; None where nobody is seen.

    The kernel's list is read first, which takes no lock. A shared one is tried only where the list has nothing, and given back at once.
    """
    try:
        with open("/proc/locks") as it:
            for line in it:
                lock = re.match(r"\d+: FLOCK +\w+ +(READ|WRITE) +(-?\d+) +([0-9a-f]+):([0-9a-f]+):(\d+) ", line)
                if not lock or int(lock[5]) != found.st_ino or (shares and lock[1] == "READ"):
                    continue
                if (int(lock[3], 16), int(lock[4], 16)) == (os.major(found.st_dev), os.minor(found.st_dev)):
                    return process(int(lock[2]))
    except (OSError, ValueError):
        pass
    it = opened(path)
    if it is None:
        return None
    with it:
        try:
            fcntl.flock(it, fcntl.LOCK_SH | fcntl.LOCK_NB)
        except BlockingIOError:
            return "another process"
        except OSError:
            pass
    return None


def room_fault(path, size):
    """Why a file can't grow; None where no reason is seen."""
    room = os.statvfs(path)
    free = (room.f_bfree if os.geteuid() == 0 else room.f_bavail) * room.f_frsize
    most = resource.getrlimit(resource.RLIMIT_FSIZE)[0]
    if most != resource.RLIM_INFINITY:
        return f"may grow to {counted(most)} bytes alone (ulimit -f)"
    if free < 1_000_000:
        return f"has no room on its disk ({counted(free // 1000)} KB free); make room and run it again"
    if not room.f_favail and room.f_files and not os.path.exists(path):
        return "can't be made: its disk has room for no more files"
    return f"has little room on its disk ({megabytes(free)} free)" if free < 64_000_000 else None


def folder_fault(call, path):
    """What keeps a store that is not there from being made, or from being found."""
    folder = os.path.dirname(path) or "."
    if os.path.islink(path):
        return f"{name(path)} is a link to a file that is not there"
    if not os.path.isdir(folder):
        return f"{name(path)}: there is no folder {name(folder)}"
    if call.command not in ("init", "replay", "demo"):
        made = f"this makes it a store: yilgartzu init {quoted(path)}"
        other = "a new store is made by yilgartzu init, and filled by yilgartzu import"
        return f"{name(path)}: no such file{away(path)}; {order_hint(call) or (made if call.command in ('import', 'follow') else other)}"
    if os.statvfs(folder).f_flag & os.ST_RDONLY:
        return f"{name(path)}: its file system is read-only"
    if not may(folder, os.W_OK | os.X_OK):
        return f"{name(path)}: no file may be made in its folder by this user{rights(folder)}"
    fault = room_fault(folder, 0)
    return f"{name(path)} {fault}" if fault else f"{name(path)} could not be made"


def store_fault(call, path, found):
    """What keeps a store that is there from being read and written."""
    looks = call.only_looks() and not is_open(head_of(path, PAGE) or b"")
    if stat.S_ISDIR(found.st_mode):
        return f"{name(path)} is a folder"
    if not stat.S_ISREG(found.st_mode):
        return f"{name(path)} is no file, but a pipe or a device"
    if found.st_size > 1 << 62:
        return f"{name(path)} has {counted(found.st_size)} bytes, more than 2^62"
    if not may(path, os.R_OK):
        return f"{name(path)} may not be read by this user{rights(path)}"
    if not looks and os.statvfs(path).f_flag & os.ST_RDONLY:
        return f"{name(path)}: its file system is read-only"
    if not looks and not may(path, os.W_OK):
        return f"{name(path)} may not be written by this user{rights(path)}"
    holder = lock_holder(path, found, looks)
    if holder:
        return f"{holder} has {name(path)} open: wait until it has ended, and run the command again"
    fault = None if looks else room_fault(path, found.st_size)
    if fault:
        return f"{name(path)} {fault}"
    try:
        with open(path, "rb") as it:
            it.read(2 * PAGE)
    except OSError as fault:
        return f"{name(path)}: {told_error(fault)}"
    return f"{name(path)} can be read now: another process had it open, or its disk failed; run the command again"


def disk_fault(call):
    path = call.store()
    if not path:
        return ["an empty word stands for STORE"] if path == "" else []
    try:
        found = os.stat(path)
    except FileNotFoundError:
        return [folder_fault(call, path)]
    except (OSError, ValueError) as fault:
        shut = f": a folder on its path is shut to user {user()}" if isinstance(fault, PermissionError) else ""
        return [f"{name(path)}: {told_error(fault) if isinstance(fault, OSError) else fault}{shut}"]
    hint = order_hint(call) if kind_of(path) != "store" and call.command not in ("init", "replay", "demo") else None
    return [store_fault(call, path, found) + (f"; {hint}" if hint else "")]

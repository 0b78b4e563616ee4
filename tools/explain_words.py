"""The words of a command line: what each stands for by the form of its command, and what is wrong with their order."""

import difflib
import os
import re

from explain_files import KINDS, MAP_DATA, counted, either, kind_of, listed, name, quoted, shown

# The forms of the commands, as `--help` prints them.
FORMS = {
    "points": "KEY INPUT [CHANGE..]",
    "lines": "KEY INPUT [CHANGE..]",
    "init": "STORE",
    "import": "[workers=N] [buckets=N] STORE STYLE INPUT",
    "append": "[ahead=N] [workers=N] STORE BOUNDS CHANGE..",
    "feed": "[workers=N] [full=yes] STORE BOUNDS [CHANGE..]",
    "follow": "STORE FEED..",
    "export": "STORE TABLE",
    "tiles": "[clear=yes] STORE MINZOOM",
    "query": "STORE QUERIES",
    "serve": "[workers=N] [readers=N] STORE BOUNDS QUERIES [CHANGE..]",
    "replay": "[workers=N] STORE STYLE BOUNDS INPUT [CHANGE..]",
    "migrate": "STORE",
    "check": "STORE",
    "demo": "[workers=N] N STORE",
}
MOST_WORDS = 4_096


class Call:
    """The words of a command line, and what each of them stands for by the form of its command."""

    def __init__(self, words):
        self.words = words
        self.command = words[0] if words else ""
        form = FORMS.get(self.command, "").split()
        self.may_have = [it.strip("[]") for it in form if "=" in it]
        self.roles = [it.strip("[].") for it in form if "=" not in it]
        self.needed = [it.strip("[].") for it in form if "=" not in it and not it.startswith("[")]
        self.repeats = bool(form) and form[-1].strip("[]").endswith("..")
        at = 1
        while at < len(words) and re.match("[a-z]+=", words[at]):
            at += 1
        self.options = words[1:at]
        self.first = at + (words[at : at + 1] == ["--"])
        self.given = words[self.first :]

    def role(self, place):
        """What the word at this place stands for; "" where the form has no such word."""
        at = place - self.first
        if at < 0 or not self.roles:
            return ""
        if at < len(self.roles):
            return self.roles[at]
        return self.roles[-1] if self.repeats else ""

    def path(self, place):
        """The file that the word at this place names: of standard input the file that was redirected, where there is one."""
        word = self.words[place] if 0 < place < len(self.words) else None
        if word and word.startswith(("/dev/", "/proc/")) and os.path.isfile(word):
            return os.path.realpath(word)
        return word

    def paths(self, *roles):
        """The words that stand for these, in order."""
        return [word for at, word in enumerate(self.given, self.first) if self.role(at) in roles]

    def store(self):
        return next(iter(self.paths("STORE")), None)

    def only_looks(self):
        return self.command in ("export", "query", "check") or (self.command == "tiles" and "clear=yes" not in self.options)


# --- The order of words

# What the file of each word may be. A store that is to be made need not be there.
FITS = {
    "STORE": ("store",),
    "STYLE": ("style",),
    "BOUNDS": ("rows",),
    "QUERIES": ("queries",),
    "FEED": ("feed", "empty"),
    "INPUT": ("opl", "bom", "empty", *MAP_DATA),
    "CHANGE": ("opl", "bom", "empty", *MAP_DATA),
}
IS = {"STORE": "a store", "STYLE": "a style", "BOUNDS": "a boundary table", "QUERIES": "a file of queries", "FEED": "a feed"}
MADE_BY = {
    "STYLE": "docs/STYLES.md says how it is written",
    "BOUNDS": "tools/tile_rows 14 > rows makes it for zoom 14",
    "FEED": "yilgartzu feed writes it, of the store that is followed",
}


def fits(call, role, word, kind):
    """Whether a word may stand for this."""
    if role in ("MINZOOM", "N"):
        return re.fullmatch(r"\d{1,6}", word) is not None
    if role in ("TABLE", "KEY"):
        return kind is None
    if role == "STORE":
        return kind == "store" or (kind in (None, "empty") and call.command in ("init", "replay", "demo"))
    return kind in FITS[role] or kind == "pipe"


def in_order(call):
    """The given words in the order of the form, and what no word may stand for."""
    left = [(word, kind_of(word)) for word in call.given[:8]]
    order, missing = [], []
    for role in call.needed:
        found = next((it for it in left if fits(call, role, *it)), None)
        if found is None:
            missing.append(role)
        else:
            left.remove(found)
            order.append(found[0])
    left += [(word, None) for word in call.given[8:]]
    return order + [word for word, _ in left], missing


def order_hint(call):
    """What is said where words stand in a wrong order, or one of them is missing; None where neither is seen."""
    if not call.needed or not call.given:
        return None
    order, missing = in_order(call)
    if not missing and order != call.given and len(call.given) <= len(call.needed) + 8 * call.repeats:
        words = " ".join(map(quoted, [call.command, *call.options, *order]))
        return f"are the words in their order ({' '.join(call.needed)})? yilgartzu {words}"
    made_by = MADE_BY.get(missing[0]) if missing else None
    may_lack = len(call.given) < len(call.needed) or (call.repeats and made_by)
    if len(missing) == 1 and order == call.given and may_lack:
        return f"{missing[0]} is missing{': ' + made_by if made_by else ''}"
    return None


def wrong_file(call, path, role):
    """What is said of a file that is of another kind than its word asks for; None where it is of that kind, or of none."""
    kind = kind_of(path)
    if kind in (None, "pipe") or role not in FITS or kind in FITS[role]:
        return None
    hint = order_hint(call) or f"{role} has to be {IS.get(role, 'an OPL file')}"
    return [f"{name(path)} {KINDS[kind]}; {hint}"]


# --- Words that are no command


def option_fault(call):
    """What is wrong with the options; None where nothing is."""
    names = [it.partition("=")[0] for it in call.may_have]
    for at, word in enumerate(call.options):
        key, _, value = word.partition("=")
        if key not in names:
            others = f", but {either(names) if names[1:] else names[0]}" if names else ""
            return f"{call.command} has no option {shown(word, 40)}{others}"
        if any(it.startswith(key + "=") for it in call.options[:at]):
            return f"the option {key} stands twice"
        if key in ("clear", "full") and value != "yes":
            return f"{key} may be yes alone"
        number = int(value) if re.fullmatch(r"[0-9]{1,6}", value) else 0
        if key in ("workers", "readers") and not 1 <= number <= 64:
            return f"{key} is a number from 1 to 64, not {shown(value, 40)}"
        if key == "buckets" and not (1 <= number <= 65_536 and number & (number - 1) == 0):
            return f"buckets is a power of two up to 65536, not {shown(value, 40)}"
        if key == "ahead" and not (re.fullmatch(r"[0-9]{1,6}", value) and number <= 8):
            return f"ahead is a number from 0 to 8, not {shown(value, 40)}"
    return None


def count_fault(call):
    """What is wrong with the number of the words behind the options, and with those that are no files; None where nothing is."""
    late = next((it for it in call.given if re.match("(workers|readers|buckets|ahead|clear|full)=", it)), None)
    dashed = next((it for it in call.given if re.match("--?[a-z]+", it) and not os.path.exists(it)), None)
    most = len(call.words) if call.repeats else len(call.roles)
    if late:
        return f"{shown(late, 40)} stands behind another word: options come first"
    if dashed:
        return f"{shown(dashed, 40)} is no option: they are written workers=2"
    if len(call.given) < len(call.needed):
        return f"{' '.join(call.needed[len(call.given):])} is missing"
    if len(call.given) > most:
        return f"{call.command} takes {most} {'word' if most == 1 else 'words'}, and {len(call.given)} are given"
    if "MINZOOM" in call.roles and not (re.fullmatch(r"[0-9]{1,6}", call.given[1]) and int(call.given[1]) <= 16):
        return f"MINZOOM is a number from 0 to 16, not {shown(call.given[1], 40)}"
    if "N" in call.roles and not (re.fullmatch(r"[1-9][0-9]{0,5}", call.given[0]) and int(call.given[0]) <= 100_000):
        return f"N is a number from 1 to 100000 that begins with no zero, not {shown(call.given[0], 40)}"
    if "KEY" in call.roles and not 1 <= len(call.given[0].encode("utf-8", "surrogateescape")) <= 255:
        return "KEY has 1 to 255 bytes"
    return None


def usage(call):
    """What is said of words that are no command: what is wrong with them, and the form of their command."""
    every = "yilgartzu --help prints the forms of all commands"
    if not call.words:
        return [f"no command was given; there are {listed(list(FORMS))}", every]
    if call.command not in FORMS:
        if re.fullmatch(r"-*(h|\?|help|usage)", call.command):
            return [every]
        if re.fullmatch(r"-*(v|V|version)", call.command):
            return ["the version is printed by yilgartzu --version"]
        near = difflib.get_close_matches(call.command, FORMS, 1)
        meant = f"is {near[0]} meant?" if near else f"there are {listed(list(FORMS))}"
        return [f"there is no command {shown(call.command, 40)}; {meant}", every]
    asks = any(it in ("-h", "--help", "help") for it in call.words[1:])
    fault = None if asks else option_fault(call) or order_hint(call) or count_fault(call)
    if any(re.search("[\udc80-\udcff]", it) for it in call.words):
        fault = "a word is not UTF-8"
    if len(call.words) > MOST_WORDS:
        fault = f"there may be {counted(MOST_WORDS)} words, and {counted(len(call.words))} are given"
    form = f"yilgartzu {call.command} {FORMS[call.command]}"
    return [*([fault] if fault else []), f"the form is: {form}; yilgartzu --help says more"]

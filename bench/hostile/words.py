"""Words of a command line: which are none, beside a model of their forms."""
import re

from runs import Finding

# How many words each command has at least, whether more may follow, and its options.
COMMANDS = {
    "points": (2, True, ()), "lines": (2, True, ()), "init": (1, False, ()), "migrate": (1, False, ()), "check": (1, False, ()),
    "import": (3, False, ("workers", "buckets")), "append": (3, True, ("ahead", "workers")), "export": (2, False, ()),
    "feed": (2, True, ("workers", "full")), "follow": (2, True, ()),
    "tiles": (2, False, ("clear",)), "query": (2, False, ()), "serve": (3, True, ("workers", "readers")),
    "replay": (4, True, ("workers",)),
}
FORMS = {
    "points": ("amenity", "town.opl"), "lines": ("highway", "town.opl"), "init": ("new",), "migrate": ("store",), "check": ("store",),
    "import": ("new", "style", "town.opl"), "append": ("store", "rows", "change.opl"), "export": ("store", "roads"),
    "feed": ("store", "rows"), "follow": ("new", "all.feed"),
    "tiles": ("store", "3"), "query": ("store", "asked"), "serve": ("store", "rows", "asked"),
    "replay": ("new", "style", "rows", "town.opl"),
}
MOST_WORDS, MOST_KEY = 4_096, 255
WORDS = [
    "town.opl", "change.opl", "style", "rows", "asked", "store", "old", "new", "nothing", "folder", "roads", "cafes", "amenity", "highway",
    "0", "8", "16", "17", "00", "000016", "0000016", "-1", "", " ", "--", "-", "--help", "--version", "a=b", "=", "A=b", "a=", "é",
    "/dev/null", "workers", "k" * 255, "k" * 256, "é" * 127 + "k", "é" * 128, b"\xff", b"k\xc3",
]
NUMBERS = [
    "1", "2", "0", "8", "9", "64", "65", "256", "65536", "65537", "131072", "3", "", "yes", "no", "01", "000001", "0000001", "-1", "+1",
    "1 ", "9" * 30,
]
OPTIONS = [f"{name}={value}" for name in ("workers", "readers", "buckets", "ahead", "clear", "full") for value in NUMBERS]


class Kind:
    def __init__(self, runs, known):
        self.runs = runs
        self.files = {"style": known.styles()[0], "rows": known.rows(4), "asked": b"count roads\n", "bad": b"n1 q\n"}
        self.files |= {name: (known.EXAMPLES / of).read_bytes() for name, of in (("town.opl", "town.opl"), ("change.opl", "town_change.opl"))}
        self.fill()
        runs.ask("init", "store", may=(0,))
        runs.ask("import", "buckets=4", "store", "style", "town.opl", may=(0,))
        self.files |= {"store": (runs.room / "store").read_bytes()}
        self.files |= {"all.feed": runs.ask("feed", "full=yes", "store", "rows", may=(0,)).out}
        # A program of before the command takes it for no word of its own.
        self.has_check = runs.ask("check", "store").status == 0

    def fill(self):
        for name, data in self.files.items():
            (self.runs.room / name).write_bytes(data)
        (self.runs.room / "folder").mkdir(exist_ok=True)

    def trial(self, draw):
        self.fill()
        words = self.words(draw)
        ended = self.runs.ask(*words)
        told = ("--help", "--version")
        if words[0] in told and is_text(words):
            self.runs.want(ended, 0, "")
        elif is_usage(words, self.has_check) != (ended.status == 2):
            what = "a" if ended.status == 2 else "no"
            raise Finding(f"it ended with {ended.status} `{ended.line}`, and its words are those of {what} command", words)
        return ended.status

    def words(self, draw):
        command = draw.choice(list(COMMANDS)) if draw.random() < 0.95 else draw.choice([*WORDS, "Init", "points ", "town"])
        least, more, options = COMMANDS.get(command, (2, True, ()))
        good = self.good(draw, command)
        if draw.random() < 0.4:
            good = [draw.choice(WORDS) for _ in range(max(0, least + draw.randrange(-1, 3)))]
        own, taken = [it for it in OPTIONS if it.split("=")[0] in options] or OPTIONS, []
        if options or draw.random() < 0.1:
            taken = [draw.choice(OPTIONS if draw.random() < 0.3 else own) for _ in range(draw.choice((0, 0, 1, 1, 2)))]
        dashes = ["--"] if draw.random() < 0.1 else []
        words = [command, *taken, *dashes, *good]
        if draw.random() < 0.02:
            words += ["change.opl"] * (MOST_WORDS - len(words) + draw.choice((-1, 0, 1, 5)))
        if draw.random() < 0.25:
            at = draw.randrange(len(words))
            words[at : at + draw.randrange(2)] = [draw.choice(WORDS)] * draw.randrange(2)
        return words or [command]

    def good(self, draw, command):
        """Words as the command has them, some of them of other files."""
        words = list(FORMS.get(command, ("store", "roads")))
        if draw.random() < 0.3:
            words[draw.randrange(len(words))] = draw.choice([*self.files, "nothing", "folder", "/dev/null"])
        return words + ["change.opl"] * draw.choice((0, 0, 1, 2)) * COMMANDS.get(command, (0, True))[1]


# --- The model


def is_text(words):
    return all(isinstance(it, str) for it in words)


def is_usage(words, has_check):
    """Whether words are no command."""
    if not words or len(words) > MOST_WORDS or not is_text(words) or words[0] not in COMMANDS or words[0] == "check" and not has_check:
        return True
    least, more, allowed = COMMANDS[words[0]]
    at = 1
    while at < len(words) and re.match("[a-z]+=", words[at]):
        at += 1
    names = [it.partition("=")[0] for it in words[1:at]]
    if len(set(names)) < len(names) or not all(it in allowed for it in names):
        return True
    if not all(is_option(*it.split("=", 1)) for it in words[1:at]):
        return True
    rest = words[at + (words[at : at + 1] == ["--"]) :]
    if len(rest) < least or len(rest) > least and not more:
        return True
    if words[0] in ("points", "lines"):
        return not 1 <= len(rest[0].encode()) <= MOST_KEY
    return words[0] == "tiles" and not is_number(rest[1], 0, 16)


def is_number(text, low, high):
    return re.fullmatch("[0-9]{1,6}", text) is not None and low <= int(text) <= high


def is_option(name, value):
    if name in ("clear", "full"):
        return value == "yes"
    if name == "buckets":
        return is_number(value, 1, 65_536) and int(value) & (int(value) - 1) == 0
    return is_number(value, *{"workers": (1, 64), "readers": (1, 64), "ahead": (0, 8)}[name])

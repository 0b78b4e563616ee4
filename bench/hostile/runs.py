"""Runs of the built program whose end has to be one that README names, for the tools that try it with hostile files.

PROGRAM names another program than the built one, as in bench/begin.sh. A run that ends otherwise raises a `Finding`.
"""
import os
import pathlib
import re
import shlex
import signal
import subprocess

HERE = pathlib.Path(__file__).resolve().parent
BENCH = HERE.parent
TOP = BENCH.parent
# How long a run may take, in seconds.
PATIENCE = 10

# What stands on standard error at each status.
KEY = r"[nwr][1-9]\d*"
PART = r"(top|selection [1-9]\d*|table [1-9]\d*)"
LIMIT = r"(line-bytes|file-lines|file-entries|style-bytes|bounds-bytes|query-bytes|pages|pending|changes)"
FORMS = {
    0: "",
    2: "usage",
    3: rf"malformed file \d+ line [1-9]\d* cause ([1-9]|1[0-2]|13 {KEY} {KEY})",
    4: rf"bad style file \d+ cause ([1-9]|10) part {PART}",
    5: r"bad bounds file \d+ line [1-9]\d*",
    6: r"not empty|not formatted|not imported|already imported|old format|follower|bad store page \d+",
    7: r"read fault file \d+",
    8: "write fault",
    9: "disk fault",
    10: rf"limit {LIMIT} value \d+",
    11: "out of memory",
    12: r"unknown table|bad query file \d+ line [1-9]\d* cause [1-4]",
    14: r"gap file \d+ have \d+ got \d+",
    15: r"bad feed file \d+ line [1-9]\d* cause [1-6]",
}
# The commands that tell each step as it is done, which stays where a later one is refused.
STEPWISE = ("append", "serve", "replay")
# And a block of a feed, which tells one too.
BLOCK = rb"((full [0-9]+\nstyle [0-9a-f]+\n|delta [0-9]+\n)((set|del|more) [0-9a-z ]+\n)*end\n)"


class Finding(Exception):
    """An end that the program may not have: what was seen. `words` are those of the run."""

    def __init__(self, what, words=()):
        super().__init__(what)
        self.words = words


class Ended:
    """How a run ended, and what it printed."""

    def __init__(self, words, status, out, err):
        self.words, self.status, self.out, self.err = words, status, out, err
        self.line = err.decode("utf-8", "replace").removesuffix("\n")

    def told(self):
        return self.status, self.line


def program():
    """The path of the program, which the launcher proves and builds first where it is not there."""
    if os.environ.get("PROGRAM"):
        return os.path.abspath(os.environ["PROGRAM"])
    subprocess.run([TOP / "yilgartzu", "--version"], env={**os.environ, "YILGARTZU_BUILD": "1"}, stdout=subprocess.DEVNULL, check=True)
    return str(TOP / "crates/updater_main/out/updater_main")


def shown(data, most=200):
    return repr(data if len(data) <= most else data[: most // 2] + b" .. " + data[-most // 2 :])


class Runs:
    """Runs in one folder, which are written down."""

    def __init__(self, room, path, environment=None):
        self.room, self.path, self.log, self.environment = pathlib.Path(room), path, [], environment or {}
        # The statuses whose line may be missing.
        self.silent = ()

    def ask(self, *words, may=None, seconds=PATIENCE):
        """A run that has to end by one of these statuses, or of all that there are, with the line of its status, in time."""
        words = [it if isinstance(it, bytes) else str(it) for it in words]
        self.log.append(words)
        how = {"stdin": subprocess.DEVNULL, "capture_output": True, "cwd": self.room, "timeout": seconds}
        try:
            run = subprocess.run([self.path, *words], env={**os.environ, "YILGARTZU_PROGRESS": "0", **self.environment}, **how)
        except subprocess.TimeoutExpired:
            raise Finding(f"it had not ended after {seconds} seconds", words) from None
        ended = Ended(words, run.returncode, run.stdout, run.stderr)
        self.judge(ended, may)
        return ended

    def judge(self, ended, may):
        status, words = ended.status, ended.words
        if status < 0:
            raise Finding(f"it ended by {signal.Signals(-status).name}: {shown(ended.err)}", words)
        if status not in FORMS or may is not None and status not in may:
            raise Finding(f"it ended with {status}: {shown(ended.err)}", words)
        form = FORMS[status]
        is_told = re.fullmatch(f"({form})\n" if form else "", ended.err.decode("utf-8", "replace"))
        if not is_told and (ended.err or status not in self.silent):
            raise Finding(f"with status {status} standard error is {shown(ended.err)}", words)
        if status and ended.out and not may_print(words, ended.out):
            raise Finding(f"with status {status} standard output is {shown(ended.out)}", words)

    def want(self, ended, status, line, out=None):
        """That a run ended with this status, this line and, where it is told, this output."""
        if ended.told() != (status, line):
            raise Finding(f"it ended with {ended.status} `{ended.line}`, not with {status} `{line}`", ended.words)
        if out is not None and ended.out != out:
            at = next((at for at, (a, b) in enumerate(zip(ended.out, out)) if a != b), min(len(out), len(ended.out)))
            raise Finding(f"from byte {at} on the output is {shown(ended.out[at:])}, not {shown(out[at:])}", ended.words)


def may_print(words, out):
    """Whether an output may stand before a fault: steps that are done, and tiles that were to be cleared next."""
    if words[:2] == ["tiles", "clear=yes"]:
        return re.fullmatch(rb"([0-9]+/[0-9]+/[0-9]+\n)+", out)
    if words[0] == "feed":
        return re.fullmatch(BLOCK + b"+", out)
    if words[0] == "follow":
        versions = versions_in(out)
        return versions is not None and versions == sorted(versions)
    return words[0] in STEPWISE and are_versions(out)


def versions_in(out):
    """The versions that an output tells, in lines; None where it is something else."""
    numbers = re.findall(rb"version (0|[1-9]\d*)\n", out)
    return list(map(int, numbers)) if b"".join(b"version %s\n" % it for it in numbers) == out else None


def are_versions(out):
    """Whether an output is lines of versions, each one more than the one before."""
    numbers = versions_in(out)
    return numbers is not None and all(b == a + 1 for a, b in zip(numbers, numbers[1:]))


def keep(folder, name, finding, log):
    """Writes beside the inputs what was found and the words of the last runs, so that a shell repeats them."""
    def spelled(words):
        return " ".join(shlex.quote(it if isinstance(it, str) else it.decode("utf-8", "backslashreplace")) for it in words)

    text = f"{name}: {finding}\nthe run: {spelled(finding.words)}\nall runs in this folder, in order:\n"
    (pathlib.Path(folder) / "FOUND").write_text(text + "".join(f"  {spelled(words)}\n" for words in log[-60:]), encoding="utf-8")

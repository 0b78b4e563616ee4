"""What the checks of the built program have in common: a run with what it has to answer, what a check stands on, what Debian has
to give, and differences told by a line.

Each check is a program of this folder, which prints a line for each difference to standard error and ends in 1 where there is one.
"""
import contextlib
import importlib.machinery
import importlib.util
import os
import pathlib
import shutil
import subprocess
import sys
import tempfile

HERE = pathlib.Path(__file__).resolve().parent.parent
PROGRAM = str(HERE / "yilgartzu")
# The program itself, where it stands built: the launcher has to look first which one to run.
BINARY = HERE / "crates/updater_main/out/updater_main"
CLUSTER = HERE / "bench/osm2pgsql/cluster"
# In front of a run by a user without rights.
NOBODY = ("setpriv", "--reuid", "65534", "--regid", "65534", "--clear-groups")
# How many times as long as else a run may take: bench/edges has a slow program.
PATIENCE = float(os.environ.get("PATIENCE", "1"))
failures = []


# --- What is told


def passed_over(what):
    print(f".ci/{pathlib.Path(sys.argv[0]).name}: {what}", file=sys.stderr, flush=True)


def differs(what):
    failures.append(what)
    passed_over(what)


def shown(data):
    return repr(data if len(data) <= 160 else data[:80] + b" .. " + data[-60:])


def compare(name, what, found, wanted):
    """Tells where bytes differ, and of other values both."""
    if found == wanted:
        return
    if not isinstance(found, bytes) or not isinstance(wanted, bytes):
        return differs(f"{name}: {what} is {found!r:.300}, not {wanted!r:.300}")
    place = next((at for at, (a, b) in enumerate(zip(found, wanted)) if a != b), min(len(found), len(wanted)))
    here = slice(place, place + 60)
    bytes_there = f"from byte {place} on {shown(found[here])}, not {shown(wanted[here])}"
    differs(f"{name}: {what} has {len(found)} bytes, not {len(wanted)}; {bytes_there}")


# --- Runs


def run(*words, **how):
    """One run with all that it printed. One that does not end is killed, and says so in place of its line."""
    how = {"stdin": subprocess.DEVNULL, "stdout": subprocess.PIPE, "stderr": subprocess.PIPE, "timeout": 60, **how}
    how["timeout"] = how["timeout"] and how["timeout"] * PATIENCE
    words = [it if isinstance(it, (str, bytes, os.PathLike)) else str(it) for it in words]
    try:
        return subprocess.run(words, **how)
    except subprocess.TimeoutExpired:
        said = f"it had not ended after {how['timeout']} seconds"
        return subprocess.CompletedProcess(words, None, None, said if how.get("text") else said.encode())


def ended_so(name, ended, status, output, line):
    """That a run ended with this. None stands for what is not looked at, or went elsewhere."""
    if ended.returncode != status:
        differs(f"{name}: the status is {ended.returncode}, not {status}")
    if output is not None and ended.stdout is not None:
        compare(name, "the output", ended.stdout, output)
    if line is not None and ended.stderr is not None:
        compare(name, "standard error", ended.stderr, line)


def expect(name, status, output, line, *words, program=PROGRAM, **how):
    """One run of the program. Its line stands without the end of a line."""
    ended_so(name, run(program, *words, **{"timeout": 20, "cwd": HERE, **how}), status, output, f"{line}\n".encode() if line else b"")


def made(*words, **how):
    """A run that has to be good, so that something can be tried on what it made: its output."""
    ended = run(*words, **how)
    if ended.returncode:
        raise RuntimeError(f"{' '.join(map(str, words))} ended with {ended.returncode}: {ended.stderr!r}")
    return ended.stdout


def tried(part, *words):
    """What a part of a check gives; where it can't go on, that is a difference too."""
    try:
        return part(*words)
    except Exception as error:
        differs(f"{part.__name__}: {type(error).__name__}: {error}")


@contextlib.contextmanager
def a_room():
    """A folder that is gone afterwards, without a link on its path. Other users may pass through it."""
    with tempfile.TemporaryDirectory(ignore_cleanup_errors=True) as name:
        room = pathlib.Path(os.path.realpath(name))
        room.chmod(0o711)
        yield room


def in_rooms(*parts, beside=()):
    """Tries parts of a check, each in a room of its own, behind what they share."""
    for part in parts:
        with a_room() as room:
            tried(part, *beside, room)


def is_ready():
    """Whether the program runs. The first use may build it, and tells of it."""
    first = run(PROGRAM, "--version", timeout=None)
    if first.returncode:
        sys.stderr.buffer.write(first.stderr)
    return first.returncode == 0


# --- Files


def bytes_of(path):
    return path.read_bytes() if path.is_file() else b""


def noise(pick, length):
    return pick.getrandbits(8 * length).to_bytes(length, "little")


def script(path, text):
    """A program of a few lines, with the folders that it stands in."""
    path.parent.mkdir(parents=True, exist_ok=True)
    path.unlink(missing_ok=True)
    path.write_text(text)
    path.chmod(0o755)
    return path


def patched(path, to, at, data):
    """A copy of a file with other bytes at a place."""
    whole = path.read_bytes()
    to.write_bytes(whole[:at] + data + whole[at + len(data) :])
    return to


def rows_of_tiles(path, zoom):
    """The boundary table of a zoom, as tools/tile_rows makes it."""
    path.write_bytes(made(HERE / "tools/tile_rows", zoom))
    return path


def tool_module(name):
    """The functions of a tool, or of a module beside the tools. A start of Python takes longer than most calls of one."""
    folder = HERE / "tools"
    if str(folder) not in sys.path:
        sys.path.insert(0, str(folder))
    path = folder / name if (folder / name).is_file() else folder / f"{name}.py"
    loader = importlib.machinery.SourceFileLoader(name, str(path))
    found = importlib.util.module_from_spec(importlib.util.spec_from_loader(name, loader))
    sys.modules[name] = found
    loader.exec_module(found)
    return found


# --- What Debian has to give


def installed(is_there, *packages):
    """Whether something is there, once Debian's packages were asked for where it is not; only root can."""
    if is_there() or os.geteuid() or not shutil.which("apt-get"):
        return bool(is_there())
    apt = "apt-get", "-q", "-o", "DPkg::Lock::Timeout=60", "-o", "Acquire::Retries=1", "-o", "Acquire::http::Timeout=20"
    for words in (("update",), ("install", "-y", "--no-install-recommends", *packages)):
        run(*apt, *words, timeout=600, env={**os.environ, "DEBIAN_FRONTEND": "noninteractive"})
    return bool(is_there())


def has_commands(packages):
    """The commands of these that are there, each with the package that has it, once the others were asked for."""
    def there():
        return [command for command in packages if shutil.which(command)]

    installed(lambda: len(there()) == len(packages), *sorted({package for command, package in packages.items() if command not in there()}))
    return there()


def has_postgis():
    return shutil.which("psql") and list(pathlib.Path("/usr/share/postgresql").glob("*/extension/postgis.control"))


def asked(folder, text, database="map"):
    """What a server answers."""
    return made(CLUSTER, "sql", folder, database, text).decode().strip()


@contextlib.contextmanager
def server():
    """The folder of a PostgreSQL server of its own, with a database `map` that has PostGIS, or None where none can be had."""
    if not installed(has_postgis, "postgresql", "postgis", "postgresql-postgis"):
        yield None
        return
    # Debian's psql is a script that looks for the one to call.
    own = sorted(pathlib.Path("/usr/lib/postgresql").glob("*/bin"))[-1]
    os.environ["PATH"] = f"{own}:{os.environ['PATH']}"
    # The server runs as another user where this runs as root.
    with a_room() as room:
        folder = room / "cluster"
        if run(CLUSTER, "start", folder, timeout=120).returncode:
            yield None
            return
        try:
            asked(folder, "create database map", "postgres")
            asked(folder, "create extension postgis")
            yield folder
        finally:
            run(CLUSTER, "stop", folder)

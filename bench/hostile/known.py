"""Good inputs to begin with: the examples, and a piece of a town of bench/region."""
import functools
import pathlib
import subprocess
import tempfile

from runs import BENCH, TOP

EXAMPLES = TOP / "examples"


def lines(name):
    """The lines of an example that are no remarks."""
    return [line for line in (EXAMPLES / name).read_bytes().splitlines() if line and line[:1] != b"#"]


@functools.cache
def town():
    """The lines of the smallest town."""
    with tempfile.TemporaryDirectory() as name:
        path = pathlib.Path(name) / "town.opl"
        subprocess.run([BENCH / "region", path, "10000"], check=True)
        return path.read_bytes().splitlines()


def region(count):
    """So many of its lines: nodes, ways and relations."""
    found = []
    for letter in (b"n", b"w", b"r"):
        of = [line for line in town() if line.startswith(letter)]
        found += of[:: max(1, 3 * len(of) // count)]
    return found


def styles():
    """The texts of the example styles."""
    return [path.read_bytes() for path in [EXAMPLES / "town.toml", *sorted((EXAMPLES / "cookbook").glob("*.toml"))]]


@functools.cache
def rows(zoom):
    """The boundary table of a zoom."""
    return subprocess.run([TOP / "tools/tile_rows", str(zoom)], stdout=subprocess.PIPE, check=True).stdout


def piece(ways):
    """A piece of the town that hangs together: so many neighbouring ways and those of the relations that have them as members, with
    their nodes, and the relations, cut to what is there."""
    of = {line.split(b" ", 1)[0].decode(): line for line in town()}
    chosen, relations = [it for it in of if it[0] == "w"][:ways], []
    for name in (it for it in of if it[0] == "r"):
        members = [it.partition("@")[0] for it in of[name].decode().rpartition(" M")[2].split(",")]
        if 1 < len(members) < 12 and len(relations) < ways // 10:
            relations.append(name)
            chosen += [it for it in members if it[0] == "w"]
    refs = {ref for name in chosen for ref in of[name].decode().rpartition(" N")[2].split(",")}
    alone = [it for it in of if it[0] == "n" and b" T " not in of[it]][:ways]
    names = sorted({*chosen, *refs, *alone, *relations}, key=lambda it: ("nwr".index(it[0]), int(it[1:])))
    return [of[name] for name in names]


def queries():
    """The queries of the example."""
    return (EXAMPLES / "town_queries").read_bytes()

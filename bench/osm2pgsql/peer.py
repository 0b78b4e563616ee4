"""osm2pgsql with a PostgreSQL of its own, and how runs are measured beside it: used by bench/peers, bench/store_run,
bench/queries and bench/same_rows."""
import os
import pathlib
import subprocess
import sys
import time

TOOLS = pathlib.Path(__file__).resolve().parent
TICK = os.sysconf("SC_CLK_TCK")
NOTHING = subprocess.DEVNULL


def memory(number):
    """The memory of a process in KiB: what it shares is divided among those that share it."""
    try:
        with open(f"/proc/{number}/smaps_rollup") as it:
            return next((int(line.split()[1]) for line in it if line.startswith("Pss:")), 0)
    except OSError:
        return 0


class Run:
    """What a command took: wall and processor seconds, and its memory in MB."""

    def __init__(self, wall, usage, beside=0.0):
        self.wall, self.seconds, self.size = wall, usage.ru_utime + usage.ru_stime + beside, usage.ru_maxrss / 1024


class Peer:
    """A cluster in a folder, and osm2pgsql over it."""

    def __init__(self, work):
        self.work, self.folder = work, f"{work}/cluster"
        self.said = f"{work}/said"

    def cluster(self, deed, *words):
        ran = subprocess.run([TOOLS / "cluster", deed, self.folder, *words], stdout=subprocess.PIPE, text=True, check=True)
        return ran.stdout.strip()

    def sql(self, text, database="postgres"):
        return self.cluster("sql", database, text)

    def server(self):
        """The processes of the server."""
        first = int(self.cluster("pid"))
        with open(f"/proc/{first}/task/{first}/children") as it:
            return [first, *map(int, it.read().split())]

    def server_seconds(self):
        """The processor time of the server so far, with that of its processes that have ended."""
        ticks = 0
        for at, number in enumerate(self.server()):
            try:
                with open(f"/proc/{number}/stat") as it:
                    times = [int(word) for word in it.read().rpartition(")")[2].split()[11:15]]
            except OSError:
                continue
            ticks += sum(times if at == 0 else times[:2])
        return ticks / TICK

    def measured(self, words, server=True):
        """What a command took, the server's processor time with it; the bench ends where it fails."""
        os.sync()
        before, start = self.server_seconds() if server else 0, time.perf_counter()
        with open(self.said, "wb") as said:
            child = subprocess.Popen(words, stdout=said, stderr=said)
            _, status, usage = os.wait4(child.pid, 0)
        wall = time.perf_counter() - start
        if status != 0:
            with open(self.said, errors="replace") as said:
                sys.exit(f"{os.environ['BENCH']}: {words} ended with {status}: {said.read()[-2000:]}")
        if server:
            time.sleep(0.3)
        return Run(wall, usage, self.server_seconds() - before if server else 0)

    def new_database(self, name, template=None):
        """A database without tables, or a copy. After a copy the server logs changes alone: no checkpoint makes it log pages."""
        self.sql(f"drop database if exists {name}")
        self.sql(f"create database {name}" + (f" template {template}" if template else ""))
        if not template:
            self.sql("create extension postgis", name)
            self.sql("checkpoint")

    def osm2pgsql(self, deed, database, file):
        return [str(TOOLS / "run"), deed, self.folder, database, str(file)]

    def peak(self, words):
        """The most memory in MB that osm2pgsql and a freshly started server took together."""
        self.cluster("stop")
        self.cluster("start")
        child, most = subprocess.Popen(words, stdout=NOTHING, stderr=NOTHING), 0
        while child.poll() is None:
            most = max(most, sum(map(memory, [child.pid, *self.server()])))
            time.sleep(0.05)
        return most / 1024

    def psql(self, database, text):
        return ["psql", "-X", "-q", "-h", self.folder, "-U", "postgres", "-d", database, "-c", text]

"""The map of bench/same_rows, its change, and how the rows of two programs are compared in a database."""
import os
import random
import subprocess
import sys
import tomllib

from figures import figure
from peer import Peer

TYPES = {"int": "bigint", "text": "text"}
ORDER = "nwr"


# --- The map


class Beside:
    """Objects beside the town, each in a cell of its own, with ids below those of the town."""

    def __init__(self, seed):
        self.pick, self.next, self.objects, self.cell = random.Random(seed), {kind: 1 for kind in ORDER}, {}, 0

    def put(self, kind, tags, rest):
        key = ORDER.index(kind), self.next[kind]
        self.next[kind] += 1
        self.objects[key] = tags, rest
        return f"{kind}{key[1]}"

    def here(self, x, y, tags=""):
        """A node in the cell, in steps of some ten metres."""
        lon, lat = 100_000_000 + self.cell % 100 * 100_000 + x * 1_000, 500_000_000 + self.cell // 100 * 100_000 + y * 1_000
        return self.put("n", tags, f"x{lon // 10**7}.{lon % 10**7:07} y{lat // 10**7}.{lat % 10**7:07}")

    def way(self, tags, *places):
        made = {place: self.here(*place) for place in dict.fromkeys(places)}
        return self.put("w", tags, "N" + ",".join(made[place] for place in places))

    def joined(self, tags, *refs):
        return self.put("w", tags, "N" + ",".join(refs))

    def relation(self, tags, *members):
        return self.put("r", tags, "M" + ",".join(members))

    def role(self):
        return self.pick.choice(("outer", "inner", "", "part"))

    def square(self, tags, low=10, high=40):
        return self.way(tags, (low, low), (low, high), (high, high), (high, low), (low, low))


def point(it):
    it.here(5, 5, it.pick.choice((
        "place=town,name=Neu%20%stadt,population=1200", "place=village,name=Hof,population=about%20%9", "place=town", "place=farm,name=X",
        "addr:housenumber=7a,addr:street=Am%20%Markt", "addr:housenumber=1,amenity=bank,name=Bank%20%%22%X%22%", "shop=a%5c%b,name=%2c%%3d%",
        "amenity=cafe,name=%0a%%09%,craft=yes", "office=yes,leisure=%20%", "highway=crossing",
    )))


def rail(it):
    gauge = it.pick.choice((",gauge=1435", ",gauge=1435;1000", ",gauge=narrow", ""))
    it.way(f"railway={it.pick.choice(('rail', 'tram', 'abandoned'))},layer={it.pick.choice(('-1', '+1', '0', '2.5'))}{gauge}", (1, 1), (5, 1), (9, 4), (9, 4), (8, 8))


def closed(it):
    it.square(it.pick.choice((
        "amenity=school,building=school,building:levels=2.5,name=Schule", "leisure=park,name=Park", "building=no,shop=kiosk", "natural=water",
        "building=yes,building:levels=12,height=40%20%m", "highway=pedestrian,area=yes,tourism=attraction", "highway=footway",
    )))


def crossed(it):
    """A bow tie, or a ring with a spike: not valid for PostGIS."""
    if it.pick.random() < 0.5:
        it.way("landuse=grass,name=Schleife", (10, 10), (30, 30), (30, 10), (10, 30), (10, 10))
    else:
        it.way("landuse=meadow,name=Dorn", (10, 10), (10, 30), (30, 30), (40, 40), (30, 30), (30, 10), (10, 10))


def ring(it):
    """An area of three ways, with roles that may be wrong, and sometimes one that is not there."""
    corners = [it.here(*place) for place in ((10, 10), (10, 90), (90, 90), (90, 10))]
    ways = [it.joined("", *corners[:3]), it.joined("natural=cliff", corners[0], corners[3], corners[2])]
    members = [f"{way}@{it.role()}" for way in (*ways, it.square("natural=water", 30, 60))]
    lost = [f"w{10**9}@outer"] if it.pick.random() < 0.2 else []
    kind = it.pick.choice(("multipolygon", "multipolygon", "boundary", "site"))
    it.relation(f"type={kind}," + it.pick.choice((
        "landuse=forest,name=Wald", "building=yes", "boundary=administrative,admin_level=8,name=Neu", "boundary=administrative,admin_level=x",
        "amenity=university,leisure=garden",
    )), *members, *lost, f"{corners[0]}@label")


def routes(it):
    """Lines that share ways, with a branch, a way that is not there and one that stands twice."""
    nodes = [it.here(10 * x, 10 + x % 3) for x in range(6)]
    kind = it.pick.choice(("residential", "primary", "footway", "track"))
    ways = [it.joined(f"highway={kind},lanes={it.pick.choice(('2', '1.5'))}", one, f"n{10**10}", other) for one, other in zip(nodes, nodes[1:])]
    ways.append(it.joined("highway=service,oneway=yes,name=Stich", nodes[2], it.here(25, 40)))
    for route in it.pick.sample(("bus", "bus", "bicycle", "hiking", "tram"), 3):
        members = it.pick.sample(ways, it.pick.randint(1, len(ways)))
        ref = f",ref={it.pick.choice(('7', '12', 'M1', 'a%2c%b'))}" if it.pick.random() < 0.8 else ""
        more = [f"{members[0]}@backward"] if it.pick.random() < 0.3 else [f"w{10**9}@"]
        it.relation(f"type=route,route={route}{ref}", f"{nodes[0]}@stop", *[f"{way}@" for way in members], *more)


KINDS = point, rail, closed, crossed, ring, routes


def beside(count):
    it = Beside(20261129)
    for it.cell in range(count):
        KINDS[it.cell % len(KINDS)](it)
    return it


def line(key, version, tags, rest, is_there=True):
    head = f"{ORDER[key[0]]}{key[1]} v{version} d{'V' if is_there else 'D'} c{version} t2026-01-0{version}T00:00:00Z i1 uanna"
    return f"{head} T{tags} {rest}\n" if is_there else f"{head} T {('x y', 'N', 'M')[key[0]]}\n"


def changed(it):
    """A change of some of the objects beside the town: moved, deleted, with other tags, members or nodes."""
    others, change = list(it.objects.items()), {}
    for key, (tags, rest) in others:
        chance = it.pick.random()
        if chance < 0.04:
            change[key] = line(key, 2, "", "", False)
        elif chance < 0.08:
            change[key] = line(key, 2, it.pick.choice([tags for (kind, _), (tags, _) in others if kind == key[0]]), rest)
        elif chance < 0.12 and key[0] == 0:
            x, y = rest.split(" ")
            change[key] = line(key, 2, tags, f"{x[:-4]}{it.pick.randint(1000, 9999)} {y}")
        elif chance < 0.12:
            parts = rest[1:].split(",")
            change[key] = line(key, 2, tags, rest[0] + ",".join(parts[: it.pick.randint(1, len(parts))]))
    return change


def key_of(text):
    word = text[: text.index(" ")]
    return ORDER.index(word[0]), int(word[1:])


def by_key(path):
    with open(path, encoding="utf-8", newline="\n") as it:
        return {key_of(text): text for text in it}


def write(path, lines):
    with open(path, "w", encoding="utf-8", newline="\n") as out:
        out.writelines(lines[key] for key in sorted(lines))
    return path


def maps(work, nodes):
    """The map, the change, and the map as the change leaves it, of a town and its change."""
    it = beside(max(300, nodes // 50))
    first = {key: line(key, 1, *object) for key, object in it.objects.items()} | by_key(work / "town.opl")
    change = changed(it) | by_key(work / "day.opl")
    then = {key: text for key, text in (first | change).items() if " dD " not in text}
    return write(work / "map.opl", first), write(work / "change.opl", change), write(work / "then.opl", then)


# --- The two databases


class Rows:
    """A database, with the rows of both programs, each set in a schema of its own."""

    def __init__(self, top, work):
        self.program, self.cookbook, self.style, self.peer = top / "yilgartzu", top / "examples/cookbook", work / "style.toml", Peer(work)
        self.tables = tomllib.loads(self.style.read_text(encoding="utf-8"))["table"]
        self.peer.new_database("same")

    def sql(self, text):
        return self.peer.sql(text, "same")

    def made(self, *words):
        """What a command of this program prints."""
        return subprocess.run([self.program, *words], stdout=subprocess.PIPE, check=True).stdout

    def new_store(self, store, file):
        """A store of a map under the style of the tables."""
        self.made("init", store)
        self.made("import", "buckets=256", store, self.style, file)

    def of_osm2pgsql(self, mode, file, schema):
        """Has osm2pgsql make its tables of a file, and keeps them in a schema."""
        lua = self.cookbook / "flex.lua"
        words = ["osm2pgsql", mode, "--slim", "-H", self.peer.folder, "-U", "postgres", "-d", "same", "-O", "flex", "-S", lua, file]
        ran = subprocess.run(words, capture_output=True, text=True)
        if ran.returncode:
            sys.exit(f"{os.environ['BENCH']}: osm2pgsql {mode} ended with {ran.returncode}: {ran.stderr[-2000:]}")
        names = [table["name"] for table in self.tables]
        copies = "".join(f"create table {schema}.{name} as select * from public.{name};" for name in names)
        self.sql(f"create schema {schema};{copies}")

    def ours(self, store, schema):
        """Loads what `export` prints."""
        psql = ["psql", "-X", "-q", "-v", "ON_ERROR_STOP=1", "-h", self.peer.folder, "-U", "postgres", "-d", "same"]
        self.sql(f"create schema {schema}")
        for table in self.tables:
            name = f"{schema}.{table['name']}"
            columns = [f"{it['name']} {'jsonb' if it['from'] == 'tags' else TYPES[it.get('type', 'text')]}" for it in table["column"]]
            rows = self.made("export", store, table["name"])
            text = f"create table {name} (id bigint, {', '.join(columns)}, geom geometry);\ncopy {name} from stdin;\n".encode()
            end = f"\\.\nalter table {name} alter geom type geometry using st_setsrid(geom, 4326);create index on {name} (id);\n".encode()
            subprocess.run(psql, input=text + rows + end, stdout=subprocess.DEVNULL, check=True)

    def compared(self, table, mine, other):
        """Reasons of a table, each with its ids: the rows that are the same have none."""
        name = table["name"]
        cells = " and ".join(f"m.{it['name']} is not distinct from o.{it['name']}" for it in table["column"])
        shape = "(st_orderingequals(m.geom, o.geom) or (st_isvalid(m.geom) and st_isvalid(o.geom) and st_equals(m.geom, o.geom)))"
        found = self.sql(f"""
            select why, count(*), string_agg(id::text, ',') from (
                select coalesce(m.id, o.id) id, case
                    when o.id is null then case when st_isvalid(m.geom) then 'here alone' else 'here alone, and not valid' end
                    when m.id is null then 'there alone'
                    when not ({cells}) then 'another cell'
                    when not {shape} then case when st_isvalid(m.geom) then 'another geometry' else 'another geometry, here not valid' end
                    else 'the same' end why
                from {mine}.{name} m full join {other}.{name} o using (id)) as each group by why""")
        parts = [row.split("|") for row in found.splitlines()]
        return {why: (int(count), ids.split(",")) for why, count, ids in parts}


# Why rows differ, where that is known: what osm2pgsql has made of them, and of which rows it does.
KNOWN = {
    "here alone, and not valid": ("areas that osm2pgsql drops", "they cross themselves"),
    "another geometry, here not valid": ("areas that osm2pgsql mends", "with a spike or the like"),
    "its append": ("rows as osm2pgsql's import has them", "its append has others"),
}


def reasons_of(rows, table, mine, other, fresh):
    """How many rows of a table are the same, and the reason of each other one by its id. What osm2pgsql's append makes otherwise
    than its own import of the changed map is its own."""
    found = rows.compared(table, mine, other)
    same = found.pop("the same", (0, []))[0]
    print(f"  {table['name']:12} {same:8,} the same" + "".join(f", {count} {why}" for why, (count, _) in found.items()), flush=True)
    of_import = rows.compared(table, mine, fresh) if fresh else {}
    settled = set(of_import.get("the same", (0, []))[1])
    there = {id for _, ids in of_import.values() for id in ids}
    reasons = {id: why for why, (_, ids) in found.items() for id in ids}
    return same, {id: "its append" if fresh and (id in settled or id not in there) else why for id, why in reasons.items()}


def told(rows, title, mine, other, fresh=None):
    """Tells how the rows of two schemas differ; whether a difference has no known reason."""
    same, reasons, unknown = 0, dict.fromkeys(KNOWN, 0), 0
    print(f"{title}:", flush=True)
    for table in rows.tables:
        right, others = reasons_of(rows, table, mine, other, fresh)
        same += right
        for id, why in others.items():
            if why in reasons:
                reasons[why] += 1
            else:
                unknown += 1
                print(f"  {table['name']} {id}: {why}", file=sys.stderr)
    figure(f"{title}: rows that are the same", same)
    for why, count in reasons.items():
        if count:
            figure(f"{title}: {KNOWN[why][0]}", count, of=KNOWN[why][1])
    figure(f"{title}: rows that differ for no known reason", unknown)
    return unknown > 0


def same_as_anew(rows, store, fresh):
    """Whether a store behind an append has the rows of a fresh import, byte for byte."""
    names = [table["name"] for table in rows.tables]
    others = [name for name in names if rows.made("export", store, name) != rows.made("export", fresh, name)]
    for name in others:
        print(f"  {name}: the append and a fresh import here differ", file=sys.stderr)
    return not others


def bench(top, work, nodes):
    """The whole comparison; whether something differs for no known reason."""
    town, change, then = maps(work, nodes)
    rows, store, fresh = Rows(top, work), work / "map.store", work / "fresh.store"
    sizes = {path: sum(1 for _ in open(path, "rb")) for path in (town, change)}
    print(f"a map of {sizes[town]:,} objects, and a change of {sizes[change]:,}", flush=True)
    rows.new_store(store, town)
    rows.ours(store, "ours_import")
    rows.of_osm2pgsql("--create", town, "theirs_import")
    bad = told(rows, "import", "ours_import", "theirs_import")
    columns = (rows.cookbook / "columns.sql").read_text(encoding="utf-8")
    rows.sql(f"set search_path = ours_import, public; {columns}")
    rows.made("append", store, work / "rows", change)
    rows.ours(store, "ours_append")
    rows.of_osm2pgsql("--append", change, "theirs_append")
    rows.of_osm2pgsql("--create", then, "theirs_then")
    bad |= told(rows, "append here and there", "ours_append", "theirs_append", "theirs_then")
    bad |= told(rows, "append here, import there", "ours_append", "theirs_then")
    rows.new_store(fresh, then)
    return bad or not same_as_anew(rows, store, fresh)

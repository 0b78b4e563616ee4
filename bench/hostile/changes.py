"""Random changes of any OPL file: what stands after each, and the lines of a change file."""
import math
import re

import opl

KINDS = "nwr"


# Tags that styles ask for.
TAGS = (
    "highway=residential", "landuse=grass", "building=yes", "type=multipolygon", "type=route", "route=bus", "ref=7", "ref=M10", "lanes=3",
    "name=Neu", "amenity=cafe", "area=yes", "type=boundary", "place=town",
)
OF_WAYS = ("highway=path", "landuse=meadow", "building=yes", "waterway=river,name=Bach", "")
OF_RELATIONS = (
    "type=route,route=bus,ref=9", "type=multipolygon,landuse=forest", "type=boundary,boundary=administrative,admin_level=8,name=Neu",
    "type=route,route=hiking,ref=H", "",
)


class Fields:
    """The fields of a line, by their letters."""

    def __init__(self, kind, number, of):
        self.kind, self.number, self.of = kind, number, dict(of)

    def line(self):
        return " ".join([f"{self.kind}{self.number}", *(letter + value for letter, value in self.of.items())]) + "\n"

    def copy(self):
        return Fields(self.kind, self.number, self.of)

    def is_there(self):
        return self.of.get("d") != "D"

    def list(self):
        return [it for it in self.of.get("N" if self.kind == "w" else "M", "").split(",") if it]

    def set_list(self, pieces):
        self.of["N" if self.kind == "w" else "M"] = ",".join(pieces)

    def tags(self):
        return [it for it in self.of.get("T", "").split(",") if it]


def fields_of(line):
    words = line.split()
    return Fields(words[0][0], int(words[0][1:]), {word[0]: word[1:] for word in words[1:]})


class Map:
    """Objects by their keys, those that were deleted, and what a change has named so far."""

    def __init__(self, data):
        self.objects, self.gone, self.reach, self.bounds = {}, {}, 3_000_000, [0]
        for line in opl.lines_of(data):
            if line and line[:1] not in b"#c":
                of = fields_of(line.decode())
                self.keep(of)
        self.begin()

    def key(self, of):
        return KINDS.index(of.kind), of.number

    def keep(self, of):
        """An entry counts from now on."""
        key = self.key(of)
        before = self.objects.pop(key, None)
        if of.is_there():
            self.objects[key] = of
        elif before:
            self.gone[key] = before

    def zoom(self):
        """The deepest zoom of which the whole map takes at most some sixty tiles a side."""
        places = [place for place in map(place_of, self.objects.values()) if place]
        wide = max([max(side) - min(side) for side in zip(*places)] or [0])
        return max(6, min(16, int(math.log2(64 * 3_600_000_000 / max(wide, 10_000)))))

    def begin(self):
        """A new change file: what it may choose of."""
        self.named = {}
        self.keys = [sorted(number for kind, number in self.objects if kind == at) for at in range(3)]

    def one(self, draw, kind):
        """An object of a kind that this change has not named; None where there is none."""
        for _ in range(20):
            number = draw.choice(self.keys[kind]) if self.keys[kind] else 0
            if (kind, number) in self.objects and (kind, number) not in self.named:
                return self.objects[kind, number].copy()
        return None

    def name(self, of):
        """The change names an object, with a version above that of its last."""
        key = self.key(of)
        versions = [it.of.get("v", "") for it in (self.objects.get(key), self.gone.get(key), of) if it]
        last = max((int(it) for it in versions if re.fullmatch("[0-9]+", it)), default=0)
        of.of = {"v": str(last + 1), **{letter: value for letter, value in of.of.items() if letter != "v"}}
        self.named[key] = of

    def new(self, draw, kind):
        """A number that is free, often just behind the others, seldom between or far away."""
        top = self.keys[kind][-1] if self.keys[kind] else 1
        while True:
            behind = top + draw.randrange(1, 50)
            number = draw.choice((behind, behind, draw.randrange(1, top + 2), draw.randrange(1, 2**62)))
            if (kind, number) not in self.objects and (kind, number) not in self.named:
                return number

    def write(self, path):
        """Writes the change in its order, and takes it."""
        entries = [self.named[key] for key in sorted(self.named)]
        path.write_text("".join(of.line() for of in entries), encoding="utf-8")
        for of in entries:
            self.keep(of)
        self.begin()

    def folded(self):
        """The text of a file of what stands now."""
        return "".join(self.objects[key].line() for key in sorted(self.objects))

    def near(self, draw):
        """A node of some way, by which new things are put near old ones."""
        way = self.one(draw, 1)
        refs = way.list() if way else []
        return draw.choice(refs).split("x")[0] if refs else f"n{draw.choice(self.keys[0])}" if self.keys[0] else "n1"


# --- Nodes


def place_of(of):
    try:
        return [opl.units(of.of[letter], most) for letter, most in (("x", opl.LON), ("y", opl.LAT))]
    except (KeyError, opl.Bad):
        return None


def put_at(of, lon, lat):
    of.of["x"], of.of["y"] = (opl.degrees(max(-most, min(most, it))) for it, most in ((lon, opl.LON), (lat, opl.LAT)))


def move(draw, of, node):
    """A step of a unit, of some metres or further, or to just where another node is."""
    place = place_of(node)
    other = of.one(draw, 0)
    if draw.random() < 0.1 and other and place_of(other):
        put_at(node, *place_of(other))
    elif place and draw.random() < 0.15:
        put_at(node, *on_side(draw, of.bounds, place))
    elif place:
        step = draw.choice((1, 1, 100, 3_000, 3_000, 100_000, of.reach))
        put_at(node, *(it + draw.randrange(-step, step + 1) for it in place))
    elif other and place_of(other):
        put_at(node, *place_of(other))
    of.name(node)


def on_side(draw, bounds, place):
    """The place, or one near it, put on a side or a corner of its tile."""
    lon, lat = place
    wide = 3_600_000_000 // (len(bounds) - 1 or 1)
    if draw.random() < 0.7:
        lon = (lon + opl.LON) // wide * wide - opl.LON
    if draw.random() < 0.7:
        lat = min(bounds, key=lambda it: abs(it - lat))
    return lon, lat


def moved(draw, of):
    node = of.one(draw, 0)
    if node:
        move(draw, of, node)


def moved_of_way(draw, of):
    """Some nodes of one way move, or all by the same."""
    way = of.one(draw, 1)
    refs = {int(re.match("[0-9]+", it[1:])[0]) for it in way.list()} if way else ()
    step = [draw.randrange(-5_000, 5_000) for _ in range(2)]
    together = draw.random() < 0.3
    for number in sorted(refs):
        node = of.objects.get((0, number))
        if node and (0, number) not in of.named and (together or draw.random() < 0.5):
            node = node.copy()
            if together and place_of(node):
                put_at(node, *(a + b for a, b in zip(place_of(node), step)))
                of.name(node)
            else:
                move(draw, of, node)


def unplaced(draw, of):
    node = of.one(draw, 0)
    if node:
        node.of["x"] = node.of["y"] = ""
        of.name(node)


# --- Any object


def deleted(draw, of):
    """An object goes; those that list it stay as they are."""
    it = of.one(draw, draw.choice((0, 0, 1, 1, 2)))
    if it:
        gone = Fields(it.kind, it.number, {"v": it.of.get("v", "1"), "d": "D"})
        gone.of |= draw.choice(({}, {"T": ""}, {"T": it.of.get("T", "")}))
        of.name(gone)


def deleted_never_there(draw, of):
    kind = draw.randrange(3)
    of.name(Fields(KINDS[kind], of.new(draw, kind), {"d": "D"}))


def back(draw, of):
    """An object comes back, as it was or moved."""
    keys = [key for key in of.gone if key not in of.objects and key not in of.named]
    if keys:
        it = of.gone[draw.choice(keys)].copy()
        it.of.pop("d", None)
        of.name(it)


def touched(draw, of):
    """A new version in which nothing has changed."""
    it = of.one(draw, draw.randrange(3))
    if it:
        of.name(it)


def retagged(draw, of):
    kind = draw.randrange(3)
    it, other = of.one(draw, kind), of.one(draw, draw.choice((kind, kind, draw.randrange(3))))
    if not it:
        return
    tags = it.tags()
    chance = draw.random()
    if chance < 0.3 and other:
        tags = other.tags()
    elif chance < 0.6 and tags:
        tags.pop(draw.randrange(len(tags)))
    elif chance < 0.7:
        tags = []
    else:
        new = draw.choice(TAGS)
        tags = [old for old in tags if old.split("=")[0] != new.split("=")[0]] + [new]
    it.of["T"] = ",".join(tags)
    of.name(it)


# --- Ways


def rerouted(draw, of):
    """Other nodes: one less, one more, another order, closed or opened, none."""
    way = of.one(draw, 1)
    if not way:
        return
    refs = way.list()
    chance = draw.random()
    if chance < 0.3 and refs:
        refs.pop(draw.randrange(len(refs)))
    elif chance < 0.6:
        refs.insert(draw.randrange(len(refs) + 1), of.near(draw))
    elif chance < 0.7:
        refs.reverse()
    elif chance < 0.85 and len(refs) > 2:
        refs = refs[:-1] if refs[0] == refs[-1] else [*refs, refs[0]]
    elif chance < 0.9:
        draw.shuffle(refs)
    elif chance < 0.95:
        refs = refs[: draw.randrange(2)]
    else:
        refs += refs[: draw.randrange(len(refs) + 1)]
    way.set_list(refs)
    of.name(way)


def taken_apart(draw, of):
    """A way becomes two, and its relations list both, or only the first."""
    way = of.one(draw, 1)
    refs = way.list() if way else []
    if len(refs) < 3:
        return
    at = draw.randrange(1, len(refs) - 1)
    rest = Fields("w", of.new(draw, 1), {"T": way.of.get("T", "")})
    way.set_list(refs[: at + 1])
    rest.set_list(refs[at:])
    of.name(way)
    of.name(rest)
    for key in [it for it in of.objects if it[0] == 2 and it not in of.named]:
        relation = of.objects[key].copy()
        members = []
        for it in relation.list():
            name, _, role = it.partition("@")
            members += [it, f"w{rest.number}@{role}"] if name == f"w{way.number}" else [it]
        if len(members) > len(relation.list()) and draw.random() < 0.7:
            relation.set_list(members)
            of.name(relation)


def way_added(draw, of):
    """A way through some nodes, old and new ones, at times closed."""
    refs = [of.near(draw) for _ in range(draw.choice((1, 2, 3, 5)))]
    for _ in range(draw.randrange(4)):
        node = Fields("n", of.new(draw, 0), {"T": draw.choice(("", "amenity=cafe,name=Neu"))})
        base = of.one(draw, 0)
        if base and place_of(base):
            put_at(node, *(it + draw.randrange(-20_000, 20_000) for it in place_of(base)))
        of.name(node)
        refs.insert(draw.randrange(len(refs) + 1), f"n{node.number}")
    if draw.random() < 0.5:
        refs.append(refs[0])
    way = Fields("w", of.new(draw, 1), {"T": draw.choice(OF_WAYS)})
    way.set_list(refs)
    of.name(way)


# --- Relations


def other_members(draw, of):
    relation = of.one(draw, 2)
    if not relation:
        return
    members = relation.list()
    chance = draw.random()
    if chance < 0.35 and members:
        members.pop(draw.randrange(len(members)))
    elif chance < 0.7:
        members.insert(draw.randrange(len(members) + 1), member(draw, of))
    elif chance < 0.8 and members:
        members.append(draw.choice(members))
    elif chance < 0.9:
        draw.shuffle(members)
    else:
        members = [] if draw.random() < 0.3 else [f"{it.partition('@')[0]}@{draw.choice(('', 'inner', 'outer'))}" for it in members]
    relation.set_list(members)
    of.name(relation)


def member(draw, of):
    """One more member: mostly a way; at times a node, a relation, or one that is not there."""
    kind = draw.choice((1, 1, 1, 0, 2))
    it = of.one(draw, kind)
    number = it.number if it and draw.random() < 0.9 else draw.randrange(1, 2**40)
    return f"{KINDS[kind]}{number}@{draw.choice(('', 'outer', 'inner', 'stop', 'a%20%b'))}"


def relation_added(draw, of):
    relation = Fields("r", of.new(draw, 2), {"T": draw.choice(OF_RELATIONS)})
    relation.set_list([member(draw, of) for _ in range(draw.choice((0, 1, 2, 4, 8)))])
    of.name(relation)


DEEDS = (
    moved, moved, moved, moved_of_way, moved_of_way, unplaced, deleted, deleted, deleted_never_there, back, back, touched, retagged,
    retagged, rerouted, rerouted, taken_apart, taken_apart, way_added, other_members, other_members, relation_added,
)


def change(draw, of, path, deeds):
    """Writes a change file of so many deeds."""
    for _ in range(deeds):
        draw.choice(DEEDS)(draw, of)
    of.write(path)

"""The tables of a style in a PostGIS database: what load_postgis and feed_postgis have in common.

A psql in one connection does the work. Each table of the style is a table of the schema, made by `Table.making` or merged by
`Table.merging` out of the rows that were read into a temporary one. The table `yilgartzu_state` has one row: how many changes the
tables have seen, and the sha256 of the style.
"""

import json
import os
import re
import signal
import subprocess

GEOMETRIES = {"point": "Point", "line": "LineString", "polygon": "MultiPolygon", "lines": "MultiLineString"}
STATE = "yilgartzu_state"
STATE_COLUMNS = {"changes": "bigint", "style": "text"}
# Columns that this tool makes, and those that each table of PostgreSQL has.
OWN_COLUMNS = {"id", "geom"}
SYSTEM_COLUMNS = {"tableoid", "xmin", "cmin", "xmax", "cmax", "ctid"}
# How `export` ends where another command has the store, and where nobody reads it on.
HELD, CUT_OFF = 9, (8, -signal.SIGPIPE)
# What stands before each answer.
MARK = "yilgartzu answer "
SETTINGS = {
    "client_min_messages": "warning",
    "standard_conforming_strings": "on",
    "statement_timeout": "0",
    "lock_timeout": "0",
    "idle_in_transaction_session_timeout": "0",
    "jit": "off",
}


class Fault(Exception):
    """Why nothing was done, and what to do."""


class Moved(Fault):
    """The store did not stand still while its tables were read."""


class Unsure(Fault):
    """The end of the transaction was not confirmed."""


def quoted(name):
    return '"' + name.replace('"', '""') + '"'


def literal(text):
    return "'" + text.replace("'", "''") + "'"


# --- The server


def scratch():
    """A file without a name, in memory. To import `tempfile` takes a tenth of a small feed's time."""
    return open(os.memfd_create("said"), "w+b")


class Server:
    """A psql that is told statements and asked for rows, all in one connection."""

    def __init__(self, database):
        self.said = scratch()
        words = ["psql", "-X", "-q", "-A", "-t", "-v", "ON_ERROR_STOP=1", "-d", database]
        surroundings = {**os.environ, "PGCLIENTENCODING": "UTF8"}
        try:
            self.psql = subprocess.Popen(words, stdin=subprocess.PIPE, stdout=subprocess.PIPE, stderr=self.said, env=surroundings)
        except OSError as error:
            raise Fault(f"psql: {error.strerror}: install PostgreSQL's client") from None

    def tell(self, text):
        try:
            self.psql.stdin.write(f"{text}\n".encode())
            self.psql.stdin.flush()
        except BrokenPipeError:
            raise self.fault() from None

    def ask(self, query):
        """The rows of a query, each by the names of its columns."""
        self.tell(f"SELECT '{MARK}' || coalesce(jsonb_agg(answer), '[]')::text FROM ({query}) AS answer;")
        for line in self.psql.stdout:
            # A file of statements may have printed lines of its own.
            _, mark, answer = line.decode(errors="replace").partition(MARK)
            if mark:
                return json.loads(answer)
        raise self.fault()

    def copy_lines(self, name, pieces):
        """Hands lines, in pieces, to COPY."""
        self.tell(f"COPY {name} FROM STDIN;")
        try:
            self.psql.stdin.writelines(pieces)
        except BrokenPipeError:
            raise self.fault() from None
        self.tell("\\.")

    def copy(self, name, words):
        """Hands the output of a command to COPY, which reads it as `export` writes it."""
        self.tell(f"COPY {name} FROM STDIN;")
        with scratch() as said:
            ended = subprocess.run(words, stdin=subprocess.DEVNULL, stdout=self.psql.stdin, stderr=said).returncode
            said.seek(0)
            lines = said.read().decode(errors="replace").splitlines() or [f"status {ended}"]
        if ended == 0:
            self.tell("\\.")
        elif ended in CUT_OFF or self.psql.poll() is not None:
            raise self.fault()
        else:
            raise (Moved if ended == HELD else Fault)(f"export of {words[-1]}: {lines[-1]}")

    def commit(self):
        # An error before it is told by this answer, and the server's word on the end of the transaction by the next.
        self.ask("SELECT 1")
        try:
            self.tell("COMMIT;")
            self.ask("SELECT 1")
        except Fault as fault:
            raise Unsure(f"{fault}; the end was not confirmed: run it again") from None

    def fault(self):
        """What psql said at its end."""
        self.end()
        self.said.seek(0)
        return Fault(reason(self.said.read().decode(errors="replace")))

    def end(self):
        """Waits until psql has done what it was told. A transaction without its end comes to nothing."""
        try:
            self.psql.stdin.close()
        except BrokenPipeError:
            pass
        self.psql.stdout.read()
        self.psql.wait()

    def stop(self):
        self.psql.kill()
        self.end()


def reason(said):
    """The error that psql told, in one line: what PostgreSQL calls the message, and its detail or where it came up."""
    lines = [line for line in said.splitlines() if line and not re.match(r"(psql:\S+ )?(WARNING|NOTICE):", line)]
    told = [re.fullmatch(r"(?:psql:)? ?(\S+:\d+: )?(?:error|ERROR|FATAL): +(.*)", line) for line in lines]
    errors = [(it[1] or "") + it[2] for it in told if it] or lines[:1] or ["psql ended without a word"]
    details = [line.split(":", 1)[1].strip() for line in lines if line.startswith(("DETAIL:", "CONTEXT:"))]
    return "; ".join(errors[:1] + details[:1])


# --- Tables


class Table:
    """A table of the style, and its names and columns in the database."""

    def __init__(self, schema, number, table):
        self.label, self.is_area = table["name"], table["geometry"] == "polygon"
        self.name = f"{quoted(schema)}.{quoted(self.label)}"
        # Rows are read into this one, and a table that is made anew is first made under that name.
        self.read, self.aside = f"pg_temp.yilgartzu_read_{number}", f"yilgartzu_new_{number}"
        self.columns = {"id": "bigint"} | {it["name"]: type_of(it) for it in table.get("column", [])}
        self.columns["geom"] = f"geometry({GEOMETRIES[table['geometry']]},4326)"
        self.names = ", ".join(map(quoted, self.columns))
        self.values = ", ".join([*map(quoted, list(self.columns)[:-1]), "ST_SetSRID(geom, 4326)"])

    def reading(self):
        """The statement for the rows as they are read: COPY takes a geometry without a SRID into a column that asks for none."""
        columns = [f"{quoted(name)} {'geometry' if name == 'geom' else kind}" for name, kind in self.columns.items()]
        return f"CREATE TEMPORARY TABLE {self.read} ({', '.join(columns)}) ON COMMIT DROP;"

    def making(self, name):
        """The statements that make the table under a name and fill it, near rows side by side."""
        columns = [f"{quoted(column)} {kind}" for column, kind in self.columns.items()]
        yield f"CREATE TABLE {name} ({', '.join(columns)} NOT NULL); COMMENT ON TABLE {name} IS {literal(MADE)};"
        yield f"INSERT INTO {name} ({self.names}) SELECT {self.values} FROM {self.read} ORDER BY ST_SetSRID(geom, 4326);"
        yield f"ALTER TABLE {name} ADD PRIMARY KEY (id); CREATE INDEX ON {name} USING gist (geom); ANALYZE {name};"

    def merging(self):
        """The statements that take out the rows that are not among those read, and put in those that lack. Geometries are
        compared by their bytes."""
        cells = [quoted(name) for name in self.columns if name not in OWN_COLUMNS]
        same = ["old.id = new.id", *(f"old.{cell} IS NOT DISTINCT FROM new.{cell}" for cell in cells)]
        same = " AND ".join([*same, "ST_AsBinary(old.geom) = ST_AsBinary(new.geom)"])
        yield f"ANALYZE {self.read} (id);"
        yield f"DELETE FROM {self.name} AS old WHERE NOT EXISTS (SELECT FROM {self.read} AS new WHERE {same});"
        lacks = f"NOT EXISTS (SELECT FROM {self.name} AS old WHERE old.id = new.id)"
        yield f"INSERT INTO {self.name} ({self.names}) SELECT {self.values} FROM {self.read} AS new WHERE {lacks};"


def type_of(column):
    """The type of a column: numbers and whole tag sets have their own."""
    if column["from"] == "tags":
        return "jsonb"
    return "bigint" if column.get("type") == "int" else "text"


def tables_of(schema, tables):
    """The tables of a style, where PostgreSQL can have them all."""
    mend = "import anew with a style that names it otherwise"
    for table in tables:
        if table["name"] == STATE:
            raise Fault(f"the style has a table {STATE}, which load_postgis makes itself: {mend}")
        for column in table.get("column", []):
            if column["name"] in OWN_COLUMNS | SYSTEM_COLUMNS:
                who = "load_postgis makes itself" if column["name"] in OWN_COLUMNS else "PostgreSQL has in each table"
                raise Fault(f"table {table['name']} of the style has a column {column['name']}, which {who}: {mend}")
    return [Table(schema, number, table) for number, table in enumerate(tables)]


# --- What is there

# The relations of a schema, each with its columns that are not generated, and whether its rows have different ids.
RELATIONS = """SELECT relname AS name, relkind AS kind,
  (SELECT coalesce(jsonb_object_agg(attname, format_type(atttypid, atttypmod)), '{}') FROM pg_attribute
    WHERE attrelid = pg_class.oid AND attnum > 0 AND NOT attisdropped AND attgenerated = '') AS columns,
  EXISTS (SELECT FROM pg_index WHERE indrelid = pg_class.oid AND indisunique AND indisvalid AND indpred IS NULL
    AND indnkeyatts = 1
    AND indkey[0] = (SELECT attnum FROM pg_attribute WHERE attrelid = pg_class.oid AND attname = 'id')) AS keyed,
  coalesce(obj_description(oid, 'pg_class'), '') AS said
  FROM pg_class WHERE relnamespace = (SELECT oid FROM pg_namespace WHERE nspname = %s)"""
KINDS = {"v": "view", "m": "materialized view", "f": "foreign table", "i": "index", "I": "index", "S": "sequence", "c": "type"}
# The comment of each table that was made here: --anew drops no other.
MADE = "made by load_postgis of Yilgartzu"
ANEW = "--anew drops the tables of the style that are there and makes them anew"
OTHERS = "load_postgis has not made it (its comment says so of those that it made): drop or rename it yourself, or take another --schema"


def lock(server, schema):
    """Opens a transaction, one for a schema at a time."""
    server.tell("BEGIN ISOLATION LEVEL READ COMMITTED READ WRITE;")
    server.tell(f"SELECT pg_advisory_xact_lock(hashtext('yilgartzu'), hashtext({literal(schema)}));")


def begin(server, schema):
    """Opens the transaction, and gives what stands in the schema, by name."""
    server.tell("".join(f"SET {name} = {value}; " for name, value in SETTINGS.items()))
    lock(server, schema)
    home = "SELECT nspname FROM pg_extension JOIN pg_namespace ON pg_namespace.oid = extnamespace WHERE extname = 'postgis'"
    homes = server.ask(home)
    if not homes:
        raise Fault("the database has no PostGIS: psql -d DATABASE -c 'CREATE EXTENSION postgis'")
    if not server.ask(f"SELECT nspname FROM pg_namespace WHERE nspname = {literal(schema)}"):
        server.tell(f"CREATE SCHEMA {quoted(schema)};")
    server.tell(f"SET search_path = {quoted(schema)}, {quoted(homes[0]['nspname'])}, public;")
    return {it["name"]: it for it in server.ask(RELATIONS % literal(schema))}


def differences(there, wanted, strict):
    """What a table's columns lack of the wanted ones, and, where it is to be strict, what they have beside them."""
    for name, kind in wanted.items():
        if there.get(name) != kind:
            yield f"{name} is {there[name]}, not {kind}" if name in there else f"{name} is missing"
    if strict:
        yield from (f"{name} is not in the style" for name in there if name not in wanted)


def stands(there, label, wanted, strict, anew):
    """Whether a table is there. Where it can neither be merged nor be made anew, that is a fault."""
    if label not in there:
        return False
    it = there[label]
    if it["kind"] not in "rp":
        raise Fault(f"{label} is a {KINDS.get(it['kind'], 'relation')} in this schema: rename it, or take another --schema")
    is_ours, found = it["said"] == MADE, list(differences(it["columns"], wanted, strict))
    if anew and not is_ours:
        raise Fault(f"table {label} stands in this schema, and {OTHERS}")
    if found and not anew:
        raise Fault(f"table {label} is not that of the style: {', '.join(found)}; {f'where the style changed, {ANEW}' if is_ours else OTHERS}")
    if "id" in wanted and not it["keyed"] and not anew:
        raise Fault(f"table {label} has no primary key on id; {ANEW if is_ours else OTHERS}")
    return True


class Plan:
    """What is to be done: which tables are merged, which are made, and which take the place of one that is there."""

    def __init__(self, server, schema, checksum, tables, anew=False, check=lambda style: None):
        there = begin(server, schema)
        self.schema, self.state, self.anew = schema, f"{quoted(schema)}.{STATE}", anew
        self.has_state = stands(there, STATE, STATE_COLUMNS, False, anew)
        self.changes, self.style, self.check = None, None, check
        if self.has_state and not anew:
            self.look(server)
        # Tables that were made or merged under this style have the user's columns beside it, and else those of another style.
        same = self.style == checksum
        stood = [stands(there, it.label, it.columns, not same, anew) for it in tables]
        self.made = [table for table, here in zip(tables, stood) if not here]
        here = [table for table, here in zip(tables, stood) if here]
        self.replaced, self.merged = (here, []) if anew else ([], here)

    def look(self, server):
        """How many changes the tables have seen, and under which style."""
        found = server.ask(f"SELECT changes, style FROM {self.state}")
        self.changes, self.style = (found[0]["changes"], found[0]["style"]) if len(found) == 1 else (None, None)
        if self.style is not None:
            self.check(self.style)


# --- What is written


def place(server, plan):
    """Puts the rows that were read into their tables. Those that are made anew change their places at the end, so that readers do
    not wait for the rest."""
    steps = [step for table in plan.merged for step in table.merging()]
    steps += [step for table in plan.made for step in table.making(table.name)]
    steps += [step for table in plan.replaced for step in table.making(f"{quoted(plan.schema)}.{table.aside}")]
    for step in steps:
        server.tell(step)
    # What was told is done before the first lock that shuts readers out.
    server.ask("SELECT 1")
    for table in plan.replaced:
        swap(server, plan.schema, table)


def swap(server, schema, table):
    """Puts a table that was made aside into the place of the one that is there, and names its indexes after it."""
    server.tell(f"DROP TABLE {table.name}; ALTER TABLE {quoted(schema)}.{table.aside} RENAME TO {quoted(table.label)};")
    indexes = f"SELECT relname FROM pg_index JOIN pg_class ON oid = indexrelid WHERE indrelid = {literal(table.name)}::regclass"
    for it in server.ask(indexes):
        name = it["relname"].replace(table.aside, table.label)
        if len(name) < 64:
            server.tell(f"ALTER INDEX {quoted(schema)}.{quoted(it['relname'])} RENAME TO {quoted(name)};")


def write_state(server, plan, changes, checksum):
    """The one row from which a later change can go on."""
    if plan.has_state and plan.anew:
        server.tell(f"DROP TABLE {plan.state};")
    if plan.anew or not plan.has_state:
        columns = ", ".join(f"{name} {kind} NOT NULL" for name, kind in STATE_COLUMNS.items())
        server.tell(f"CREATE TABLE {plan.state} ({columns}); COMMENT ON TABLE {plan.state} IS {literal(MADE)};")
    server.tell(f"DELETE FROM {plan.state}; INSERT INTO {plan.state} VALUES ({changes}, {literal(checksum)});")

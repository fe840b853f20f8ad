"""Random databases, which sqlite3 makes in memory: their headers, their schemas and their rows."""
import itertools
import math
import random
import sqlite3
import struct
import sys

WIDE, NARROW = "茶日本😀", "\u0301"
HIDDEN = "\u200b\u202e\ufeff\u00ad"
LETTERS = 'abcxyzABC0123456789 ,;|"\'`[]()-/*%_$.é\u0301茶日😀ßЖ' + "\t\r\n\0\x1b\x7f\x85" + HIDDEN
WORDS = ["", " ", "tea", "rice, brown", "007", "1.5", "-3", "x'00ff'", "two\nlines", "cr\r\nlf", "NULL", " a ", "é茶😀"]
PAGE_SIZES = [512, 512, 512, 1024, 1024, 2048, 4096, 8192, 16384, 32768, 65536]
ENCODINGS = {"UTF-8": "utf-8", "UTF-16le": "utf-16-le", "UTF-16be": "utf-16-be"}
TYPES = ["", "", "integer", "INTEGER", "int", "text", "Text", "real", "REAL", "blob", "numeric", "varchar(20)", "decimal(10, 2)"]
TYPES += ["double precision", "float", "boolean", "date", "unsigned big int", "character varying ( 40 )", "any", "floating point"]
TYPES += ['"integer"', "[real]", "`text`", "charint", "integer(8)", "clob", "stored"]
# The types of strict tables, and the kinds of values that they allow: integers, reals, texts, blobs and NULL.
STRICT_TYPES = {"int": "iin", "integer": "iin", "real": "rrin", "text": "ttn", "blob": "bn", "any": "niiirrttttb"}
NAMES = ["a", "b", "c", "Id", "name", "price", "key", "desc", "stored", "without", "rowid", "text", "generated", "x_1", "naïve", "日本"]
NAMES += ["in stock", "a(b", "c)", "d,e", 'say "x"', "it's", "x]y", "`z`", "-- n", "/* m", "check", "primary", "as", "two\nlines", "\x1b[31m", ""]
INTEGERS = ["0", "1", "-1", "+7", "(42)", "(-42)", "- 5", "007", "9223372036854775807", "-9223372036854775808"]
TEXTS = ["'x'", "''", "'it''s'", "'a, (b) -- c'", "('in parentheses')", "'茶'", "'/* no */'", "+'plus'", "\"quoted\""]
CONSTANTS = ["null", "NULL", "true", "False"]
FLOATS = ["1.5", "-0.25", "1e3", "(2.5)", ".5", "3.", "1e300"]
UNKNOWN = ["x'00ff'", "'12'", "'1.5'", "' 3 '", "'007'", "0x10", "9223372036854775808", "(-(5))", "'1e3'", "word", "1e+5", "-'5'"]
EDGES = [0, 1, 2, -1, 127, -128, 128, 32767, -32768, 32768, 2**23 - 1, -2**23, 2**23, 2**31 - 1, -2**31, 2**31, 2**47 - 1, -2**47, 2**47, 2**53]
EDGES += [2**53 + 1, 2**63 - 1, -2**63]
# Bytes that are no text: of UTF-8, and units of UTF-16.
WRONG_BYTES = [b"\xff", b"a\xc3", b"\xed\xa0\x80", b"\xc0\x80", b"\xf5\x80\x80\x80", b"ok\x80"]
WRONG_UNITS = [[0xD800], [0x61, 0xDC00], [0xDC00, 0xD800], [0xD83D, 0x61]]


def quoted(name):
    return '"' + name.replace('"', '""') + '"'


def affinity(kind):
    """That of a column of this type."""
    kind = kind.lower()
    rules = [("integer", ["int"]), ("text", ["char", "clob", "text"]), ("none", ["blob"]), ("real", ["real", "floa", "doub"])]
    return next((name for name, parts in rules if any(part in kind for part in parts)), "numeric" if kind else "none")


def opened(data):
    """A connection to a database in memory."""
    connection = sqlite3.connect(":memory:", isolation_level=None)
    connection.deserialize(bytes(data))
    connection.execute("select * from sqlite_schema").fetchall()
    return connection


def begun(rng):
    """An empty database whose header has random parts."""
    connection = sqlite3.connect(":memory:", isolation_level=None)
    size = rng.choice(PAGE_SIZES)
    connection.execute(f"pragma page_size = {size}")
    connection.execute(f"pragma auto_vacuum = {rng.choice([0, 0, 1, 2])}")
    connection.execute("pragma user_version = 1")
    data = bytearray(connection.serialize())
    if rng.random() < 0.15:
        data[20] = rng.randint(1, 32)
        data[105:107] = (size - data[20] & 0xFFFF).to_bytes(2, "big")
    data[47], data[59] = rng.choice([1, 2, 3, 4, 4, 4, 4]), rng.choice([1, 1, 1, 2, 3])
    connection.close()
    return opened(data)


class Database:
    """A random database, and what is known of its tables beyond what sqlite3 reads."""

    # So many of its tables are compared.
    most_compared = 4

    def __init__(self, rng, most_rows):
        self.rng, self.most_rows, self.connection = rng, most_rows, begun(rng)
        (self.page_size,), (self.encoding,) = (self.connection.execute(f"pragma {name}").fetchone() for name in ("page_size", "encoding"))
        # Tables with rows that may be older than a column whose default isn't supported, and tables whose key repeats a column.
        self.older, self.repeating = set(), set()
        self.numbers = itertools.count()
        self.add_table()
        for _ in range(rng.choice([0, 2, 4, 8, 12])):
            rng.choice(self.steps())()

    def steps(self):
        most = [self.add_table, self.add_rows, self.add_rows, self.add_column, self.add_column]
        return most + [self.rename, self.drop, self.remove_rows, self.change_rows, self.add_item, self.copy_table, self.tidy]

    def attempt(self, statement, values=()):
        """Runs a statement, which the rows that are there may forbid; returns whether it ran."""
        try:
            self.connection.execute(statement, values)
            return True
        except sqlite3.Error:
            return False

    def tables(self):
        names = self.connection.execute("select name from sqlite_schema where type = 'table' and rootpage > 0 and name not like 'sqlite_%' and name not like 'v%'")
        return [name for (name,) in names]

    def statement(self, name):
        return self.connection.execute("select sql from sqlite_schema where name = ?", (name,)).fetchone()[0]

    def table(self):
        return self.rng.choice(self.tables() or [self.add_table()])

    def columns(self, table):
        """Each column that takes values: its name, its type, and its place in the key."""
        found = self.connection.execute("select name, type, pk from pragma_table_xinfo(?) where hidden = 0", (table,))
        return found.fetchall()

    # -- statements

    def blank(self):
        """What separates tokens."""
        return self.rng.choice([" "] * 12 + ["\n", "\t ", " /* , ( ' */ ", " -- ) \" ;\n", "/**/"])

    def spelled(self, name):
        """A name as a statement has it."""
        forms = [quoted(name), "'" + name.replace("'", "''") + "'", "`" + name.replace("`", "``") + "`"]
        if "]" not in name:
            forms.append(f"[{name}]")
        if name.isidentifier() and name not in ("check", "primary", "as"):
            forms += [name] * 6
        return self.rng.choice(forms)

    def new_name(self, others=()):
        taken = {name.lower() for name in others}
        return self.rng.choice([name for name in NAMES if name.lower() not in taken])

    def random_default(self, kind):
        """A default, and whether the manual says that it is supported."""
        known = INTEGERS + TEXTS + CONSTANTS + (FLOATS if affinity(kind) == "real" else [])
        return (self.rng.choice(known), True) if self.rng.random() < 0.7 else (self.rng.choice(UNKNOWN + FLOATS), False)

    def rules(self, kind):
        """Rules of a column that no row breaks, or few do."""
        choices = {
            "null": 0.05, "not null": 0.05, "collate nocase": 0.1, "check (1 in (1, 2))": 0.05, "references t0 (a) on delete set null": 0.1,
            f"default {self.random_default(kind)[0]}": 0.2, "constraint c1 unique": 0.03, "constraint \"c, 2\" not null on conflict ignore": 0.02,
        }
        return [rule for rule, chance in choices.items() if self.rng.random() < chance]

    def column(self, name, kind, *rules):
        rules = self.rng.sample(rules, len(rules))
        return self.blank().join([self.spelled(name), *([kind] if kind else []), *rules])

    def key_list(self, names):
        """The columns of a key, some of them in order or collated, and perhaps one of them twice."""
        chosen = self.rng.sample(names, self.rng.randint(1, min(3, len(names))))
        is_repeated = self.rng.random() < 0.1
        if is_repeated:
            chosen.append(self.rng.choice(chosen))
        terms = [self.spelled(name) + self.rng.choice(["", "", "", " desc", " asc", " collate nocase"]) for name in chosen]
        return "(" + f",{self.blank()}".join(terms) + ")", is_repeated

    def add_key(self, parts, names, is_keyed):
        """Adds a key to the parts of a statement, where there must be one or by chance; returns whether it repeats a column."""
        way = self.rng.choice(["column", "list", "list", "none"])
        if way == "column":
            rule = self.rng.choice(["primary key", "primary key autoincrement", "primary key desc", "PRIMARY KEY asc on conflict replace"])
            parts.insert(self.rng.randint(0, len(parts)), self.column("the key", self.rng.choice(["integer", "INTEGER", "integer", "int", "text"]), rule))
        elif way == "list" or is_keyed:
            terms, repeats = self.key_list(names)
            parts.append(self.rng.choice(["", "constraint pk "]) + "primary key" + self.blank() + terms)
            return repeats
        return False

    def made_column(self, names, types):
        """A column that is computed from another one."""
        rule = f"{self.rng.choice(['', 'generated always '])}as (typeof({quoted(names[0])}) || 1) {self.rng.choice(['stored', 'virtual', ''])}"
        return self.column("made", self.rng.choice(types), rule)

    def statement_of(self, name, is_strict, is_keyed):
        """A statement that declares a table, and whether its key repeats a column."""
        rng, types = self.rng, list(STRICT_TYPES) if is_strict else TYPES
        names = rng.sample(NAMES[:-1], rng.choice([1, 2, 3, 4, 6, 9]))
        parts = [self.column(column, kind, *self.rules(kind)) for column, kind in zip(names, rng.choices(types, k=len(names)))]
        if rng.random() < 0.1:
            parts.insert(rng.randint(0, len(parts)), self.made_column(names, types))
        repeats = self.add_key(parts, names, is_keyed)
        if rng.random() < 0.2:
            parts.append(rng.choice(["unique", "check (1) unique"]) + f" ({quoted(names[-1])})")
        if rng.random() < 0.1:
            parts.append(f"foreign key ({quoted(names[0])}) references other (a) on update cascade deferrable initially deferred")
        options = ", ".join(["strict"] * is_strict + ["without rowid"] * is_keyed)
        blank = self.blank()
        return f"create table {self.spelled(name)}{blank}({blank}{f'{blank},{blank}'.join(parts)}){blank}{options}", repeats

    def add_table(self):
        """Adds a table with up to eleven columns, a key or none, with or without rowids."""
        name = self.new_name(["", *self.all_names()]) if self.rng.random() < 0.3 else f"t{next(self.numbers)}"
        is_keyed = self.rng.random() < 0.3
        statement, repeats = self.statement_of(name, self.rng.random() < 0.1, is_keyed)
        if not self.attempt(statement):
            name, repeats = f"t{next(self.numbers)}", False
            self.connection.execute(f"create table {name} (a, b integer primary key autoincrement, c real default 2)")
        if repeats and is_keyed:
            self.repeating.add(name)
        self.add_rows(name)
        return name

    def all_names(self):
        return [name for (name,) in self.connection.execute("select name from sqlite_schema")]

    def add_column(self):
        table = self.table()
        name = self.new_name([column for column, *_ in self.columns(table)])
        kind = self.rng.choice(TYPES)
        default, is_known = self.random_default(kind)
        rules = self.rng.choice([[f"default {default}"]] * 6 + [[], [f"default {default}", "not null"], ["collate nocase"], ["as (1) virtual"]])
        has_rows = self.connection.execute(f"select exists (select 1 from {quoted(table)})").fetchone()[0]
        if self.attempt(f"alter table {quoted(table)} add column {self.column(name, kind, *rules)}") and has_rows and not is_known:
            self.older.add(table)

    def rename(self):
        table = self.table()
        if self.rng.random() < 0.5:
            column = self.rng.choice(self.columns(table))[0]
            self.attempt(f"alter table {quoted(table)} rename column {quoted(column)} to {quoted(self.new_name(name for name, *_ in self.columns(table)))}")
            return
        name = f"T{next(self.numbers)} new"
        if self.attempt(f"alter table {quoted(table)} rename to {quoted(name)}"):
            for names in (self.older, self.repeating):
                if table in names:
                    names.add(name)

    def drop(self):
        table = self.table()
        if self.rng.random() < 0.7:
            self.attempt(f"alter table {quoted(table)} drop column {quoted(self.rng.choice(self.columns(table))[0])}")
        elif len(self.tables()) > 1:
            self.connection.execute(f"drop table {quoted(table)}")

    def copy_table(self):
        name = f"t{next(self.numbers)}"
        self.attempt(f"create table {name} as select *, 1 + 1 from {quoted(self.table())}")

    def add_item(self):
        """Adds to the schema what has no rows of its own."""
        table, name = self.table(), f"v{next(self.numbers)}"
        column = quoted(self.rng.choice(self.columns(table))[0])
        self.attempt(self.rng.choice([
            f"create index {name} on {quoted(table)} ({column} desc)",
            f"create index {name} on {quoted(table)} (length({column}), {column}) where {column} is not null",
            f"create view {name} (a, b) as select {column}, 1 from {quoted(table)}",
            f"create trigger {name} after insert on {quoted(table)} begin select 1, '('; end",
            f"create virtual table {name} using fts5(a, b)",
            f"create virtual table {name} using rtree(id, low, high)",
            "analyze",
        ]))
        self.attempt(f"insert into {name}(a, b) values ('some words', 'more words')")

    def tidy(self):
        self.attempt(self.rng.choice(["vacuum", "pragma incremental_vacuum(3)", "reindex"]))

    # -- rows

    def length(self, count):
        """The length of a value, which may be about that at which a record needs overflow pages; a table of many rows has none that makes all lines long."""
        if self.rng.random() < min(0.03, (20 if self.page_size < 4096 else 1) / (count + 1)):
            usual = self.rng.choice([self.page_size // 8, self.page_size // 4, self.page_size - 35, 3 * self.page_size])
            return max(0, min(usual + self.rng.randint(-12, 12), 70_000, 20_000_000 // (self.most_rows + 1)))
        return self.rng.choice([0, 1, 2, 3, 5, 8, 13, 30])

    def text(self, count):
        if self.rng.random() < 0.4:
            return self.rng.choice(WORDS)
        length = self.length(count)
        letters = "".join(self.rng.choices(LETTERS, k=min(length, 40)))
        # A long text of many lines would make a large table.
        return letters if length <= 40 else (letters.replace("\n", " ") * (length // 40 + 1))[:length]

    def integer(self):
        if self.rng.random() < 0.5:
            return self.rng.choice(EDGES)
        return self.rng.getrandbits(self.rng.choice([3, 7, 15, 23, 31, 47, 63])) * self.rng.choice([1, -1])

    def real(self):
        way = self.rng.random()
        if way < 0.4:
            return round(self.rng.uniform(-1000, 1000), self.rng.randint(0, 6))
        if way < 0.6:
            return self.rng.choice([0.0, -0.0, 0.1, 1e15, 1e16, 1e17, 123456789012345678.0, 1e-4, 1e-5, 5e-324, 2.0**53, 1e308, math.inf, -math.inf, 1 / 3])
        value = struct.unpack("<d", self.rng.randbytes(8))[0]
        return 0.5 if math.isnan(value) else value

    def ways(self, table):
        """For each column, the kinds of the values that it may take."""
        is_strict = self.connection.execute("select strict from pragma_table_list(?)", (table,)).fetchone()[0]
        for _, kind, place in self.columns(table):
            kind = kind.lower()
            yield "ni" if place and kind == "integer" else STRICT_TYPES[kind] if is_strict else "niiirrttttb"

    def value(self, ways, count):
        way = self.rng.choice(ways)
        if way == "b":
            return self.rng.randbytes(self.length(count))
        return None if way == "n" else self.integer() if way == "i" else self.real() if way == "r" else self.text(count)

    def wrong_text(self):
        """Bytes that are no text in the encoding of the database, or an odd byte more than one."""
        if self.encoding == "UTF-8":
            return self.rng.choice(WRONG_BYTES)
        order = "little" if self.encoding == "UTF-16le" else "big"
        units = self.rng.choice([*WRONG_UNITS, [0x61]])
        return b"".join(unit.to_bytes(2, order) for unit in units) + (b"a" if units == [0x61] else b"")

    def add_rows(self, table=None):
        """Adds rows, except those that the table's rules forbid."""
        table = table or self.table()
        count = self.rng.choice([0, 1, 3, 10, self.most_rows // 4, self.most_rows])
        columns, ways = self.columns(table), list(self.ways(table))
        head = f"insert or ignore into {quoted(table)} ({', '.join(quoted(name) for name, *_ in columns)}) values "
        statement = head + "(" + ", ".join("?" * len(columns)) + ")"
        self.connection.execute("begin")
        for _ in range(count):
            self.attempt(statement, [self.value(kinds, count) for kinds in ways])
        if self.rng.random() < 0.02:
            self.attempt(head + "(" + ", ".join(["cast(? as text)"] * len(columns)) + ")", [self.wrong_text() for _ in columns])
        # A table whose greatest rowid is taken ends the transaction itself.
        if self.connection.in_transaction:
            self.connection.execute("commit")

    def some_rows(self, table):
        """A condition that about a third of the rows meets."""
        column = quoted(self.rng.choice(self.columns(table))[0])
        return f"coalesce(length({column}), 0) % 3 = {self.rng.randrange(3)}"

    def remove_rows(self):
        table = self.table()
        self.connection.execute(f"delete from {quoted(table)} where {self.some_rows(table)}")

    def change_rows(self):
        table = self.table()
        (name, *_), ways = self.rng.choice(list(zip(self.columns(table), self.ways(table))))
        self.attempt(f"update or ignore {quoted(table)} set {quoted(name)} = ? where {self.some_rows(table)}", (self.value(ways, 10),))

    # -- the file

    def data(self):
        """The bytes of the file, which may be one that had a log, and may have bytes behind its last page."""
        data = bytearray(self.connection.serialize())
        self.connection.close()
        self.connection = opened(data)
        if self.rng.random() < 0.1:
            data[18:20] = b"\2\2"
        return bytes(data) + self.rng.randbytes(self.rng.choice([0] * 8 + [1, 700, self.page_size]))

    def items(self):
        """The tables and views, in the order of the schema: the name, the kind and the names of the columns."""
        query = "select name, iif(type = 'view', type, iif(rootpage = 0, 'virtual table', type)) from sqlite_schema where type in ('table', 'view') order by rowid"
        for name, kind in self.connection.execute(query).fetchall():
            columns = self.connection.execute("select name from pragma_table_xinfo(?)", (name,)) if kind == "table" else []
            yield name, kind, ", ".join(column for (column,) in columns)


class Given(Database):
    """The database of a file, any of whose tables may have a default that isn't supported."""

    most_compared = sys.maxsize

    def __init__(self, file):
        self.rng, self.connection = random.Random(0), sqlite3.connect(f"file:{file}?mode=ro&immutable=1", uri=True)
        (self.encoding,) = self.connection.execute("pragma encoding").fetchone()
        self.repeating, self.older = set(), {name for name, _, _ in self.items()}

    def close(self):
        self.connection.close()

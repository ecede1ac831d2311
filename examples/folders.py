"""Folders of `dbrdf`, for the scripts beside this file: `schema.sql` in the profile that it takes, and one CSV file a table."""
import csv
import os
import re
import sys
from dataclasses import dataclass, field

csv.field_size_limit(sys.maxsize)

# The type that is written for each kind, and the words that are read as it.
KINDS = {
    "TEXT": "TEXT CHAR CHARACTER VARCHAR CLOB",
    "INTEGER": "INTEGER INT SMALLINT BIGINT TINYINT",
    "DECIMAL": "DECIMAL NUMERIC",
    "BOOLEAN": "BOOLEAN BOOL",
    "DATE": "DATE",
    "TIME": "TIME",
    "TIMESTAMP": "TIMESTAMP DATETIME",
    "BINARY": "BINARY VARBINARY BLOB BYTEA",
}
KIND_OF_WORD = {word: kind for kind, words in KINDS.items() for word in words.split()}

# What is left of a file system's names: the IRI-safe characters.
SAFE = re.compile(
    "[A-Za-z0-9._~\u00a0-\ud7ff\uf900-\ufdcf\ufdf0-\uffef"
    + "".join(f"{chr(n << 16)}-{chr((n << 16) + 0xFFFD)}" for n in range(1, 14))
    + "\U000e1000-\U000efffd-]"
)


@dataclass
class Column:
    name: str
    kind: str
    not_null: bool = False


@dataclass
class ForeignKey:
    columns: list
    target: str
    target_columns: list


@dataclass
class Table:
    name: str
    columns: list = field(default_factory=list)
    primary: list = field(default_factory=list)
    uniques: list = field(default_factory=list)
    foreigns: list = field(default_factory=list)

    def kind_of(self, name):
        return next((it.kind for it in self.columns if it.name == name), None)


def warn(text):
    print(f"warning: {text}", file=sys.stderr)


def stop(text):
    sys.exit(f"error: {text}")


def safe(name):
    """The IRI-safe form of a name."""
    return "".join(it if SAFE.match(it) else "".join(f"%{b:02X}" for b in it.encode()) for it in name)


def quoted(name):
    return '"' + name.replace('"', '""') + '"'


def listed(names):
    return "(" + ", ".join(map(quoted, names)) + ")"


# Folders written


def lawful_keys(table, tables):
    """The foreign keys that the profile takes, each left out with a warning else."""
    kept = []
    for key in table.foreigns:
        target = tables.get(key.target)
        said = f"{table.name}: the foreign key on {', '.join(key.columns)} is left out:"
        if target is None:
            warn(f"{said} its table {key.target} isn't there")
        elif sorted(key.target_columns) not in map(sorted, [target.primary, *target.uniques]):
            warn(f"{said} {key.target} has no such key")
        elif any(table.kind_of(a) != target.kind_of(b) for a, b in zip(key.columns, key.target_columns)):
            warn(f"{said} the kinds differ")
        elif any(it.columns == key.columns for it in kept):
            warn(f"{said} another one has the same columns")
        elif len(key.columns) == 1 and table.kind_of(f"ref-{key.columns[0]}"):
            warn(f"{said} a column is named ref-{key.columns[0]}")
        else:
            kept.append(key)
    return kept


def statement(table, tables, type_of):
    """The CREATE TABLE of a table, with the type that a kind has."""
    items = [f"{quoted(it.name)} {type_of(table, it)}" + " NOT NULL" * it.not_null for it in table.columns]
    if table.primary:
        items.append(f"PRIMARY KEY {listed(table.primary)}")
    items += [f"UNIQUE {listed(it)}" for it in table.uniques]
    for key in lawful_keys(table, tables):
        items.append(f"FOREIGN KEY {listed(key.columns)} REFERENCES {quoted(key.target)} {listed(key.target_columns)}")
    return f"CREATE TABLE {quoted(table.name)} (\n  " + ",\n  ".join(items) + "\n);\n"


def write_schema(folder, tables):
    os.makedirs(folder, exist_ok=True)
    named = {it.name: it for it in tables}
    with open(f"{folder}/schema.sql", "w", encoding="utf-8", newline="\n") as file:
        for table in tables:
            file.write(statement(table, named, lambda _, column: column.kind))


def record(fields):
    """A line of a table's file. An empty field is quoted, so that no line is empty."""
    plain = re.compile(r'[^",\r\n]+').fullmatch
    return ",".join(it if plain(it) else '"' + it.replace('"', '""') + '"' for it in fields) + "\n"


def table_file(folder, table):
    return f"{folder}/{safe(table.name)}.csv"


# Folders read

TOKEN = re.compile(
    r"""\s+|--[^\r\n]*|/\*.*?\*/|(?P<quoted>"(?:[^"]|"")+")|(?P<word>[^\W\d][\w$]*)|(?P<sign>[(),;]|[0-9]+)""",
    re.S,
)


class Statements:
    """The statements of a schema.sql that `dbrdf` takes; of others nothing is promised."""

    def __init__(self, text):
        self.tokens = []
        place = 0
        while place < len(text):
            token = TOKEN.match(text, place) or stop(f"schema.sql: unexpected {text[place]!r}")
            place = token.end()
            if token["quoted"]:
                self.tokens.append(("name", token["quoted"][1:-1].replace('""', '"')))
            elif token["word"] or token["sign"]:
                self.tokens.append(("word" if token["word"] else "sign", token[0]))
        self.tokens.append(("end", ""))
        self.at = 0

    def sees(self, *words):
        """Whether these words or signs come next."""
        here = self.tokens[self.at : self.at + len(words)]
        return len(here) == len(words) and all(
            kind in ("word", "sign") and text.upper() == word for (kind, text), word in zip(here, words)
        )

    def takes(self, *words):
        found = self.sees(*words)
        self.at += len(words) if found else 0
        return found

    def wants(self, *words):
        if not self.takes(*words):
            stop(f"schema.sql: {' '.join(words)} expected before {self.tokens[self.at][1]!r}")

    def name(self):
        kind, text = self.tokens[self.at]
        if kind not in ("word", "name"):
            stop(f"schema.sql: a name expected before {text!r}")
        self.at += 1
        return text

    def names(self):
        self.wants("(")
        names = [self.name()]
        while self.takes(","):
            names.append(self.name())
        self.wants(")")
        return names

    def target(self, table, columns):
        key = ForeignKey(columns, self.name(), self.names() if self.sees("(") else [])
        while self.takes("ON"):
            self.at += 1
            if not (self.takes("NO", "ACTION") or self.takes("SET", "NULL") or self.takes("SET", "DEFAULT")):
                self.at += 1
        table.foreigns.append(key)

    def key(self, table):
        """Whether a key came, which it reads."""
        if self.takes("PRIMARY", "KEY"):
            table.primary = self.names()
        elif self.takes("UNIQUE"):
            table.uniques.append(self.names())
        elif self.takes("FOREIGN", "KEY"):
            columns = self.names()
            self.wants("REFERENCES")
            self.target(table, columns)
        else:
            return False
        return True

    def kind(self):
        word = self.name().upper()
        if word not in KIND_OF_WORD:
            stop(f"schema.sql: unknown type {word}")
        kind = KIND_OF_WORD[word]
        if self.takes("VARYING") and word == "BINARY":
            kind = "BINARY"
        if self.takes("("):
            while not self.takes(")"):
                self.at += 1
        self.takes("WITHOUT", "TIME", "ZONE")
        return kind

    def column(self, table):
        column = Column(self.name(), self.kind())
        table.columns.append(column)
        while not (self.sees(",") or self.sees(")")):
            if self.takes("CONSTRAINT"):
                self.name()
            if self.takes("PRIMARY", "KEY"):
                table.primary = [column.name]
            elif self.takes("UNIQUE"):
                table.uniques.append([column.name])
            elif self.takes("NOT", "NULL"):
                column.not_null = True
            elif self.takes("REFERENCES"):
                self.target(table, [column.name])
            else:
                self.wants("NULL")

    def create(self):
        self.takes("IF", "NOT", "EXISTS")
        table = Table(self.name())
        self.wants("(")
        while True:
            if self.takes("CONSTRAINT"):
                self.name()
            if not self.key(table):
                self.column(table)
            if not self.takes(","):
                break
        self.wants(")")
        return table

    def tables(self):
        tables = {}
        while self.tokens[self.at][0] != "end":
            if self.takes("CREATE", "TABLE"):
                table = self.create()
                tables[table.name] = table
            elif self.takes("ALTER", "TABLE"):
                self.takes("ONLY")
                table = tables[self.name()]
                self.wants("ADD")
                if self.takes("CONSTRAINT"):
                    self.name()
                self.key(table)
            else:
                self.wants(";")
        for table in tables.values():
            for key in table.foreigns:
                key.target_columns = key.target_columns or tables[key.target].primary
        return list(tables.values())


def read_schema(folder):
    with open(f"{folder}/schema.sql", encoding="utf-8-sig") as file:
        return Statements(file.read()).tables()


def value_of(kind, text):
    """What a field stands for in the mode without `empty-null`: a text, or None for NULL."""
    if text == r"\N" or (text == "" and kind != "TEXT"):
        return None
    if kind == "TEXT":
        return text[1:] if text.startswith("\\\\") else text
    if kind == "BOOLEAN":
        return "true" if text.lower() in ("true", "t", "1") else "false"
    if kind == "BINARY":
        return text[2:] if text.startswith("\\x") else text
    if kind == "TIMESTAMP":
        return text.replace("T", " ")
    return text


def rows_of(folder, table):
    """The rows of a table's file, each the list of its values in the order of the table's columns."""
    with open(table_file(folder, table), encoding="utf-8-sig", newline="") as file:
        records = (it for it in csv.reader(file) if it)
        header = next(records)
        places = [header.index(it.name) for it in table.columns]
        for record in records:
            yield [value_of(it.kind, record[place]) for it, place in zip(table.columns, places)]

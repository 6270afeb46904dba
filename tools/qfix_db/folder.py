"""A folder of qfix's files: initial.csv, log.sql, complaints.json, domains.csv, and map.json where `import` made it."""
import csv
import hashlib
import io
import json
from pathlib import Path

from . import values
from .faults import Fault, read
from .language import Log

LIMIT = 2**50
NULLS = ("\\N",)


def fingerprint(initial, log):
    """What tells whether the table or the log were changed since they were compared."""
    return hashlib.sha256(initial + b"\0" + log).hexdigest()


class Folder:
    def __init__(self, path):
        self.path = Path(path)
        if not self.path.is_dir():
            raise Fault(f"there is no folder {path}")

    def read(self, name):
        return read(self.path / name)

    def has(self, name):
        return (self.path / name).is_file()

    def log(self, name="log.sql"):
        return Log(self.read(name))

    def records(self, name):
        """The records of a CSV file."""
        data = self.read(name)
        while data.startswith(b"\xef\xbb\xbf"):
            data = data[3:]
        try:
            return [it for it in csv.reader(io.StringIO(data.decode(), newline="")) if it]
        except (UnicodeDecodeError, csv.Error) as error:
            raise Fault(f"{self.path / name} is no CSV of UTF-8 ({error})") from error

    def initial(self):
        """The rows of initial.csv: row name to cells by column; and the columns' names in order."""
        records = self.records("initial.csv")
        if not records:
            raise Fault(f"{self.path / 'initial.csv'} has no header")
        names = [it.split(":")[0].lower() for it in records[0]]
        return names, {f"r{number}": dict(zip(names, it)) for number, it in enumerate(records[1:], 1)}

    def complaints(self):
        if not self.has("complaints.json"):
            return []
        return self.json("complaints.json", list)

    def json(self, name, kind):
        try:
            made = json.loads(self.read(name).decode())
        except ValueError as error:
            raise Fault(f"{self.path / name} is no JSON ({error})") from error
        if not isinstance(made, kind):
            raise Fault(f"{self.path / name} is no {'array' if kind is list else 'object'}")
        return made

    def domains(self):
        """The domains: parameter's name to its lowest and greatest value."""
        records = self.records("domains.csv") if self.has("domains.csv") else []
        try:
            return {it[0]: (int(it[1]), int(it[2])) for it in records[1:]}
        except (ValueError, IndexError) as error:
            raise Fault(f"{self.path / 'domains.csv'} has a record that is no domain") from error

    def map(self):
        return Map(self.json("map.json", dict) if self.has("map.json") else {})

    def must_be_compared(self):
        """A folder of `import` is used further only where its replay was found to be the database's table."""
        compared = self.map().compared
        if not self.has("map.json"):
            return
        if not compared or compared["files"] != fingerprint(self.read("initial.csv"), self.read("log.sql")):
            raise Fault(f"{self.path}: initial.csv or log.sql was changed since it was compared with the database: run `qfix-db compare` first")
        if compared["differ"]:
            raise Fault(
                f"{self.path}: the replay of the log is not the table that the database has ({compared['differ']} differences or refused statements): an answer would be about another log"
            )


class Map:
    """What `import` wrote down: the database's types, keys and statements. Without map.json each column is as qfix has it."""

    def __init__(self, made):
        self.database = made.get("database")
        self.table = made.get("table")
        self.key = made.get("key")
        self.real = {it["name"]: it.get("real", it["name"]) for it in made.get("columns", [])}
        self.by_real = {real: name for name, real in self.real.items()}
        self.compared = made.get("compared")
        self.types = {it["name"]: it["type"] for it in made.get("columns", [])}
        self.twins = {it["name"]: it["null"] for it in made.get("columns", []) if it.get("null")}
        self.statements = made.get("statements", [])
        self.twin_names = set(self.twins.values())
        self.params = {it["param"]: it for it in made.get("params", [])}
        self.all_columns = made.get("all_columns", list(self.types))

    def safe(self, column):
        """The name in qfix's files of a column of the database."""
        return self.by_real.get(column, column)

    def renamed(self, record):
        return {self.safe(name): cell for name, cell in record.items()}

    def kind(self, column, kinds):
        """The type of a column: as the database has it, or else as qfix has it."""
        if column not in kinds or column in self.twin_names:
            shown = self.columns(kinds)
            raise Fault(f"there is no column {column}; there are {', '.join(shown)}")
        return self.types.get(column, kinds[column])

    def cells(self, column, text, kinds):
        """The cells for a value of the database; a column that may be NULL has two. `\\N` is NULL."""
        kind = self.kind(column, kinds)
        if text in NULLS:
            if column not in self.twins:
                raise Fault(f"{column} is never NULL here")
            return {column: "" if kind == "text" else 0, self.twins[column]: 1}
        try:
            made = {column: values.encode(text, kind)}
        except values.BadValue as error:
            raise Fault(f"{column}: {error}") from error
        if column in self.twins:
            made[self.twins[column]] = 0
        return made

    def shown(self, column, cells, kinds):
        """The database's text of a cell, by the cells of a row."""
        if column in self.twins and cells[self.twins[column]] == "1":
            return "NULL"
        return values.decode(cells[column], self.types.get(column, kinds[column]))

    def columns(self, kinds):
        """The columns that the database has too."""
        return [it for it in kinds if it not in self.twin_names]


def key_of(given, folder_map):
    """The key's columns: as they were given, or as `import` was told."""
    key = given or folder_map.key
    if not key:
        raise Fault("the key is not known: name it with --key COLUMN (or COLUMN,COLUMN)")
    return [folder_map.safe(it.strip().lower()) for it in key.split(",")]

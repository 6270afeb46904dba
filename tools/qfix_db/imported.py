"""One run of `import`: the real table and log are read, what is kept of them is decided, and qfix's files are written."""
import csv
import io
import re
import sqlite3

from . import columns as kinds
from . import values
from .analyse import Use
from .compare import is_sqlite, rows_of_sqlite
from .evaluate import Evaluator
from .faults import Fault, read
from .language import RESERVED, Log
from .logs import mysql_binlog, mysql_general, postgres_csvlog, sqlite_trace
from .parse import Constant, Parser, Term
from .sqltokens import Refused, scan
from .tables import records_of as records_of_table
from .transactions import Done, words_of
from .writer import Writer

# (statements that change no row of a table)
HARMLESS = set(
    "select set show explain prepare deallocate analyze analyse vacuum pragma comment grant revoke use listen notify lock unlock checkpoint discard reset declare fetch close attach detach reindex flush desc describe optimize check kill help".split()
)
WRITES = {"update", "delete", "insert", "replace", "merge", "truncate"}


class Import:
    """One run: what was told, and how many statements were refused."""

    def __init__(self, given):
        self.given, self.dialect = given, given.database
        self.refused, self.lines = 0, []

    def tell(self, line):
        self.lines.append(line)

    def refuse(self, entry, fault):
        self.refused += 1
        place = ""
        if fault.place is not None:
            place = f" at {entry.sql[fault.place : fault.place + 20].split(chr(10))[0]!r}"
        self.tell(f"{entry.place}: refused, {fault.why}{place}: {' '.join(entry.sql.split())[:90]}")

    # ---- the table

    def read_table(self):
        """The columns, the header in order, and the rows as texts (NULL as \\N)."""
        given = self.given
        if given.database == "sqlite" and is_sqlite(given.before):
            base = sqlite3.connect(f"file:{given.before}?mode=ro", uri=True)
            try:
                self.columns = kinds.columns_of_sqlite(base, given.table)
                keys = [it for it in base.execute(f"PRAGMA table_info({kinds.quoted(given.table)})") if it[5]]
                self.key = [it[1].lower() for it in sorted(keys, key=lambda it: it[5])]
                self.counter = self.sequence(base)
            except sqlite3.Error as error:
                raise Fault(f"{given.before}: {error}") from error
            finally:
                base.close()
            self.header = [it.name for it in self.columns]
            self.rows = [[row[it] for it in self.header] for _, row in rows_of_sqlite(given.before, given.table)]
        else:
            if not given.columns:
                raise Fault("--columns CSV is wanting: the types of the table's columns")
            self.columns, self.key, self.counter = kinds.columns_of_file(given.columns, self.dialect), [], None
            self.header, records = records_of_table(given.before)
            self.header = self.header or [it.name for it in self.columns]
            for place, cells in records:
                if len(cells) != len(self.header):
                    raise Fault(f"{given.before}, {place}: {len(cells)} cells, and the header has {len(self.header)}")
            self.rows = [cells for _, cells in records]
            known = {it.name for it in self.columns}
            if set(self.header) != known:
                raise Fault(f"{given.before} and {given.columns} have not the same columns: {', '.join(sorted(set(self.header) ^ known))}")
            self.columns.sort(key=lambda it: self.header.index(it.name))
        if given.key:
            self.key = [it.strip().lower() for it in given.key.split(",")]
        if not self.key:
            raise Fault("the table has no primary key: name the columns that tell its rows apart with --key")
        self.by_name = {it.name: it for it in self.columns}
        self.typed()

    def sequence(self, base):
        """The last number that SQLite counted up, where it keeps one."""
        try:
            found = base.execute("SELECT seq FROM sqlite_sequence WHERE lower(name) = ?", [self.given.table.lower()]).fetchone()
            return found[0] if found else None
        except sqlite3.Error:
            return None

    def typed(self):
        """Takes over --type."""
        for word in self.given.type:
            name, _, kind = word.partition("=")
            if name.lower() not in self.by_name or not values.is_kind(kind):
                raise Fault(f"--type {word}: wanted COLUMN=TYPE, of int, text, decimal:N, date, time, zoned, bool")
            self.by_name[name.lower()].kind, self.by_name[name.lower()].why = kind, ""
        for name in self.key:
            if name not in self.by_name:
                raise Fault(f"--key: the table has no column {name}")

    def cells(self, name):
        place = self.header.index(name)
        return [row[place] for row in self.rows]

    # ---- the log

    def read_log(self):
        try:
            text = read(self.given.log).decode()
        except UnicodeDecodeError as error:
            raise Fault(f"{self.given.log} is no UTF-8 ({error})") from error
        path, name = self.given.log, self.given.database_name
        if self.dialect == "sqlite":
            return sqlite_trace(text, path, self.tell)
        if self.dialect == "postgres":
            return postgres_csvlog(text, path, self.tell, name)
        return (mysql_binlog if "/*!*/;" in text else mysql_general)(text, path, self.tell, name)

    def schema(self):
        return (self.given.schema or {"sqlite": "main", "postgres": "public"}.get(self.dialect) or self.given.database_name or "").lower()

    def is_about(self, entry):
        """Whether a statement names the table."""
        try:
            return any(it.kind in ("word", "name") and it.text.lower() == self.given.table.lower() for it in scan(entry.sql, self.dialect))
        except Refused:
            return self.given.table.lower() in entry.sql.lower()

    def is_harmless(self, entry):
        """Whether a statement changes no row of any table, as far as its words tell; tells of those of which they do not."""
        first = words_of(entry.sql, self.dialect)
        if first[0] in ("execute", "call", "do"):
            self.tell(f"{entry.place}: what this did is not told: {' '.join(entry.sql.split())[:70]}")
            return True
        if first[0] in ("with", "explain"):
            return not WRITES & set(words_of(entry.sql, self.dialect, 10000))
        views = (["create", "view"], ["create", "or", "replace", "view"], ["create", "index"], ["create", "unique", "index"])
        return not first[0] or first[0] in HARMLESS or any(first[: len(it)] == it for it in views)

    def parse(self, entries):
        """The statements of the table that qfix's language has, each with its entry."""
        made, others, schemas = [], 0, set()
        done = Done(entries, self.dialect, self.tell)
        if self.dialect == "postgres" and not done.marks:
            self.tell(
                "the log has no BEGIN, COMMIT or ROLLBACK (log_statement = mod leaves them out): statements that were rolled back can't be seen"
            )
        for entry in done.kept:
            if self.is_harmless(entry):
                continue
            try:
                statement = Parser(entry.sql, self.dialect).statement()
            except Refused as fault:
                if self.is_about(entry):
                    self.refuse(entry, fault)
                else:
                    others += 1
                continue
            schema = self.schema()
            if statement.table != self.given.table.lower() or statement.schema and schema and statement.schema != schema:
                others += 1
                continue
            schemas |= {statement.schema} if statement.schema else set()
            if len(schemas) > 1:
                raise Fault(f"the log names {self.given.table} in several schemas ({', '.join(sorted(schemas))}): name one with --schema")
            for what in statement.dropped:
                self.tell(f"{entry.place}: {what} dropped")
            made.append((entry, statement))
        if others:
            self.tell(f"{others} statements that are not about {self.given.table} left out")
        return made

    # ---- what is kept

    def keep(self, parsed):
        """Decides which columns are kept, which of them may be NULL, and their names in qfix's files."""
        for column in self.columns:
            if column.counted and self.counts(column) is not None:
                column.default = None
        defaults = {it.name: it.default for it in self.columns}
        counted = {it.name for it in self.columns if self.counts(it) is not None}
        statements = [it for _, it in parsed]
        kinds.with_places(self.columns, self.cells, [it.sql for it, _ in parsed], self.dialect)
        use = Use(
            statements,
            self.header,
            {name: it if name not in counted else [Term(1, constant=Constant("number", "0"))] for name, it in defaults.items()},
        )
        needed, kept, self.unnamed = use.needed(self.key), [], []
        bad = self.unkept(use)
        named = {it.name for it in self.columns} if self.given.all_columns else use.named(needed, bad)
        for column in self.columns:
            name = column.name
            if name not in named:
                self.tell(f"the column {name} is left out: no statement names it")
                self.unnamed.append(name)
            elif name in bad and name not in needed:
                self.tell(f"the column {name} is left out: {bad[name]}")
            elif column.kind is None:
                raise Fault(f"the column {name} is wanted and has the {column.why}: name another with --type {name}=..")
            elif self.unfit(column):
                raise Fault(f"the column {name}: {self.unfit(column)}")
            else:
                kept.append(column)
        self.kept = {it.name: it.kind for it in kept}
        null = use.may_be_null({it for it in self.kept if "\\N" in self.cells(it)}) & set(self.kept)
        self.named(null)
        self.check_texts(use, parsed)
        return defaults

    def unkept(self, use):
        """The columns that qfix's files can't have, each with the reason: by their type, cells or values, or for they are computed from such."""
        made = {}
        for column in self.columns:
            strange = "; ".join(sorted({why for _, why in use.strange.get(column.name, [])}))
            reason = column.why or strange or self.unfit(column)
            if reason:
                made[column.name] = reason
        return use.spread(made)

    def unfit(self, column):
        """Why the cells of a column have no form at its type, or an empty text."""
        for cell in self.cells(column.name) if column.kind and column.kind != kinds.OPEN else []:
            if cell != "\\N":
                try:
                    made = values.encode(cell, column.kind)
                except values.BadValue as fault:
                    return str(fault)
                if self.dialect == "sqlite" and column.kind in ("time", "zoned") and values.decode(made, column.kind) != cell:
                    return f"{cell!r} is not written as {values.decode(made, column.kind)!r}, and SQLite compares such texts"
        return ""

    def counts(self, column):
        """The number that the database counts up next at a column, where it is known."""
        for word in self.given.next:
            name, _, number = word.partition("=")
            if not number.isdigit() or name.lower() not in self.by_name:
                raise Fault(f"--next {word}: wanted COLUMN=N")
            if name.lower() == column.name:
                return int(number)
        if column.counted and self.dialect == "sqlite" and column.kind == "int":
            return max([self.counter or 0, *(int(it) for it in self.cells(column.name) if it != "\\N")]) + 1
        return None

    def named(self, null):
        """Names of letters, digits and `_` for the columns, and for the twins of those that may be NULL."""
        taken, self.safe, self.twins = set(), {}, {}
        for name in self.kept:
            safe = re.sub(r"[^A-Za-z0-9_]", "_", name)[:58]
            safe = safe if re.match(r"[A-Za-z_]", safe) else "_" + safe
            self.safe[name] = self.free(safe, taken)
        for name in self.kept:
            if name in null:
                self.twins[name] = self.free(self.safe[name] + "_null", taken)

    def free(self, name, taken):
        made, number = name, 2
        while made in RESERVED or made in taken:
            made, number = f"{name}_{number}", number + 1
        taken.add(made)
        return made

    def check_texts(self, use, parsed):
        """Refuses texts that the database holds for one and qfix for two, where they are compared."""
        folded = [it for it in self.kept if self.by_name[it].folded and it in use.compared | {name for name, _ in use.copies}]
        if not folded:
            return
        texts = {cell for name in folded for cell in self.cells(name) if cell != "\\N"}
        for entry, _ in parsed:
            texts |= {it.text for it in scan(entry.sql, self.dialect) if it.kind == "text"}
        found = kinds.one_text(sorted(texts))
        if found:
            raise Fault(
                f"{found[0]!r} and {found[1]!r} may be one text in the database, which compares {', '.join(folded)} without case, accents or blanks at the end; qfix holds them for two"
            )

    # ---- the files

    def write(self, parsed, defaults):
        """The three files' texts."""
        table = re.sub(r"[^A-Za-z0-9_]", "_", self.given.table.lower())
        table = table if re.match(r"[A-Za-z_]", table) and table not in RESERVED else "_" + table
        writer = Writer(self.dialect, self.kept, self.safe, self.twins, defaults, self.header, table)
        writer.next = {it.name: self.counts(it) for it in self.columns if it.name in self.kept and self.counts(it) is not None}
        log, statements, params, keys = "", [], [], {}
        for row, cells in enumerate(self.rows, 1):
            keys[f"r{row}"] = [cells[self.header.index(it)] for it in self.key]
        inserted, shrunk = 0, False
        for entry, statement in parsed:
            counted = [it for it in self.columns if it.counted]
            if entry.counted is not None and counted:
                writer.next[counted[0].name] = entry.counted
            if statement.kind == "insert" and shrunk and self.dialect == "sqlite" and self.counter is None:
                # (without AUTOINCREMENT SQLite goes on from the greatest number that is there)
                for name in writer.next:
                    writer.next[name] = self.greatest(log, self.safe[name]) + 1
            before = dict(writer.next)
            try:
                made = writer.statement(statement)
            except Refused as fault:
                self.refuse(entry, fault)
                writer.next = before
                continue
            if made is None:
                self.tell(f"{entry.place}: left out, it sets no column that is kept: {' '.join(entry.sql.split())[:70]}")
                continue
            shrunk = shrunk or statement.kind == "delete" or any(name in writer.next for name, _ in statement.sets)
            text, constants, rows = made
            statements.append({"sql": entry.sql, "place": entry.place, "time": entry.time, "connection": entry.connection})
            log += f"-- {entry.place} {entry.time} {entry.connection}".rstrip() + f"\n{text};\n"
            for constant in constants:
                for end in ("from", "to"):
                    if constant[end] is not None:
                        constant[end] = len(entry.sql[: constant[end]].encode())
                params.append({"param": f"p{len(params) + 1}", "statement": len(statements), **constant})
            for cells in rows:
                inserted += 1
                keys[f"i{inserted}"] = [values.decode(cells[it], self.kept[it]) for it in self.key]
        self.counts_told = f"{len(statements)} statements, {len(self.rows)} rows, {len(params)} constants; {self.refused} statements refused"
        columns = [{"name": self.safe[name], "real": name, "type": kind, "null": self.twins.get(name)} for name, kind in self.kept.items()]
        made = {"database": self.dialect, "table": self.given.table, "key": ",".join(self.safe[it] for it in self.key), "columns": columns}
        made.update(
            all_columns=[it.name for it in self.columns], statements=statements, params=params, rows={name: ",".join(it) for name, it in keys.items()}
        )
        return {"initial.csv": self.initial(), "log.sql": log, "map.json": made}

    def greatest(self, log, name):
        """The greatest number of a column after the log so far."""
        records = list(csv.reader(io.StringIO(self.initial(), newline="")))
        held = dict(it.split(":") for it in records[0])
        rows = {f"r{number}": dict(zip(held, it)) for number, it in enumerate(records[1:], 1)}
        made = Log(log.encode())
        table = Evaluator(made, rows, held).table({it.number: it.value for it in made.params})
        return max([0, *(int(it[name]) for it in table.values())])

    def initial(self):
        out = io.StringIO()
        writer = csv.writer(out, lineterminator="\n", quoting=csv.QUOTE_MINIMAL)
        writer.writerow(
            [
                it
                for name, kind in self.kept.items()
                for it in [f"{self.safe[name]}:{'text' if kind == 'text' else 'int'}"] + ([f"{self.twins[name]}:int"] if name in self.twins else [])
            ]
        )
        for cells in self.rows:
            record = []
            for name, kind in self.kept.items():
                cell = cells[self.header.index(name)]
                null = cell == "\\N"
                record.append(("" if kind == "text" else 0) if null else values.encode(cell, kind))
                record += [int(null)] if name in self.twins else []
            writer.writerow(record)
        return out.getvalue()

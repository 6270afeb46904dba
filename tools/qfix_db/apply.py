"""qfix-db apply: the repaired constants put back into the real SQL, run in a fresh database, compared with what was wanted."""
import shutil
import sqlite3
import tempfile
from pathlib import Path

from . import values
from .changes import changed, real_statement, rows_changed, shown
from .compare import actual_rows, differences, records_of, rows_of_sqlite
from .faults import Fault, write_all
from .folder import Folder, key_of
from .program import Program

HELP = "the repaired constants put back into the real SQL, run in a fresh database, compared with what was wanted"
ABOUT = """Needs the map.json of `import`. Puts the constants of repaired.sql back into the statements of the real log and writes real.sql, in the
database's own words. Then

    --before BEFORE.db   runs real.sql in a fresh copy of the SQLite file from before the log, and compares its table with qfix's replay
                         and with the complaints, row by row; --out AFTER.db keeps the copy
    --fix FIX.sql        writes the UPDATE, DELETE and INSERT statements by key that take the table that the database has now to the
                         repaired one: to be read, and run in one transaction. Other tables stay as they are
    --now FINAL          the table that the database has now (a CSV, a .tsv or an SQLite file): FIX.sql is only written where the replay of
                         log.sql is this table

For another database, load the dump from before the log into a fresh one, run real.sql there, and `qfix-db compare DIR --log repaired.sql`."""


def arguments(words):
    words.add_argument("folder", metavar="DIR")
    words.add_argument("--repaired", default="repaired.sql", help="the repaired log in the folder (repaired.sql)")
    words.add_argument("--real", default="real.sql", help="the file to write in the folder (real.sql)")
    words.add_argument("--before", help="the SQLite file from before the log")
    words.add_argument("--out", help="with --before: keep the repaired SQLite file here")
    words.add_argument("--fix", help="write the changes of rows here")
    words.add_argument("--now", help="with --fix: the table that the database has now")
    words.add_argument("--key", help="the key's columns")


def real_log(folder_map, log, repaired):
    """The real statements with the repaired constants, and a line for each that changed."""
    news, lines, made = {}, [], []
    for old, new in changed(log, repaired):
        news.setdefault(old.statement, {})[old.name] = new.value
        lines.append(f"{old.name}: {shown(old, old.value, folder_map)} -> {shown(new, new.value, folder_map)}")
    for number, statement in enumerate(folder_map.statements, 1):
        one, other = real_statement(folder_map, number, news.get(number, {}))
        if one != other:
            lines += [f"{statement['place']}:", f"- {' '.join(one.split())}", f"+ {' '.join(other.split())}"]
        made.append(other.rstrip().rstrip(";").rstrip() + ended(other))
    return "".join(made), lines


def ended(sql):
    """A semicolon, on a line of its own where the statement's last line has a comment."""
    return "\n;\n" if "--" in sql.splitlines()[-1] or "#" in sql.splitlines()[-1] else ";\n"


def run_fresh(before, real, table, out):
    """Runs the statements in a copy of an SQLite file; answers the table's rows, and keeps the copy where `out` says."""
    place = Path(tempfile.mkdtemp(prefix="qfix-db-"))
    try:
        copy = place / "fresh.db"
        shutil.copyfile(before, copy)
        base = sqlite3.connect(copy, isolation_level=None)
        try:
            base.executescript("BEGIN;\n" + real + "COMMIT;\n")
        except sqlite3.Error as error:
            raise Fault(f"the repaired statements failed in a fresh copy of {before}: {error}") from error
        finally:
            base.close()
        rows = rows_of_sqlite(copy, table)
        return rows, copy.read_bytes() if out else None
    except OSError as error:
        raise Fault(f"{before} could not be read: {error.strerror}") from error
    finally:
        shutil.rmtree(place)


def unmet(complaints, final):
    """A line for each complaint that the table does not meet."""
    lines = []
    for complaint in complaints:
        name, row = complaint["row"], final.rows.get(complaint["row"])
        wanted = {it.lower(): str(value) for it, value in complaint.get("set", {}).items()}
        if complaint.get("state", "present") == "absent":
            lines += [f"{name} should be gone"] if row is not None else []
        elif row is None:
            lines.append(f"{name} should be there")
        else:
            lines += [f"{name}: {it} should be {value} and is {row[it]}" for it, value in wanted.items() if row[it] != value]
    return lines


# ---- the changes of rows, by key


def quoted(name, database):
    return f"`{name}`" if database == "mysql" else '"' + name.replace('"', '""') + '"'


def cell_sql(column, row, folder_map, kinds):
    if column in folder_map.twins and row[folder_map.twins[column]] == "1":
        return "NULL"
    kind = folder_map.types.get(column, kinds[column])
    if kind == "text":
        text = row[column].replace("'", "''")
        return "'" + (text.replace("\\", "\\\\") if folder_map.database == "mysql" else text) + "'"
    if kind == "bool" and folder_map.database != "postgres":
        return row[column]
    return values.literal(int(row[column]), kind)


def fix_of(before, after, key, folder_map, all_columns):
    """The statements that take one table to the other."""
    database, kinds, lines = folder_map.database, before.kinds, []
    columns = folder_map.columns(kinds)
    table = quoted(folder_map.table, database)

    def real(column):
        return quoted(folder_map.real.get(column, column), database)

    def where(row):
        return " AND ".join(f"{real(it)} = {cell_sql(it, row, folder_map, kinds)}" for it in key)

    for name, (one, other) in rows_changed(before, after).items():
        if other is None:
            lines.append(f"DELETE FROM {table} WHERE {where(one)};\n")
        elif one is None:
            missing = [it for it in all_columns if folder_map.safe(it) not in columns]
            if missing:
                raise Fault(f"{name} comes back, and its columns {', '.join(missing)} are not in initial.csv: import with --all-columns")
            cells = ", ".join(cell_sql(it, other, folder_map, kinds) for it in columns)
            lines.append(f"INSERT INTO {table} ({', '.join(map(real, columns))}) VALUES ({cells});\n")
        else:
            sets = [it for it in columns if cell_sql(it, one, folder_map, kinds) != cell_sql(it, other, folder_map, kinds)]
            if any(it in key for it in sets):
                raise Fault(f"{name}: its key changes; that is for a person")
            lines.append(
                f"UPDATE {table} SET {', '.join(f'{real(it)} = {cell_sql(it, other, folder_map, kinds)}' for it in sets)} WHERE {where(one)};\n"
            )
    return "BEGIN;\n" + "".join(lines) + "COMMIT;\n", len(lines)


def renamed(records, folder_map):
    return [(place, folder_map.renamed(it)) for place, it in records]


def run(given):
    folder, program = Folder(given.folder), Program(given.program)
    folder_map = folder.map()
    if not folder.has("map.json"):
        raise Fault(f"{folder.path} has no map.json of `qfix-db import`: the repaired log is repaired.sql itself")
    if given.out and not given.before or given.now and not given.fix:
        raise Fault("--out goes with --before, and --now with --fix")
    if given.before and folder_map.database != "sqlite":
        raise Fault("--before is for SQLite; for another database see --help")
    folder.must_be_compared()
    after, before = program.replay(folder.path, log=given.repaired), program.replay(folder.path)
    real, lines = real_log(folder_map, folder.log(), folder.log(given.repaired))
    files, faults = {folder.path / given.real: real}, []
    lines += [""] if lines else ["nothing changes"]
    faults += unmet(folder.complaints(), after)
    key = key_of(given.key, folder_map) if given.before or given.fix else None
    if given.before:
        rows, copy = run_fresh(given.before, real, folder_map.table, given.out)
        unlike = differences(after, actual_rows(renamed(rows, folder_map), after.kinds, folder_map, key), key, folder_map)
        faults += unlike
        lines.append(f"run in a fresh copy of {given.before}: {len(rows)} rows, {len(unlike)} differ from qfix's replay")
        if given.out:
            files[given.out] = copy
    if given.fix:
        if given.now:
            unlike = differences(
                before, actual_rows(renamed(records_of(given.now, folder_map.table), folder_map), before.kinds, folder_map, key), key, folder_map
            )
            faults += [f"{given.now} is not the replay of log.sql: {it}" for it in unlike]
        fix, count = fix_of(before, after, key, folder_map, folder_map.all_columns)
        files[given.fix] = fix
        lines.append(f"{given.fix}: {count} rows change")
    if faults:
        print("\n".join(faults))
        print("nothing was written")
        return 1
    write_all(files)
    print("\n".join(it for it in lines if it))
    print(f"{folder.path / given.real} written")
    return 0

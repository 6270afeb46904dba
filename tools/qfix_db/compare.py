"""qfix-db compare: the replayed table against the real final one."""
import json
import sqlite3
from decimal import Decimal, InvalidOperation

from . import values
from .faults import Fault, write_all
from .folder import Folder, fingerprint, key_of
from .program import Program
from .tables import read_table

HELP = "the replayed table against the database's final one, a line for each difference"
ABOUT = """Replays log.sql (or --log repaired.sql) with qfix, and compares each row with that of FINAL, found by its key. FINAL is a CSV file with
a header (NULL as \\N), a .tsv file of `mysql --batch`, or an SQLite file. A line for each difference, and status 1 where there is one.

Whatever a log does not tell (triggers, statements that failed or were rolled back, comparison of texts without case) shows here: so
compare after each import, before anything else."""


def arguments(words):
    words.add_argument("folder", metavar="DIR")
    words.add_argument("final", metavar="FINAL", help="the table that the database has after the log")
    words.add_argument("--key", help="the key's columns, as `id` or `shop,sku`")
    words.add_argument("--log", default="log.sql", help="another log of the folder, as repaired.sql")
    words.add_argument("--table", help="the table in an SQLite file, where map.json does not say")


def is_sqlite(path):
    try:
        with open(path, "rb") as file:
            return file.read(16) == b"SQLite format 3\0"
    except OSError as error:
        raise Fault(f"{path} could not be read: {error.strerror}") from error


def rows_of_sqlite(path, table):
    """The rows of a table of an SQLite file, as texts, NULL as \\N."""
    base = sqlite3.connect(f"file:{path}?mode=ro", uri=True)
    try:
        name = table.replace('"', '""')
        rows = base.execute(f'SELECT * FROM "{name}"')
        header = [it[0].lower() for it in rows.description]
        return [(f"row {number}", dict(zip(header, map(text_of, row)))) for number, row in enumerate(rows, 1)]
    except sqlite3.Error as error:
        raise Fault(f"{path}: {error}") from error
    finally:
        base.close()


def text_of(cell):
    if cell is None:
        return "\\N"
    if isinstance(cell, bytes):
        return "x'" + cell.hex() + "'"
    return repr(cell) if isinstance(cell, float) else str(cell)


def rounded(text, kind):
    """A floating number that a database computed, where it is next to a number of the type's places."""
    if kind.startswith("decimal:"):
        try:
            exact = Decimal(text).scaleb(values.places_of(kind))
            if exact.is_finite() and abs(exact - exact.to_integral_value()) < Decimal("0.001"):
                return values.decode(int(exact.to_integral_value()), kind)
        except InvalidOperation:
            pass
    return text


def actual_rows(records, kinds, folder_map, key):
    """The database's rows in qfix's cells, by key; a value that qfix can't have is kept as it is, so that it differs."""
    made = {}
    for place, record in records:
        cells = {}
        for column in folder_map.columns(kinds):
            if column not in record:
                continue
            try:
                text = rounded(record[column], folder_map.kind(column, kinds))
                cells.update({name: str(it) for name, it in folder_map.cells(column, text, kinds).items()})
            except Fault:
                cells[column] = record[column]
        missing = [it for it in key if it not in cells]
        if missing:
            raise Fault(f"the final table has no column {', '.join(missing)}")
        number = tuple(cells[it] for it in key)
        if number in made:
            raise Fault(f"the final table, {place}: an earlier row has the same key ({', '.join(number)})")
        made[number] = cells
    return made


def differences(final, actual, key, folder_map):
    """A line for each difference of the replayed rows and the database's."""
    lines, ours = [], {}
    for name, row in final.rows.items():
        number = tuple(row[it] for it in key)
        if number in ours:
            lines.append(f"{name}: {ours[number][0]} has the same key ({told(key, number)})")
            continue
        ours[number] = name, row
    for number in sorted(
        {**ours, **actual}, key=lambda it: [(not cell.lstrip("-").isdigit(), int(cell) if cell.lstrip("-").isdigit() else 0, cell) for cell in it]
    ):
        if number not in actual:
            lines.append(f"{ours[number][0]} ({told(key, number)}): the database has no such row")
        elif number not in ours:
            lines.append(f"{told(key, number)}: the replay has no such row")
        else:
            name, row = ours[number]
            other = actual[number]
            unlike = [it for it in folder_map.columns(final.kinds) if it in other and not same(it, row, other, folder_map)]
            if unlike:
                parts = [
                    f"{it} is {shown(it, row, folder_map, final)} by replay, {shown(it, other, folder_map, final)} in the database" for it in unlike
                ]
                lines.append(f"{name} ({told(key, number)}): " + "; ".join(parts))
    return lines


def same(column, row, other, folder_map):
    twin = folder_map.twins.get(column)
    return row[column] == other[column] and (twin is None or row[twin] == other.get(twin))


def shown(column, row, folder_map, final):
    try:
        return folder_map.shown(column, row, final.kinds)
    except (ValueError, KeyError, OverflowError):
        return repr(row[column])


def told(key, number):
    return ", ".join(f"{column} {text}" for column, text in zip(key, number))


def records_of(path, table):
    if is_sqlite(path):
        if not table:
            raise Fault(f"which table of {path}? name it with --table")
        return rows_of_sqlite(path, table)
    return read_table(path)


def run(given):
    folder = Folder(given.folder)
    folder_map = folder.map()
    key = key_of(given.key, folder_map)
    final = Program(given.program).replay(folder.path, log=given.log)
    unknown = [it for it in key if it not in folder_map.columns(final.kinds)]
    if unknown:
        raise Fault(f"the replayed table has no column {', '.join(unknown)}")
    records = [(place, folder_map.renamed(it)) for place, it in records_of(given.final, given.table or folder_map.table)]
    compared = [it for it in folder_map.columns(final.kinds) if not records or it in records[0][1]]
    lines = differences(final, actual_rows(records, final.kinds, folder_map, key), key, folder_map)
    for line in lines:
        print(line)
    print(f"{len(records)} rows, {len(lines)} differ (columns {', '.join(compared)})")
    if given.log == "log.sql" and folder.has("map.json"):
        keep_note(folder, len(lines))
    return 1 if lines else 0


def keep_note(folder, count):
    """Notes in map.json that this table and this log were compared, with how many differences."""
    made = folder.json("map.json", dict)
    note = {"files": fingerprint(folder.read("initial.csv"), folder.read("log.sql")), "differ": count}
    if made.get("compared") != note:
        write_all({folder.path / "map.json": json.dumps({**made, "compared": note}, indent=1, ensure_ascii=False) + "\n"})

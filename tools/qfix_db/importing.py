"""qfix-db import: the files of qfix from a real database's table and log."""
import csv
import io
import json
import shutil
import tempfile
from pathlib import Path

from .compare import actual_rows, differences, records_of
from .faults import Fault, write_all
from .folder import Folder, Map, fingerprint
from .imported import Import
from .program import Program
from .why import explain

HELP = "initial.csv, log.sql and map.json from the table and the log of SQLite, PostgreSQL, MySQL or MariaDB"
ABOUT = """Makes the files that qfix reads from a real table and the log of what ran on it, and compares at once: the replayed table must be the one
that the database really has. What qfix's language lacks is written otherwise where that keeps the meaning: schemas, quoted names, aliases,
RETURNING and comments are dropped; decimals become whole numbers, days and seconds too; a column that may be NULL gets a twin of 0 and 1;
values of prepared statements are put in; statements of other tables, that failed or were rolled back are left out, and so are columns that
hold what qfix can't have where nothing else depends on them. Each statement that can't be taken is told with its place and reason.

    qfix-db import sqlite TRACE --before BEFORE.db --after AFTER.db --table T --out DIR
    qfix-db import postgres LOG.csv --before BEFORE.csv --after AFTER.csv --columns COLUMNS.csv --table T --key ID --out DIR
    qfix-db import mysql LOG --before BEFORE.tsv --after AFTER.tsv --columns COLUMNS.csv --table T --key ID --out DIR

docs/OPERATING.md says how these files are made. Where a statement is refused or a row differs the status is 1 and nothing is written, but
with --anyway: then the other tools say that this log is not the database's."""
DATABASES = ("sqlite", "postgres", "mysql")


def arguments(words):
    words.add_argument("database", choices=DATABASES, help="sqlite, postgres or mysql (MariaDB too)")
    words.add_argument("log", metavar="LOG", help="a trace, a csvlog, the text of mysqlbinlog or a general log")
    words.add_argument("--before", required=True, help="the table before the log: an SQLite file, CSV (NULL as \\N) or .tsv of `mysql --batch`")
    words.add_argument("--after", required=True, help="the table after the log, in the same forms")
    words.add_argument("--table", required=True)
    words.add_argument("--out", required=True, metavar="DIR", help="the folder for initial.csv, log.sql and map.json")
    words.add_argument("--key", help="the key's columns (SQLite: the primary key)")
    words.add_argument("--columns", metavar="CSV", help="column,type,places,default,collation,extra of the table (not for SQLite)")
    words.add_argument("--type", action="append", default=[], metavar="COLUMN=TYPE", help="int, text, decimal:N, date, time, zoned or bool")
    words.add_argument("--next", action="append", default=[], metavar="COLUMN=N", help="the number that the database counts up next")
    words.add_argument("--database-name", metavar="NAME", help="only this database of the log")
    words.add_argument("--schema", help="the table's schema where statements name one (main, public, or the database)")
    words.add_argument("--all-columns", action="store_true", help="keep the columns that no statement names")
    words.add_argument("--replace", action="store_true", help="take the place of files that DIR has")
    words.add_argument("--anyway", action="store_true", help="write the files despite refused statements and differences")


def unnamed_changes(work, final, made, records, key):
    """A line for each row in which a column changed that no statement names: something beside the log did that."""
    if not work.unnamed:
        return []
    after = {tuple(record.get(made.real[it], "") for it in key): record for _, record in records}
    lines = []
    for number, cells in enumerate(work.rows, 1):
        record = after.get(tuple(cells[work.header.index(made.real[it])] for it in key))
        if f"r{number}" not in final.rows or record is None:
            continue
        for name in work.unnamed:
            old = cells[work.header.index(name)]
            if name in record and record[name] != old:
                lines.append(f"r{number}: {name} was {old} and is {record[name]}, and no statement names it")
    return lines


def checked(program, files, given, work):
    """Has qfix read the files in a folder of their own; answers what qfix or the comparison with the final table has to say."""
    place = Path(tempfile.mkdtemp(prefix="qfix-db-"))
    try:
        write_all({place / name: data if isinstance(data, str) else json.dumps(data) for name, data in files.items()})
        status, said, fault = program.run(place, "params", "initial.csv", "log.sql")
        if status:
            line = said.decode().strip() or fault
            return [line] + (explain(Folder(place), line) if status == 3 else []), None
        records = list(csv.reader(io.StringIO(said.decode(), newline="")))[1:]
        noted = [(it["param"], str(it["old"]), str(it["statement"])) for it in files["map.json"]["params"]]
        if [tuple(it[:3]) for it in records] != noted:
            raise Fault("qfix reads other constants than import wrote; please tell its author")
        final, made = program.replay(place), Map(files["map.json"])
        key = made.key.split(",")
        given_records = records_of(given.after, given.table)
        records = [(where, made.renamed(it)) for where, it in given_records]
        return [], unnamed_changes(work, final, made, given_records, key) + differences(
            final, actual_rows(records, final.kinds, made, key), key, made
        )
    finally:
        shutil.rmtree(place)


def run(given):
    program, out = Program(given.program), Path(given.out)
    if not program.path:
        raise Fault("import has qfix read what it makes, and there is no program qfix: make it with ./build, or name it with --program PATH")
    there = [it for it in ("initial.csv", "log.sql", "map.json") if (out / it).exists()]
    if there and not given.replace:
        raise Fault(f"{out} has {', '.join(there)} already; --replace takes their place")
    work = Import(given)
    work.read_table()
    parsed = work.parse(work.read_log())
    files = work.write(parsed, work.keep(parsed))
    print("\n".join([*work.lines, work.counts_told]))
    said, unlike = checked(program, files, given, work)
    if said:
        print("qfix does not take the files: " + "\n".join(said))
        return 1
    print("\n".join([*unlike, f"compared with {given.after}: {len(unlike)} rows differ"]))
    fault = bool(work.refused or unlike)
    if fault and not given.anyway:
        print("nothing was written (--anyway writes the files as they are)")
        return 1
    files["map.json"]["compared"] = {
        "files": fingerprint(files["initial.csv"].encode(), files["log.sql"].encode()),
        "differ": len(unlike) + work.refused,
    }
    files["map.json"] = json.dumps(files["map.json"], indent=1, ensure_ascii=False) + "\n"
    out.mkdir(parents=True, exist_ok=True)
    write_all({out / name: data for name, data in files.items()})
    print(f"{out} has initial.csv, log.sql and map.json")
    return 1 if fault else 0

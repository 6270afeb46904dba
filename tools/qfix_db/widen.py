"""qfix-db widen: a repair over the rows that somebody vouches for, and the list of the other rows that it changes."""
import csv
import io
import shutil
import tempfile
from pathlib import Path

from .changes import changed, rows_changed, shown
from .compare import told
from .complain import text_of
from .domains import advice_on_none, Choice
from .faults import Fault, write_all
from .folder import Folder, key_of
from .language import Log
from .program import Program
from .tables import read_table
from .why import explain

HELP = "a repair over the rows that somebody vouches for, then the other rows that it changes"
ABOUT = """Where nobody knows all wrong rows, `diagnose` answers `none`, for each row without a complaint must end as it did. This asks qfix about
some rows alone: those with complaints, and those that somebody vouches for (a CSV file with their keys; their final cells are right). All
other rows are left out of the question, and then listed where the repair changes them: a person says of each whether the change is right.

    qfix-db widen DIR --vouched GOOD.csv
    qfix-db widen DIR                         the complained rows alone

Where the changed rows are as they should be, --write keeps the repaired log as repaired.sql (it is no repair by complaints.json, before
these rows have complaints too: --complain adds them)."""


def arguments(words):
    words.add_argument("folder", metavar="DIR")
    words.add_argument("--vouched", metavar="CSV", help="the keys of rows that are right now")
    words.add_argument("--key", help="the key's columns")
    words.add_argument("--budget", type=int, default=100000, help="the search's budget (100000)")
    words.add_argument("--write", action="store_true", help="keep the repaired log as repaired.sql")
    words.add_argument("--complain", action="store_true", help="add a complaint for each other row that the repair changes, as it makes it")


def names_of(path, key, folder_map, final):
    """The rows whose keys a CSV file has."""
    made = set()
    for place, record in read_table(path):
        record = folder_map.renamed(record)
        missing = [it for it in key if it not in record]
        if missing:
            raise Fault(f"{path}, {place}: the key {', '.join(missing)} is wanting")
        asked = {}
        for column in key:
            asked.update({name: str(it) for name, it in folder_map.cells(column, record[column], final.kinds).items()})
        found = [name for name, row in final.rows.items() if all(row[it] == text for it, text in asked.items())]
        if len(found) != 1:
            raise Fault(f"{path}, {place}: {len(found)} rows have {', '.join(f'{it} {record[it]}' for it in key)}")
        made.add(found[0])
    return made


class Smaller:
    """The question about some rows alone. The others are left out of the table and of the INSERTs, and rows and constants are numbered
    anew; `params` goes from a constant's number in the smaller log to that in the whole one."""

    def __init__(self, folder, log, kept):
        records = folder.records("initial.csv")
        header = kinds_in_header(records[0], folder.kinds)
        rows = [it for number, it in enumerate(records[1:], 1) if f"r{number}" in kept]
        self.names = {}
        for number in range(1, len(records)):
            if f"r{number}" in kept:
                self.names[f"r{number}"] = f"r{len(self.names) + 1}"
        out = io.StringIO()
        csv.writer(out, lineterminator="\n").writerows([header, *rows])
        self.initial = out.getvalue()
        self.log, gone = self.cut(log, kept)
        left = [it for it in log.params if not any(start <= it.start < end for start, end in gone)]
        self.params = {number: it.number for number, it in enumerate(left, 1)}

    def cut(self, log, kept):
        """The log without the tuples of rows that are left out; an INSERT of which nothing is left goes as a whole."""
        gone, made, at, count, inserted = [], b"", 0, 0, 0
        for statement in log.statements:
            stay = []
            for span in statement.spans:
                count += 1
                if f"i{count}" in kept:
                    stay.append(span)
                    inserted += 1
                    self.names[f"i{count}"] = f"i{inserted}"
                else:
                    gone.append(span)
            if statement.kind != "insert" or len(stay) == len(statement.spans):
                continue
            made += log.data[at : statement.spans[0][0] if stay else statement.start]
            made += b", ".join(log.data[start:end] for start, end in stay)
            at = statement.end
        return made + log.data[at:], gone


def kinds_in_header(header, kinds):
    """The header with each column's kind, for fewer rows might tell another."""
    return [f"{it.split(':')[0]}:{kinds[it.split(':')[0].lower()]}" for it in header]


def ask(program, smaller, complaints, domains, budget):
    """qfix's status and what it said about the smaller question."""
    numbers = {whole: number for number, whole in smaller.params.items()}
    lines = [f"p{numbers[int(name[1:])]},{low},{high}\n" for name, (low, high) in domains.items() if int(name[1:]) in numbers]
    asked = [{**it, "row": smaller.names[it["row"]]} for it in complaints]
    place = Path(tempfile.mkdtemp(prefix="qfix-db-"))
    try:
        write_all(
            {
                place / "initial.csv": smaller.initial,
                place / "log.sql": smaller.log,
                place / "complaints.json": text_of(asked),
                place / "domains.csv": "param,lo,hi\n" + "".join(lines),
            }
        )
        status, said, fault = program.run(place, "diagnose", "initial.csv", "log.sql", "complaints.json", "domains.csv", budget, "answer.cert")
        why = explain(Folder(place), said.decode().strip()) if status == 3 else []
        return status, said, fault, why
    finally:
        shutil.rmtree(place)


def run(given):
    folder, program = Folder(given.folder), Program(given.program)
    folder.must_be_compared()
    folder_map, log, complaints = folder.map(), folder.log(), folder.complaints()
    if not complaints:
        raise Fault("there are no complaints (`qfix-db complain`)")
    if not folder.domains():
        raise Fault("there are no domains (`qfix-db domains`)")
    before = program.replay(folder.path)
    folder.kinds = before.kinds
    vouched = names_of(given.vouched, key_of(given.key, folder_map), folder_map, before) if given.vouched else set()
    complained = {it["row"] for it in complaints}
    smaller = Smaller(folder, log, complained | vouched)
    strange = [it for it in complained if it not in smaller.names]
    if strange:
        raise Fault(f"complaints.json names rows that are not there: {', '.join(sorted(strange))}")
    status, said, fault, why = ask(program, smaller, complaints, folder.domains(), given.budget)
    if status:
        print("\n".join([said.decode(errors="replace").strip() or fault, *why]))
        if status == 1:
            print(f"even the {len(smaller.names)} rows alone have no repair:")
            print("\n".join(advice_on_none(Choice(folder, program))))
        return status
    news = {smaller.params[it.number]: it.value for it in Log(said).params}
    repaired = log.with_constants(news)
    place = Path(tempfile.mkdtemp(prefix="qfix-db-"))
    try:
        write_all({place / "initial.csv": folder.read("initial.csv"), place / "log.sql": repaired})
        after = program.replay(place)
    finally:
        shutil.rmtree(place)
    for old, new in changed(log, Log(repaired)):
        print(f"{old.name}: {shown(old, old.value, folder_map)} -> {shown(new, new.value, folder_map)}  (statement {old.statement})")
    others = {name: pair for name, pair in rows_changed(before, after).items() if name not in complained | vouched}
    print(f"{len(others)} other rows change ({len(complained)} complained of, {len(vouched)} vouched for, {len(before.rows)} in all)")
    key = key_of(given.key, folder_map) if given.key or folder_map.key else []
    for name, (one, other) in others.items():
        print(row_line(name, one, other, key, folder_map, before.kinds))
    files = {}
    if given.write:
        files[folder.path / "repaired.sql"] = repaired
    if given.complain:
        files[folder.path / "complaints.json"] = text_of(complaints + [complaint_of(name, *pair, before.kinds) for name, pair in others.items()])
    write_all(files)
    return 0


def row_line(name, one, other, key, folder_map, kinds):
    row = one or other
    number = f" ({told(key, [row[it] for it in key])})" if key else ""
    if other is None:
        return f"{name}{number}: goes"
    if one is None:
        return f"{name}{number}: comes back"
    parts = [
        f"{it} {folder_map.shown(it, one, kinds)} -> {folder_map.shown(it, other, kinds)}"
        for it in folder_map.columns(kinds)
        if folder_map.shown(it, one, kinds) != folder_map.shown(it, other, kinds)
    ]
    return f"{name}{number}: " + "; ".join(parts)


def complaint_of(name, one, other, kinds):
    if other is None:
        return {"row": name, "state": "absent"}
    return {"row": name, "set": {it: cell if kinds[it] == "text" else int(cell) for it, cell in other.items() if one is None or one[it] != cell}}

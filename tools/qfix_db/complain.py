"""qfix-db complain: complaints by keys, or by a whole wanted table."""
import json

from .faults import Fault, write_all
from .folder import Folder, key_of
from .program import Program
from .tables import read_table

HELP = "complaints by keys: what a row should be, that it should be gone, or a whole wanted table"
ABOUT = """Adds complaints to complaints.json, and says what each row is now:

    qfix-db complain DIR emp_no=1028 salary=61732       the row with emp_no 1028 should end with this salary
    qfix-db complain DIR emp_no=1028 absent             it should be gone
    qfix-db complain DIR emp_no=1028 present            it should be there
    qfix-db complain DIR --wanted WANTED.csv            a complaint for each row of WANTED.csv that is otherwise

A row that was deleted is found by its key before the log. In WANTED.csv a column `state` may say `absent`; rows that it has not are left
alone, or with --whole should be gone. An earlier complaint about the same row is replaced. Complaints must be complete: a row without one
must end as it did (`qfix-db widen` is the way where they can't be). Nothing is written where one of them can't be taken."""


def arguments(words):
    words.add_argument("folder", metavar="DIR")
    words.add_argument("words", nargs="*", metavar="COLUMN=VALUE", help="the key, then the wanted cells, or `absent` or `present`")
    words.add_argument("--wanted", metavar="CSV", help="a table of wanted rows")
    words.add_argument("--whole", action="store_true", help="with --wanted: rows that it has not should be gone")
    words.add_argument("--key", help="the key's columns, as `id` or `shop,sku`")


def pairs(words):
    for word in words:
        if "=" not in word:
            raise Fault(f"{word!r} is not COLUMN=VALUE, `absent` or `present`")
    return [(word.split("=", 1)[0].strip().lower(), word.split("=", 1)[1]) for word in words]


class Desk:
    """The folder's rows, found by keys."""

    def __init__(self, folder, program):
        self.folder, self.map = folder, folder.map()
        self.final = program.replay(folder.path)
        _, self.first = folder.initial()
        self.gone = {name: row for name, row in self.first.items() if name not in self.final.rows}
        self.found = {}

    def cells(self, column, text):
        return self.map.cells(column, text, self.final.kinds)

    def cells_of(self, wanted):
        made = {}
        for column, text in wanted:
            made.update(self.cells(self.map.safe(column), text))
        return made

    def find(self, key):
        """The one row with these cells: of the final table, or else of the rows that were deleted."""
        asked = {column: str(value) for column, value in self.cells_of(key).items()}
        told = ", ".join(f"{column} = {text}" for column, text in key)
        for rows in (self.final.rows, self.gone):
            found = self.by_cells(rows, tuple(asked)).get(tuple(asked.values()), [])
            if len(found) > 1:
                raise Fault(f"{len(found)} rows have {told}: {', '.join(found[:5])}{' ..' if len(found) > 5 else ''}")
            if found:
                return found[0]
        raise Fault(f"no row has {told}")

    def by_cells(self, rows, columns):
        """The names of rows by their cells of some columns."""
        place = id(rows), columns
        if place not in self.found:
            self.found[place] = made = {}
            for name, row in rows.items():
                made.setdefault(tuple(row[it] for it in columns), []).append(name)
        return self.found[place]

    def shown(self, name, columns):
        columns = [self.map.safe(it) for it in columns]
        if name not in self.final.rows:
            return "gone"
        row = self.final.rows[name]
        return ", ".join(f"{it}={self.map.shown(it, row, self.final.kinds)}" for it in columns)


def one(desk, words, key):
    """The complaint of one command line."""
    state = words[-1] if words[-1] in ("absent", "present") else None
    given = [(desk.map.safe(column), text) for column, text in pairs(words[:-1] if state else words)]
    count = len(key) if key else 1
    if len(given) < count or not state and len(given) == count:
        raise Fault("wanted: the key, then COLUMN=VALUE for each cell that should be otherwise, or `absent`")
    asked, wanted = given[:count], given[count:]
    if key and {it[0] for it in asked} != set(key):
        raise Fault(f"the first words are to name the key: {', '.join(key)}")
    name = desk.find(asked)
    cells = desk.cells_of(wanted)
    if state == "absent" and cells:
        raise Fault("a row that should be gone has no wanted cells")
    if name not in desk.final.rows and state != "absent":
        # (of a row that was gone, cells that are not stated may be anything)
        cells = {**desk.cells_of(asked), **cells}
    made = {"row": name}
    if state == "absent":
        made["state"] = "absent"
    if cells:
        made["set"] = cells
    print(f"{name} is now {desk.shown(name, [it[0] for it in wanted] or desk.map.columns(desk.final.kinds))}")
    return [made]


def from_table(desk, path, key, whole):
    """A complaint for each row of a wanted table that is otherwise."""
    made, seen = [], set()
    for place, record in read_table(path):
        record = desk.map.renamed(record)
        missing = [it for it in key if it not in record]
        if missing:
            raise Fault(f"{path}, {place}: the key {', '.join(missing)} is wanting")
        state = record.pop("state", "") if "state" not in desk.final.kinds else ""
        try:
            name = desk.find([(it, record[it]) for it in key])
            wanted = desk.cells_of([(it, text) for it, text in record.items() if it not in key])
        except Fault as fault:
            raise Fault(f"{path}, {place}: {fault}") from fault
        if name in seen:
            raise Fault(f"{path}, {place}: {name} has an earlier record")
        seen.add(name)
        row = desk.final.rows.get(name)
        if row is None:
            wanted = {**desk.cells_of([(it, record[it]) for it in key]), **wanted}
        if state == "absent":
            made += [{"row": name, "state": "absent"}] if row is not None else []
            continue
        cells = {it: value for it, value in wanted.items() if row is None or row[it] != str(value)}
        if cells or row is None:
            made.append({"row": name, **({"set": cells} if cells else {})})
    if whole:
        made += [{"row": name, "state": "absent"} for name in desk.final.rows if name not in seen]
    return made


def text_of(complaints):
    return "[" + ",".join("\n  " + json.dumps(it, ensure_ascii=False) for it in complaints) + ("\n]\n" if complaints else "]\n")


def run(given):
    folder = Folder(given.folder)
    if bool(given.words) == bool(given.wanted):
        raise Fault("wanted: either a key and cells, or --wanted CSV")
    desk = Desk(folder, Program(given.program))
    if given.wanted:
        made = from_table(desk, given.wanted, key_of(given.key, desk.map), given.whole)
    else:
        made = one(desk, given.words, key_of(given.key, desk.map) if given.key or desk.map.key else None)
    names = {it["row"] for it in made}
    kept = [it for it in folder.complaints() if it.get("row") not in names]
    if len(kept) + len(made) > 1000:
        raise Fault(f"{len(kept) + len(made)} complaints are more than the 1,000 that qfix takes")
    write_all({folder.path / "complaints.json": text_of(kept + made)})
    print(f"{len(made)} complaints written, {len(kept) + len(made)} in all")
    return 0

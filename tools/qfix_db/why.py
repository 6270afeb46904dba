"""qfix-db why: a refusal's line, with the place in the file and what can be done."""
import csv
import io
import re

from .faults import Fault
from .folder import Folder
from .language import RESERVED, TOKEN, line_of
from .program import Program

HELP = "a refusal of qfix: the line, column and text of its place, and what can be done"
ABOUT = """Says where a refusal is and what can be done:

    qfix-db why DIR refused: BadByte 17       about this line of qfix
    qfix-db why DIR                           runs qfix on the folder's files, and is about what it says

The second form runs `params`, or `diagnose` where the folder has complaints and domains (with what it prints thrown away)."""
LOG, INITIAL, COMPLAINTS, DOMAINS = "log.sql", "initial.csv", "complaints.json", "domains.csv"
FILES = {1: INITIAL, 2: LOG, 3: COMPLAINTS, 4: DOMAINS}
# kind: the file, what its first place is, and the hint
KINDS = {
    "TooLong": (
        None,
        "file",
        "the file has more bytes than qfix reads: 64 MiB for the table, 4 MiB for the others; leave out columns or statements that don't matter",
    ),
    "NoHeader": (INITIAL, None, "the table needs a header: the names of its columns"),
    "TooManyColumns": (INITIAL, None, "a table has at most 32 columns; leave out those that no statement names"),
    "BadName": (INITIAL, "field", "a column's name is 1 to 64 letters, digits and `_`, no digit first, with `:int` or `:text` behind it at most"),
    "RepeatedName": (INITIAL, "field", "two columns have one name, large and small letters being the same"),
    "TooManyRows": (INITIAL, None, "a table has at most 200,000 rows"),
    "Uneven": (
        INITIAL,
        "record",
        "the record has another number of cells than the header; perhaps a cell with a comma or a quote is not between double quotes",
    ),
    "BadNumber": (
        INITIAL,
        "record",
        "a cell of an int column is a whole number within 2^50; decimals, dates and NULL are for `qfix-db import`, or make the column `:text`",
    ),
    "BadText": (INITIAL, "record", "a cell of a text column is UTF-8"),
    "BadByte": (
        LOG,
        "offset",
        "nothing of the language begins here: quoted names, schemas, decimals, `$1`, `/* */` and `::` are for `qfix-db import`",
    ),
    "OpenString": (LOG, "offset", "a text that opens here never ends; a quote within a text is written twice"),
    "NumberTooBig": (LOG, "offset", "numbers are within 2^50 in size"),
    "BadSyntax": (
        LOG,
        "statement",
        "the statement has none of the forms that qfix reads: UPDATE t SET .. WHERE, DELETE FROM t WHERE, INSERT INTO t VALUES",
    ),
    "NotLinear": (LOG, "statement", "two columns or two numbers are multiplied; only a whole number times a column can be"),
    "BigCoefficient": (LOG, "statement", "a factor of a column is at most 1,000,000 in size"),
    "OtherTable": (LOG, "statement", "a log is about one table; leave out statements of others (`qfix-db import` does)"),
    "UnknownColumn": (LOG, "statement", "a name is no column of the table's header"),
    "WrongType": (
        LOG,
        "statement",
        "a text meets a number, or is compared by anything but =, <> and IN; say `:int` or `:text` in the header where the kind was guessed wrong",
    ),
    "RepeatedColumn": (LOG, "statement", "SET or the list of INSERT names a column twice"),
    "MissingColumn": (LOG, "statement", "an INSERT gives each column of the table a value; there are no defaults"),
    "TooMany": (
        LOG,
        "statement",
        "a log has at most 1,000 statements, 4,096 constants, 200,000 rows with the inserted ones, 64 terms in a sum and 64 comparisons in a condition",
    ),
    "UnevenDomain": (DOMAINS, "record", "a record has three fields: param,lo,hi"),
    "BadDomain": (DOMAINS, "record", "the header is param,lo,hi, and a record is as p2,80000,95000"),
    "UnknownParam": (DOMAINS, "record", "the log has no such constant: `qfix-db where` lists them"),
    "RepeatedParam": (DOMAINS, "record", "an earlier record has the same constant"),
    "Empty": (DOMAINS, "parameter", "the range's lowest value is above its greatest"),
    "TooLarge": (DOMAINS, "parameter", "a range is within 2^50"),
    "MissesOld": (DOMAINS, "parameter", "a range must have the constant's old value in it"),
    "Wide": (LOG, "statement", "for some constants of the ranges a number here may pass 2^50: make the ranges narrower, or leave out large columns"),
    "BadJson": (COMPLAINTS, None, "the complaints are no JSON array"),
    "BadComplaint": (COMPLAINTS, "element", 'a complaint is as {"row": "r3", "set": {"rate": 10}} or {"row": "r3", "state": "absent"}'),
    "TooManyComplaints": (
        COMPLAINTS,
        None,
        "at most 1,000 complaints are taken; some that say the same can be left out only where nothing else is asked of their rows",
    ),
    "UnknownRow": (
        COMPLAINTS,
        "element",
        "there is no such row: r1, r2, .. are the rows of the table, i1, i2, .. the inserted ones (`qfix-db complain` finds them by key)",
    ),
    "RepeatedRow": (COMPLAINTS, "element", "an earlier complaint is about the same row"),
    "ComplaintColumn": (COMPLAINTS, "element", "a stated column does not exist"),
    "ComplaintType": (COMPLAINTS, "element", "a stated value is a text at a column of numbers, or the other way round"),
    "TooManyFree": (DOMAINS, None, "more than 64 constants that can matter have a range: give fewer (`qfix-db domains --statement N`)"),
}


def arguments(words):
    words.add_argument("folder", metavar="DIR")
    words.add_argument("line", nargs="*", metavar="REFUSAL", help="the line that qfix said")


def record_lines(data):
    """The line at which each record of a CSV file begins; the first is the header's."""
    reader = csv.reader(io.StringIO(data.decode("utf-8", "replace"), newline=""))
    made, before = [], 0
    try:
        for record in reader:
            if record:
                made.append((before + 1, record))
            before = reader.line_num
    except csv.Error:
        pass
    return made


def statement_spans(data):
    """The bytes of each statement, as far as the log has tokens: cut at semicolons outside texts and comments."""
    made, start, end, at = [], None, None, 0
    while at < len(data):
        found = TOKEN.match(data, at)
        kind, stop = (found.lastgroup, found.end()) if found else ("other", at + 1)
        if found and found[0] == b";":
            if start is not None:
                made.append((start, end))
            start = None
        elif kind != "blank" and not (data[at : at + 3] in (b"\xef\xbb\xbf", b"\xbb\xbf", b"\xbf") and start is None):
            start = at if start is None else start
            end = stop
        at = stop
    return made + ([(start, end)] if start is not None else [])


def element_offsets(text):
    """The place of each element of a JSON array in its text."""
    made, depth, at, fresh = [], 0, 0, False
    for found in re.finditer(r'"(?:[^"\\]|\\.)*"|[\[\]{},]|[^\s\[\]{},"]+', text):
        word, at = found[0], found.start()
        if depth == 1 and fresh and word not in "],":
            made.append(at)
            fresh = False
        if word in ("[", "{"):
            depth += 1
            fresh = fresh or depth == 1
        elif word in ("]", "}"):
            depth -= 1
        elif word == "," and depth == 1:
            fresh = True
    return made


def shorten(text, most=160):
    text = " ".join(text.split())
    return text if len(text) <= most else text[:most].rstrip() + " .."


def place_lines(folder, name, what, places):
    """The place in the file, as lines."""
    if what is None or not places or not folder.has(name):
        return []
    data, number = folder.read(name), places[0]
    if what == "offset":
        line, column, text = line_of(data, number)
        lead = text[: column - 1][-60:]
        return [f"{name}, line {line}, column {column}:", f"    {lead}{text[column - 1 :][:60]}", "    " + re.sub(r"[^\t]", " ", lead) + "^"]
    if what == "statement":
        spans = statement_spans(data)
        if not 1 <= number <= len(spans):
            return []
        start, end = spans[number - 1]
        line, column, _ = line_of(data, start)
        return [
            f"{name}, line {line}, column {column} (statement {number}):",
            "    " + shorten(data[start:end].decode(errors="replace")),
            *hints_of(folder, data[start:end], line),
        ]
    if what == "parameter":
        wanted = [it for it, record in enumerate(record_lines(data)) if record[1][:1] == [f"p{number}"]]
        return place_lines(folder, name, "record", [wanted[0]]) if wanted else []
    if what in ("record", "field"):
        records = record_lines(data)
        index = 0 if what == "field" else number
        if index >= len(records):
            return []
        line, record = records[index]
        column = number if what == "field" else places[1] if len(places) > 1 else None
        header = records[0][1]
        told = (
            f", column {column} ({header[column - 1].split(':')[0]}): {record[column - 1]!r}"
            if column and column <= min(len(record), len(header))
            else ""
        )
        return [f"{name}, line {line}{f' (record {number})' if what == 'record' else ''}{told}", "    " + shorten(",".join(record))]
    text = data.decode("utf-8", "replace")
    starts = element_offsets(text)
    if not 1 <= number <= len(starts):
        return []
    end = starts[number] if number < len(starts) else len(text)
    line = text.count("\n", 0, starts[number - 1]) + 1
    return [f"{name}, line {line} (complaint {number}):", "    " + shorten(text[starts[number - 1] : end].rstrip().rstrip(",]").rstrip())]


def hints_of(folder, data, line):
    """What a person may see at once in a statement: its source, words that a table's column can't have, names that are no column."""
    lines = []
    try:
        names, _ = folder.initial()
    except Fault:
        names = []
    words = [it[0].decode().lower() for it in re.finditer(rb"[A-Za-z_][A-Za-z0-9_]*", re.sub(rb"'(?:[^']|'')*'|--[^\n]*", b" ", data))]
    table = {"update": 1, "delete": 2, "insert": 2}.get(words[0] if words else "", 0)
    strange = [it for place, it in enumerate(words) if place != table and it not in RESERVED and it not in names]
    if strange:
        lines.append("    words that are no column: " + ", ".join(dict.fromkeys(strange)))
    before = folder.read(LOG).splitlines()
    if line >= 2 and before[line - 2].startswith(b"-- "):
        lines.append("    it comes from " + before[line - 2][3:].decode(errors="replace"))
    return lines


def explain(folder, said):
    """The lines about a refusal."""
    found = re.fullmatch(r"(?:refused: *)?([A-Za-z]+)((?: +\d+)*)", said.strip())
    if not found or found[1] not in KINDS:
        raise Fault(f"{said!r} is no refusal that this tool knows; docs/REFUSALS.md has them all")
    name, what, hint = KINDS[found[1]]
    places = [int(it) for it in found[2].split()]
    if what == "file":
        name = FILES.get(places[0] if places else 0)
        return [f"{name}: {hint}" if name else hint]
    lines = place_lines(folder, name, what, places)
    if found[1] == "TooManyFree" and places:
        lines.append(f"{name}: {places[0]} constants")
    return [*(lines or [name]), hint]


def run(given):
    folder = Folder(given.folder)
    said = " ".join(given.line)
    if not said:
        program = Program(given.program)
        whole = folder.has(COMPLAINTS) and folder.has(DOMAINS)
        words = ["diagnose", INITIAL, LOG, COMPLAINTS, DOMAINS, 1, ".why.cert"] if whole else ["params", INITIAL, LOG]
        try:
            status, out, fault = program.run(folder.path, *words)
        finally:
            (folder.path / ".why.cert").unlink(missing_ok=True)
        if status in ((0, 1, 2) if whole else (0,)):
            print("qfix takes the files")
            return 0
        if status != 3:
            raise Fault(f"qfix ended with the status {status}: {fault or out.decode(errors='replace').strip()}")
        said = out.decode().strip()
        print(said)
    print("\n".join(explain(folder, said)))
    return 1

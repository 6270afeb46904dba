"""The columns of a real table: their types as the tools have them, their defaults, and how their texts are compared."""
import re
import unicodedata
from dataclasses import dataclass
from decimal import Decimal, InvalidOperation

from . import values
from .faults import Fault
from .parse import Parser, Strange
from .sqltokens import Refused, scan
from .tables import read_table

OPEN = "decimal"  # (a decimal whose places the values tell)
INTS = "int integer smallint bigint tinyint mediumint int2 int4 int8 serial bigserial year".split()
DECIMALS = "numeric decimal real float double".split() + ["double precision"]
TEXTS = "text varchar char character tinytext mediumtext longtext enum bpchar".split() + ["character varying"]


@dataclass
class Column:
    name: str
    kind: str  # a type of values.py, OPEN, or None
    why: str = ""  # why it has none
    default: object = None
    folded: bool = False  # texts that are not the same bytes may be equal
    counted: bool = False  # the database counts it up where an INSERT leaves it out


def default_of(text, dialect):
    """The value of a default's SQL; None is NULL."""
    if text is None or text.strip() in ("", "\\N"):
        return None
    try:
        parser = Parser(text, dialect)
        parser.names = set()
        made = parser.value(True)
        for term in made if isinstance(made, list) else []:
            # (it stands in no statement)
            term.constant.start = term.constant.end = None
        return made if parser.peek().kind == "end" else Strange(f"the default {text}")
    except Refused:
        return Strange(f"the default {text}")


def kind_of(name, places, dialect):
    """The type for a database's name of one, or None."""
    bare = re.sub(r"\(.*?\)| unsigned| zerofill", "", name.lower()).strip()
    if bare in INTS:
        return "int"
    if bare in DECIMALS:
        return f"decimal:{places}" if places and places.isdigit() and places != "0" else "int" if places == "0" else OPEN
    if bare in TEXTS:
        return "text"
    if bare in ("boolean", "bool"):
        return "bool" if dialect == "postgres" else "int"
    if bare == "date":
        return "date"
    if bare in ("timestamp", "timestamp without time zone", "datetime"):
        return "time"
    return "zoned" if bare in ("timestamptz", "timestamp with time zone") and dialect == "postgres" else None


def is_folded(name, collation, dialect):
    bare = name.lower().split("(")[0].strip()
    if dialect == "mysql":
        return not (collation.lower().endswith("_bin") or collation.lower() == "binary")
    return bare in ("character", "char", "bpchar")


def columns_of_file(path, dialect):
    """The columns of a file with the header column,type,places,default,collation,extra (those after `type` may be left out)."""
    made = []
    for place, record in read_table(path):
        if not record.get("column") or not record.get("type"):
            raise Fault(f"{path}, {place}: `column` and `type` are wanted")
        record = {name: "" if cell == "\\N" else cell for name, cell in record.items()}
        if record["type"].lower() in ("trigger", "rule"):
            raise Fault(f"{path}, {place}: the table has the {record['type'].lower()} {record['column']}, whose effects no log tells")
        kind = kind_of(record["type"], record.get("places", ""), dialect)
        text, extra = record.get("default", ""), record.get("extra", "").lower()
        if dialect == "mysql" and text and kind in ("text", "date", "time") and not re.match(r"'|.*\)$|current_timestamp|null$", text, re.I):
            text = "'" + text.replace("'", "''") + "'"
        counted = "auto_increment" in extra or "identity" in extra or text.lower().startswith("nextval(")
        default = (
            Strange(f"a number that the database counts up (--next {record['column'].lower()}=N says which comes next)")
            if counted
            else default_of(text, dialect)
        )
        why = f"type {record['type']}" if kind is None else ""
        if "generated" in extra and "default_generated" not in extra and not counted:
            kind, why = None, "a column that the database computes"
        made.append(
            Column(
                record["column"].lower(),
                kind,
                why,
                default,
                kind == "text" and is_folded(record["type"], record.get("collation", ""), dialect),
                counted,
            )
        )
    return made


# ---- SQLite


def columns_of_sqlite(base, table):
    """The columns of a table of an SQLite file, and refusals of what no log tells."""
    name = base.execute("SELECT name, sql FROM sqlite_master WHERE type = 'table' AND lower(name) = ?", [table.lower()]).fetchone()
    if not name:
        raise Fault(f"the database has no table {table}")
    triggers = [it[0] for it in base.execute("SELECT name FROM sqlite_master WHERE type = 'trigger' AND lower(tbl_name) = ?", [table.lower()])]
    if triggers:
        raise Fault(f"the table {table} has triggers ({', '.join(triggers)}), whose effects no log tells")
    rows = base.execute(f"PRAGMA table_xinfo({quoted(name[0])})").fetchall()
    folded = "collate" in [it.low for it in scan(name[1], "sqlite")]
    keys = [it for it in rows if it[5]]
    made = []
    for _, column, declared, _, default, key, hidden in rows:
        kind, why = sqlite_kind(base, name[0], column, declared)
        counted = bool(key) and len(keys) == 1 and declared.lower() == "integer" and "without" not in [it.low for it in scan(name[1], "sqlite")]
        if hidden in (2, 3):
            kind, why = None, "a column that the database computes"
        made.append(Column(column.lower(), kind, why, default_of(default, "sqlite"), folded and kind == "text", counted))
    return made


def quoted(name):
    return '"' + name.replace('"', '""') + '"'


def sqlite_kind(base, table, column, declared):
    """The type of a column by its affinity and by what its cells hold."""
    low = declared.lower()
    held = {it[0] for it in base.execute(f"SELECT DISTINCT typeof({quoted(column)}) FROM {quoted(table)}")} - {"null"}
    if "int" in low:
        return ("int", "") if held <= {"integer"} else (None, f"cells of {' and '.join(sorted(held))} in a column {declared}")
    if re.search("char|clob|text", low):
        return ("text", "") if held <= {"text"} else (None, f"cells of {' and '.join(sorted(held))} in a column {declared}")
    if "blob" in low or not low:
        return None, f"type {declared or 'none'}"
    if held and held <= {"text"}:
        return "text", ""
    if held - {"integer", "real"}:
        return None, f"cells of {' and '.join(sorted(held))} in a column {declared}"
    scale = re.search(r"\(\s*\d+\s*,\s*(\d+)\s*\)", declared)
    if scale and scale[1] != "0":
        return f"decimal:{scale[1]}", ""
    return ("int", "") if "bool" in low else (OPEN, "")


# ---- types that values tell


def places_in(text):
    try:
        number = Decimal(text)
    except InvalidOperation:
        return 0
    return max(0, -number.normalize().as_tuple().exponent) if number.is_finite() else 0


def with_places(columns, cells, statements, dialect):
    """Gives each decimal without places those of the values in its cells and in the statements, the same for all of them."""
    opened = [it for it in columns if it.kind == OPEN]
    if not opened:
        return
    places = max([places_in(cell) for column in opened for cell in cells(column.name) if cell != "\\N"], default=0)
    for sql in statements:
        places = max([places, *(places_in(it.text) for it in scan(sql, dialect) if it.kind == "number" and not it.text.lower().startswith("0x"))])
    if dialect == "sqlite":
        # (in SQLite a declared scale rounds nothing, so all decimals may have the same places)
        opened = [it for it in columns if it.kind == OPEN or it.kind and it.kind.startswith("decimal:")]
        places = max([places, *(values.places_of(it.kind) for it in opened if it.kind != OPEN)])
    for column in opened:
        column.kind = f"decimal:{places}" if 0 < places <= 9 else "int" if not places else None
        column.why = "" if column.kind else f"numbers with {places} places"


# ---- texts that are one text in the database and two here


def skeleton(text):
    """A text without what a comparison without case, accents or blanks at the end may leave out."""
    bare = "".join(it for it in unicodedata.normalize("NFKD", text) if not unicodedata.combining(it)).casefold()
    for one, other in (("ss", "s"), ("æ", "ae"), ("œ", "oe"), ("ø", "o"), ("đ", "d"), ("ð", "d"), ("ł", "l"), ("þ", "th"), ("ı", "i")):
        bare = bare.replace(one, other)
    return "".join(it for it in bare if it.isprintable()).rstrip()


def one_text(texts):
    """Two different texts that a comparison without case may hold for one, or None."""
    seen = {}
    for text in texts:
        other = seen.setdefault(skeleton(text), text)
        if other != text:
            return other, text
    return None

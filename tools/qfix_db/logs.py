"""Statements out of the logs that databases keep, each an Entry of transactions.py."""
import csv
import io
import re

from .faults import Fault
from .sqltokens import Refused, scan, statements
from .transactions import Entry, words_of


def lines_before(text):
    """A function from an offset to its line; the offsets must rise."""
    at, line = 0, 1

    def line_of(offset):
        nonlocal at, line
        line += text.count("\n", at, offset)
        at = offset
        return line

    return line_of


def cut(text, dialect, path):
    try:
        return statements(text, dialect)
    except Refused as fault:
        line = text.count("\n", 0, fault.place or 0) + 1
        raise Fault(f"{path}, line {line}: {fault.why}") from fault


def sqlite_trace(text, path, tell):
    """A trace of one connection, as `.trace FILE --expanded` of the program sqlite3 or an application writes it: a statement and a
    semicolon each. The statements of triggers come in it as comments."""
    if re.search(r"^\s*-- (?:TRIGGER )?[A-Z]", text, re.M) and re.search(r"^-- (UPDATE|INSERT|DELETE|TRIGGER)\b", text, re.M):
        tell(f"{path}: statements of a trigger stand in the trace as comments; their effects are not in the log")
    line_of = lines_before(text)
    return [Entry(sql, f"line {line_of(offset)}") for sql, offset in cut(text, "sqlite", path)]


# ---- PostgreSQL


def literal(text):
    """A value of DETAIL: a number without its quotes, for a number it is where a statement has it as $1."""
    return text[1:-1] if re.fullmatch(r"'-?\d+(\.\d+)?'", text) else text


def filled(sql, given):
    """The statement with its $1, $2, .. filled in; those without a value stay."""
    made, at = "", 0
    for token in scan(sql, "postgres"):
        if token.kind == "holder" and token.text[1:] in given:
            value = given[token.text[1:]]
            made += sql[at : token.start] + (f"({value})" if value.startswith("-") else value)
            at = token.end
    return made + sql[at:]


def detail_values(detail):
    """The values of `parameters: $1 = '5', $2 = NULL` (or `Parameters:`)."""
    found = re.match(r"(?i)parameters: (.*)", detail, re.S)
    if not found:
        return {}
    return {number: literal(value) for number, value in re.findall(r"\$(\d+) = ('(?:[^']|'')*'|NULL)", found[1])}


def prepared(sql, detail):
    """The text of an EXECUTE, by DETAIL's `prepare: PREPARE name (types) AS ..`; or None."""
    body = re.match(r"prepare: prepare\s+\S+\s*(?:\([^)]*\))?\s+as\s+(.*)", detail, re.S | re.I)
    if not body:
        return None
    inside = re.search(r"\((.*)\)\s*;?\s*$", sql, re.S)
    given, depth, piece = [], 0, ""
    for token in scan(inside[1], "postgres") if inside else []:
        depth += token.text == "(" and token.kind == "symbol"
        depth -= token.text == ")" and token.kind == "symbol"
        if token.text == "," and token.kind == "symbol" and not depth:
            given.append(piece)
            piece = ""
        else:
            piece += inside[1][token.start : token.end]
    given += [piece] if inside else []
    return filled(body[1], {str(number): value for number, value in enumerate(given, 1)})


def postgres_csvlog(text, path, tell, database=None):
    """A csvlog (fields of PostgreSQL 9.0 to 17): time, user, database, .., connection, line, .., severity, .., message, detail, .., query.

    A statement that failed is told by an ERROR record of the same connection with its query, right after it."""
    reader = csv.reader(io.StringIO(text, newline=""))
    try:
        records = [(reader.line_num, it) for it in reader if it]
    except csv.Error as error:
        raise Fault(f"{path}, line {reader.line_num}: {error}") from error
    if any(len(it) < 23 for _, it in records):
        number = next(number for number, it in records if len(it) < 23)
        raise Fault(f"{path}, line {number}: this is no record of a csvlog")
    if not database and len({it[2] for _, it in records if it[2]}) > 1:
        raise Fault(f"{path} has statements of several databases: name one with --database")
    made, last = [], {}
    for number, record in records:
        if database and record[2] != database:
            continue
        if record[11] == "ERROR" and record[19]:
            asked, entries = last.get(record[5], ("", []))
            for entry in entries if asked.strip() == record[19].strip() else []:
                entry.failed = True
        found = re.match(r"(?:duration: [\d.]+ ms  )?(?:statement|execute [^:]*): (.*)", record[13], re.S) if record[11] == "LOG" else None
        if not found:
            continue
        sql = found[1]
        try:
            sql = prepared(sql, record[14]) or filled(sql, detail_values(record[14]))
        except Refused:
            pass
        line = number - record[13].count("\n") - record[14].count("\n")
        entries = [Entry(piece, f"line {line}", record[5], record[0]) for piece, _ in cut(sql, "postgres", f"{path}, line {line}")]
        last[record[5]] = found[1], entries
        made += entries
    return made


# ---- MySQL, MariaDB


def mysql_binlog(text, path, tell, database=None):
    """`mysqlbinlog` over the statement format: what was committed, in the order of commit, with the values of its variables."""
    if re.search(r"^(###|#.*\b(Table_map|Write_rows|Update_rows|Delete_rows)\b)", text, re.M):
        raise Fault(f"{path} has rows and no statements: the binlog's format is ROW (binlog_format = STATEMENT keeps statements)")
    made, use, variables, time, counted = [], None, {}, "", None
    delimiter = "/*!*/;"
    line_of, at = lines_before(text), 0
    for piece in text.split(delimiter):
        start, at = at, at + len(piece) + len(delimiter)
        for stamp in re.findall(r"^#(\d{6}\s+[\d:]+) server id", piece, re.M):
            time = " ".join(stamp.split())
        bare = re.sub(r"^(#.*|DELIMITER.*)$", lambda it: " " * len(it[0]), piece, flags=re.M)
        lead = len(bare) - len(bare.lstrip())
        bare = bare.strip().rstrip(";")
        found = re.match(r"use `?(\w+)`?$", bare, re.I)
        if found:
            use = found[1]
            continue
        found = re.match(r"SET @`?(\w+)`?:=(.*)$", bare, re.S | re.I)
        if found:
            variables[found[1].lower()] = (
                re.sub(r"\s+COLLATE\s+\S+$", "", found[2].strip()).removeprefix("_utf8mb4 ").removeprefix("_utf8 ").removeprefix("_latin1 ")
            )
            continue
        found = re.match(r"SET INSERT_ID=(\d+)", bare)
        counted = int(found[1]) if found else counted
        if not bare or bare.startswith("/*!") or re.match(r"SET\b|ROLLBACK\b|BINLOG '", bare, re.I) or database and use != database:
            continue
        made.append(Entry(with_variables(bare, variables), f"line {line_of(start + lead)}", "", time, counted=counted))
        counted = None
        if words_of(bare, "mysql")[0] in ("commit", "rollback"):
            variables = {}
    return made


def with_variables(sql, variables):
    made, at = "", 0
    try:
        for token in scan(sql, "mysql"):
            name = token.text.strip("@`").lower()
            if token.kind == "holder" and token.text.startswith("@") and name in variables:
                made += sql[at : token.start] + variables[name]
                at = token.end
    except Refused:
        return sql
    return made + sql[at:]


def mysql_general(text, path, tell, database=None):
    """The general log: `time id Command<TAB>argument`, an argument going on over lines. It tells no statement that failed."""
    head = re.compile(
        r"^(?:(\d{6}\s+[\d:]+|\d{4}-\d\d-\d\dT[\d:.]+Z?)?[ \t]+)?\s*(\d+) (Connect|Query|Execute|Prepare|Close stmt|Reset stmt|Quit|Init DB|Field List|Statistics|Ping|Change user|Long Data|Fetch|Set option)(?:\t(.*))?$"
    )
    made, base, current, time = [], {}, None, ""
    for number, line in enumerate(text.split("\n"), 1):
        found = head.match(line)
        if not found:
            if current is not None:
                current[1].append(line)
            continue
        time = found[1] or time
        who, what, rest = found[2], found[3], found[4] or ""
        current = None
        if what == "Connect":
            on = re.search(r" on (\w*) using", rest) or re.search(r" on (\w+)$", rest)
            base[who] = on[1] if on else ""
        elif what == "Init DB":
            base[who] = rest
        elif what in ("Query", "Execute") and not re.match(r"(EXECUTE|PREPARE|DEALLOCATE)\b", rest, re.I):
            current = (Entry("", f"line {number}", who, time), [rest], base.get(who, ""))
            made.append(current)
    entries = []
    for entry, lines, of in made:
        sql = "\n".join(lines).strip()
        found = re.match(r"use `?(\w+)`?$", sql, re.I)
        if database and of and of != database or found:
            continue
        for piece, _ in cut(sql, "mysql", f"{path}, {entry.place}"):
            entries.append(Entry(piece, entry.place, entry.connection, entry.time))
    tell("a general log tells no statement that failed: they look as if they had been done")
    return entries

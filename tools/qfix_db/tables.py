"""Tables of a real database: CSV (NULL as \\N), the tab-separated rows of `mysql --batch`, or a table of an SQLite file."""
import csv
import io
from pathlib import Path

from .faults import Fault, read

ESCAPES = {"n": "\n", "t": "\t", "0": "\0", "\\": "\\"}


def read_table(path):
    """The records of a table's file: each its place in the file, and its cells by column's name."""
    header, records = records_of(path)
    for place, cells in records:
        if len(cells) != len(header):
            raise Fault(f"{path}, {place}: {len(cells)} cells, and the header has {len(header)}")
    return [(place, dict(zip(header, cells))) for place, cells in records]


def records_of(path):
    try:
        text = read(path).decode("utf-8-sig")
    except UnicodeDecodeError as error:
        raise Fault(f"{path} is no UTF-8 ({error})") from error
    if Path(path).suffix in (".tsv", ".tab"):
        if not text.strip():
            # (`mysql --batch` says nothing of a table without rows)
            return [], []
        records = [(f"line {number}", [untabbed(it) for it in line.split("\t")]) for number, line in enumerate(text.split("\n"), 1) if line]
    else:
        reader = csv.reader(io.StringIO(text, newline=""), strict=True)
        try:
            records = [(f"line {reader.line_num}", it) for it in reader if it]
        except csv.Error as error:
            raise Fault(f"{path}, line {reader.line_num}: {error}") from error
    if not records:
        raise Fault(f"{path} has no header")
    return [it.strip().lower() for it in records[0][1]], records[1:]


def untabbed(cell):
    """A cell of `mysql --batch`, which writes NULL as NULL and escapes tabs, line ends and backslashes."""
    if cell == "NULL":
        return "\\N"
    made, at = "", 0
    while at < len(cell):
        if cell[at] == "\\" and at + 1 < len(cell):
            made += ESCAPES.get(cell[at + 1], cell[at + 1])
            at += 1
        else:
            made += cell[at]
        at += 1
    return made

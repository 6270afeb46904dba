#!/usr/bin/env python3
"""Random small tables and logs of the language that qfix reads.

    python3 tools/random_logs.py SEED FOLDER    writes FOLDER/initial.csv and FOLDER/log.sql

The same seed gives the same files. A log has statements of every kind: UPDATE with and without WHERE, DELETE with and without WHERE,
INSERT with and without a list of columns, of one row and of several; sums with coefficients, signs and numbers; =, <>, !=, <, <=, >, >=,
BETWEEN, IN, NOT, AND, OR and parentheses; texts with quotes in them; comments, odd blanks, letters in either case, leading zeros, empty
statements. Names are none of sqlite's keywords, and coefficients are small, so that few logs are too wide.
"""
import random
import sys
from pathlib import Path

NAMES = ["a", "b", "rate", "income", "Total_2", "_x", "city", "K9", "owed", "pay", "note", "level"]
TEXTS = ["", "x", "y", "Oslo", "oslo", "it's", "a,b", "''", '"', "line\nfeed", " x", "x ", "10", "é", "-- no comment", "; UPDATE", "NULL"]
OPERATORS = ["=", "<>", "!=", "<", "<=", ">", ">="]


class Maker:
    """The makings of one table and its log."""

    def __init__(self, seed):
        self.random = random.Random(seed)
        count = self.random.randint(1, 6)
        names = self.random.sample(NAMES, count)
        self.columns = [(name, self.random.random() < 0.3) for name in names]
        self.table_name = self.random.choice(["t", "People", "tax_2024", "_log"])
        self.texts = self.random.sample(TEXTS, 6)

    def pick(self, *choices):
        return self.random.choice(choices)

    def chance(self, of_hundred):
        return self.random.random() * 100 < of_hundred

    def of_kind(self, is_text):
        return [name for name, kind in self.columns if kind == is_text]

    # ---- the table

    def whole(self):
        return self.random.choice([self.random.randint(-9, 9), self.random.randint(-1000, 1000), self.random.randint(-10**9, 10**9)])

    def cell(self, is_text):
        if is_text:
            return self.random.choice(self.texts)
        return str(self.random.randint(-20, 20) if self.chance(80) else self.whole())

    def table(self):
        rows = self.random.choice([0, 1, 2, 5, 12, 30])
        # Types are told where no cell tells them, and else sometimes.
        header = []
        for name, is_text in self.columns:
            told = rows == 0 or is_text or self.chance(20)
            header.append(name + ((":text" if is_text else ":int") if told else ""))
        records = [header] + [[self.cell(is_text) for _, is_text in self.columns] for _ in range(rows)]
        return "".join(",".join(self.field(cell, len(record)) for cell in record) + self.pick("\n", "\r\n") for record in records)

    def field(self, cell, of):
        # A record of one empty field is written in quotes, for an empty line is no record.
        if (cell == "" and of == 1) or any(c in cell for c in ',"\n\r'):
            return '"' + cell.replace('"', '""') + '"'
        return cell

    # ---- words of a log

    def case(self, word):
        return self.pick(word, word, word.lower(), word.capitalize())

    def name(self, name):
        return self.pick(name, name, name.lower(), name.upper())

    def blank(self):
        return self.random.choice([" "] * 12 + ["  ", "\n", "\t", "\r\n", " -- it's a comment; with 'quotes'\n", "\n--\n"])

    def number(self):
        value = self.whole() if self.chance(15) else self.random.randint(-20, 20)
        digits = ("0" * self.random.randint(1, 3) if self.chance(5) else "") + str(abs(value))
        return ("-" if value < 0 else "") + digits

    def text(self):
        return "'" + self.random.choice(self.texts).replace("'", "''") + "'"

    def item(self, is_text):
        return self.text() if is_text else self.number()

    def term(self):
        columns = self.of_kind(False)
        if columns and self.chance(60):
            column = self.name(self.random.choice(columns))
            if self.chance(65):
                return column
            factor = str(self.random.randint(-4, 4))
            star = self.pick("*", " * ", " *", "* ")
            return factor + star + column if self.chance(60) else column + star + factor
        return self.number()

    def sum(self, most=3):
        text = ("-" if self.chance(5) else "")
        first = self.term()
        # Two signs beside one another are a comment.
        text += (" " if text and first.startswith("-") else "") + first
        for _ in range(self.random.randint(0, most - 1) if self.chance(50) else 0):
            sign, term = self.pick("+", "-"), self.term()
            tight = self.chance(25) and not (sign == "-" and term.startswith("-"))
            text += sign + term if tight else f" {sign} {term}"
        return text

    def side(self, is_text):
        if not is_text:
            return self.sum()
        columns = self.of_kind(True)
        return self.name(self.random.choice(columns)) if columns and self.chance(50) else self.text()

    def comparison(self):
        is_text = bool(self.of_kind(True)) and self.chance(35)
        kind = self.random.randint(0, 9)
        no = self.blank() + self.case("NOT") if self.chance(30) else ""
        if kind < 2 and not is_text:
            return f"{self.sum(2)}{no} {self.case('BETWEEN')}{self.blank()}{self.sum(2)} {self.case('AND')} {self.sum(2)}"
        if kind < 5:
            items = ("," + self.pick("", " ")).join(self.item(is_text) for _ in range(self.random.randint(1, 4)))
            return f"{self.side(is_text)}{no} {self.case('IN')}{self.pick('', ' ')}({items})"
        operator = self.pick("=", "<>", "!=") if is_text else self.random.choice(OPERATORS)
        space = self.pick(" ", "")
        return f"{self.side(is_text)}{space}{operator} {self.side(is_text)}"

    def unit(self, depth):
        if depth > 0 and self.chance(25):
            return f"({self.condition(depth - 1)})"
        if depth > 0 and self.chance(15):
            return f"{self.case('NOT')}{self.blank()}{self.unit(depth - 1)}"
        return self.comparison()

    def condition(self, depth):
        parts = [self.unit(depth)]
        while self.chance(35) and len(parts) < 4:
            parts.append(self.blank() + self.case(self.pick("AND", "OR")) + " " + self.unit(depth))
        return "".join(parts)

    # ---- statements

    def where(self, of_hundred):
        return f"{self.blank()}{self.case('WHERE')} {self.condition(3)}" if self.chance(of_hundred) else ""

    def update(self):
        some = self.random.sample(self.columns, self.random.randint(1, min(3, len(self.columns))))
        sets = ", ".join(f"{self.name(name)} = {self.side(is_text)}" for name, is_text in some)
        return f"{self.case('UPDATE')}{self.blank()}{self.name(self.table_name)} {self.case('SET')} {sets}{self.where(80)}"

    def delete(self):
        # Few delete all, else most tables end empty.
        return f"{self.case('DELETE')}{self.blank()}{self.case('FROM')} {self.name(self.table_name)}{self.where(93)}"

    def insert(self):
        columns = list(self.columns)
        listed = ""
        if self.chance(50):
            self.random.shuffle(columns)
            listed = " (" + ", ".join(self.name(name) for name, _ in columns) + ")"
        tuples = ["(" + ", ".join(self.item(is_text) for _, is_text in columns) + ")" for _ in range(self.random.choice([1, 1, 2, 4]))]
        return f"{self.case('INSERT')} {self.case('INTO')}{self.blank()}{self.name(self.table_name)}{listed} {self.case('VALUES')}{self.blank()}{', '.join(tuples)}"

    def log(self):
        count = self.random.choice([0, 1, 2, 4, 8, 16])
        kinds = [self.update, self.update, self.update, self.insert, self.delete]
        statements = [self.random.choice(kinds)() for _ in range(count)]
        text = ""
        for place, statement in enumerate(statements):
            text += statement + (";" if place + 1 < count or self.chance(80) else "")
            text += self.pick("\n", "\n", " ", "\r\n", ";\n" if text.endswith(";") else "\n", "\n-- next\n")
        return text


def make(seed):
    """Returns the table and the log of a seed, as texts."""
    maker = Maker(seed)
    return maker.table(), maker.log()


if __name__ == "__main__":
    if len(sys.argv) != 3:
        sys.exit(__doc__.strip())
    table, log = make(int(sys.argv[1]))
    folder = Path(sys.argv[2])
    folder.mkdir(parents=True, exist_ok=True)
    (folder / "initial.csv").write_bytes(table.encode())
    (folder / "log.sql").write_bytes(log.encode())

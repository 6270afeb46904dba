"""The log language of qfix: its tokens and statements, with the place of each constant.

Offsets are bytes of the log from 0. Parameters, statements and lines count from 1. A log that qfix refuses is a Fault here.
"""
import re
from dataclasses import dataclass, field

from .faults import Fault

RESERVED = set("update set where delete from insert into values and or not between in null select begin commit rollback".split())
TOKEN = re.compile(
    rb"""(?P<blank>[ \t\r\n]+|--[^\n]*)|(?P<word>[A-Za-z_][A-Za-z0-9_]*)|(?P<number>[0-9]+)|(?P<text>'(?:[^']|'')*')"""
    rb"""|(?P<symbol><>|!=|<=|>=|[(),;=<>+*-])"""
)


@dataclass
class Token:
    kind: str
    text: str
    start: int
    end: int


@dataclass
class Param:
    """A constant that may change; `start` to `end` are its bytes."""

    number: int
    value: int
    statement: int
    start: int
    end: int

    @property
    def name(self):
        return f"p{self.number}"


@dataclass
class Factor:
    """A factor of a column, which is no parameter."""

    value: int
    column: str
    statement: int
    start: int
    end: int


@dataclass
class Term:
    factor: int
    column: str = None
    param: int = None


@dataclass
class Statement:
    number: int
    kind: str
    table: str
    start: int
    end: int
    sets: list = field(default_factory=list)
    where: tuple = None
    columns: list = None
    tuples: list = field(default_factory=list)
    spans: list = field(default_factory=list)


def tokens(data):
    """The tokens of a log's bytes, blanks and comments left out; a minus belongs to a number by qfix's rule."""
    made, at = [], 0
    while data.startswith(b"\xef\xbb\xbf", at):
        at += 3
    while at < len(data):
        found = TOKEN.match(data, at)
        if not found:
            raise Fault(f"byte {at} of the log begins no token")
        kind, end = found.lastgroup, found.end()
        if kind == "symbol" and found[0] == b"-" and data[end : end + 1].isdigit():
            before = made[-1] if made else None
            joined = not before or not (
                before.kind == "number" or before.text == ")" or before.kind == "word" and before.text.lower() not in RESERVED
            )
            if joined:
                kind, end = "number", TOKEN.match(data, end).end()
        if kind != "blank":
            made.append(Token(kind, data[at:end].decode("utf-8", "replace"), at, end))
        at = end
    return made


class Log:
    """A log that was read: `statements`, `params`, `factors`, and its bytes."""

    def __init__(self, data):
        self.data, self.statements, self.params, self.factors = data, [], [], []
        self.tokens, self.at = tokens(data), 0
        while self.at < len(self.tokens):
            if self.symbol(";"):
                continue
            self.statements.append(self.statement())
            if self.at < len(self.tokens):
                self.want(";")

    # ---- tokens

    def peek(self, ahead=0):
        place = self.at + ahead
        return self.tokens[place] if place < len(self.tokens) else Token("end", "", len(self.data), len(self.data))

    def fail(self):
        raise Fault(f"statement {len(self.statements) + 1} of the log has no form that qfix reads, at byte {self.peek().start}")

    def symbol(self, *texts):
        if self.peek().kind == "symbol" and self.peek().text in texts:
            self.at += 1
            return self.tokens[self.at - 1].text
        return None

    def want(self, *texts):
        return self.symbol(*texts) or self.fail()

    def is_word(self, word):
        return self.peek().kind == "word" and self.peek().text.lower() == word

    def word(self, word):
        if self.is_word(word):
            self.at += 1
            return True
        return False

    def want_word(self, word):
        return self.word(word) or self.fail()

    def name(self):
        token = self.peek()
        if token.kind != "word" or token.text.lower() in RESERVED:
            self.fail()
        self.at += 1
        return token.text.lower()

    # ---- statements

    def statement(self):
        made = Statement(len(self.statements) + 1, self.peek().text.lower(), "", self.peek().start, 0)
        self.number = made.number
        if self.word("update"):
            made.table = self.name()
            self.want_word("set")
            while True:
                column = self.name()
                self.want("=")
                made.sets.append((column, self.side()))
                if not self.symbol(","):
                    break
        elif self.word("delete"):
            self.want_word("from")
            made.table = self.name()
        elif self.word("insert"):
            self.insert(made)
        else:
            self.fail()
        if made.kind != "insert" and self.word("where"):
            made.where = self.condition()
        made.end = self.tokens[self.at - 1].end
        return made

    def insert(self, made):
        self.want_word("into")
        made.table = self.name()
        if self.symbol("("):
            made.columns = [self.name()]
            while self.symbol(","):
                made.columns.append(self.name())
            self.want(")")
        self.want_word("values")
        while True:
            start = self.peek().start
            self.want("(")
            items = [self.item()]
            while self.symbol(","):
                items.append(self.item())
            self.want(")")
            made.tuples.append(items)
            made.spans.append((start, self.tokens[self.at - 1].end))
            if not self.symbol(","):
                return

    def param(self, token):
        self.params.append(Param(len(self.params) + 1, int(token.text), self.number, token.start, token.end))
        return len(self.params)

    def item(self):
        token = self.peek()
        self.at += 1
        if token.kind == "number":
            return [Term(1, None, self.param(token))]
        if token.kind == "text":
            return text_of(token)
        self.at -= 1
        self.fail()

    # ---- conditions and sums: ("and", parts), ("or", parts), ("not", part), ("compare", operator, side, side),
    #      ("between", sum, low, high), ("in", side, items)

    def condition(self):
        parts = [self.conjunction()]
        while self.word("or"):
            parts.append(self.conjunction())
        return parts[0] if len(parts) == 1 else ("or", parts)

    def conjunction(self):
        parts = [self.unit()]
        while self.word("and"):
            parts.append(self.unit())
        return parts[0] if len(parts) == 1 else ("and", parts)

    def unit(self):
        if self.word("not"):
            return ("not", self.unit())
        if self.symbol("("):
            made = self.condition()
            self.want(")")
            return made
        left = self.side()
        negated = self.word("not")
        if self.word("between"):
            low = self.side()
            self.want_word("and")
            made = ("between", left, low, self.side())
        elif self.word("in"):
            self.want("(")
            items = [self.item()]
            while self.symbol(","):
                items.append(self.item())
            self.want(")")
            made = ("in", left, items)
        else:
            return ("compare", self.want("=", "<>", "!=", "<", "<=", ">", ">="), left, self.side())
        return ("not", made) if negated else made

    def side(self):
        if self.peek().kind == "text":
            self.at += 1
            return text_of(self.tokens[self.at - 1])
        sign, terms = -1 if self.symbol("-") else 1, []
        while True:
            terms.append(self.term(sign))
            found = self.symbol("+", "-")
            if not found:
                return terms
            sign = -1 if found == "-" else 1

    def term(self, sign):
        first = self.factor()
        if not self.symbol("*"):
            return Term(sign, first.text.lower()) if first.kind == "word" else Term(sign, None, self.param(first))
        second = self.factor()
        if first.kind == second.kind:
            self.fail()
        number, column = (first, second) if first.kind == "number" else (second, first)
        self.factors.append(Factor(int(number.text), column.text.lower(), self.number, number.start, number.end))
        return Term(sign * int(number.text), column.text.lower())

    def factor(self):
        token = self.peek()
        if token.kind == "number":
            self.at += 1
            return token
        self.name()
        return token

    # ---- places and texts

    def line_of(self, offset):
        """The line's number, the column within it (both from 1), and the line."""
        return line_of(self.data, offset)

    def with_constants(self, values):
        """The log's bytes with the constants of `values` (parameter's number to value), as qfix prints a repaired log."""
        made, at = b"", 0
        for param in self.params:
            made += self.data[at : param.start]
            at = param.end
            value = values.get(param.number, param.value)
            if value == param.value:
                made += self.data[param.start : param.end]
                continue
            new = str(value).encode()
            if made and (new[:1] == b"-" == made[-1:] or new[:1].isdigit() and re.match(rb"[A-Za-z0-9_]", made[-1:])):
                made += b" "
            made += new
        return made + self.data[at:]


def text_of(token):
    return token.text[1:-1].replace("''", "'")


def line_of(data, offset):
    start = data.rfind(b"\n", 0, offset) + 1
    end = data.find(b"\n", offset)
    text = data[start : len(data) if end < 0 else end].decode("utf-8", "replace").rstrip("\r")
    return data.count(b"\n", 0, offset) + 1, len(data[start:offset].decode("utf-8", "replace")) + 1, text

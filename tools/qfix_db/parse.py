"""Statements of a real database about one table: what qfix's language has of them, and a refusal with its reason for all else.

A value is a list of terms (a sum), or Strange with the reason why it is none. A condition is as in language.py, with ("null", column,
negated) beside; a constant is a Constant with its place in the statement."""
from dataclasses import dataclass, field
from decimal import Decimal

from .sqltokens import Refused, Token, scan

WORDS = set(
    "update set where delete from insert into values and or not between in null select returning order limit using default on is like".split()
)
AFTER_TABLE = set("set where values default returning using select order limit from on inner join left cross natural as".split())
CASTS = set("int int2 int4 int8 integer bigint smallint numeric decimal text bool boolean date timestamp timestamptz".split())
COMPARED = {"=": "=", "==": "=", "<>": "<>", "!=": "<>", "<": "<", "<=": "<=", ">": ">", ">=": ">="}


@dataclass
class Constant:
    kind: str  # number, text, bool, null, default
    text: str
    start: int = None
    end: int = None


@dataclass
class Term:
    sign: int
    factor: int = None
    column: str = None
    constant: Constant = None


@dataclass
class Strange:
    """A value that qfix's language does not have."""

    why: str


@dataclass
class Statement:
    kind: str
    table: str
    schema: str = None
    sets: list = field(default_factory=list)
    where: tuple = None
    columns: list = None
    tuples: list = field(default_factory=list)
    dropped: list = field(default_factory=list)


class Parser:
    def __init__(self, sql, dialect):
        self.sql, self.dialect, self.at, self.dropped = sql, dialect, 0, []
        self.tokens = [it for it in scan(sql, dialect)]
        while self.tokens and self.tokens[-1].kind == "symbol" and self.tokens[-1].text == ";":
            self.tokens.pop()

    # ---- tokens

    def peek(self, ahead=0):
        place = self.at + ahead
        return self.tokens[place] if place < len(self.tokens) else Token("end", "", len(self.sql), len(self.sql))

    def is_word(self, *words, ahead=0):
        return self.peek(ahead).low in words

    def is_symbol(self, *texts, ahead=0):
        return self.peek(ahead).kind == "symbol" and self.peek(ahead).text in texts

    def fail(self, why):
        raise Refused(why, self.peek().start)

    def word(self, *words):
        if self.is_word(*words):
            self.at += 1
            return self.tokens[self.at - 1].low
        return None

    def symbol(self, *texts):
        if self.is_symbol(*texts):
            self.at += 1
            return self.tokens[self.at - 1].text
        return None

    def want_word(self, *words):
        return self.word(*words) or self.fail(f"{' or '.join(words).upper()} is wanted, and not {self.shown()}")

    def want(self, *texts):
        return self.symbol(*texts) or self.fail(f"{' or '.join(texts)} is wanted, and not {self.shown()}")

    def shown(self):
        return self.sql[self.peek().start : self.peek().end] or "the end"

    def name(self):
        token = self.peek()
        if token.kind != "name" and (token.kind != "word" or token.low in WORDS):
            self.fail(f"a name is wanted, and not {self.shown()}")
        self.at += 1
        return token.text.lower()

    # ---- statements

    def table(self, made):
        names = [self.name()]
        while self.symbol("."):
            names.append(self.name())
        made.table, made.schema = names[-1], names[-2] if len(names) > 1 else None
        alias = None
        if self.word("as") or self.peek().kind in ("word", "name") and self.peek().low not in AFTER_TABLE:
            alias = self.name()
        self.names = {alias or made.table, made.table}

    def column(self):
        names = [self.name()]
        while self.symbol("."):
            names.append(self.name())
        if len(names) > 1 and names[-2] not in self.names:
            self.fail(f"a column of another table ({names[-2]})")
        return names[-1]

    def statement(self):
        first = self.peek()
        made = Statement(first.low or "", "")
        if self.word("update"):
            if self.is_word("or", "ignore", "low_priority"):
                self.fail(f"UPDATE {self.shown().upper()}")
            self.word("only")
            self.table(made)
            if not self.is_word("set"):
                self.fail(f"{self.shown()} before SET")
            self.at += 1
            self.assignments(made)
            made.where = self.where()
        elif self.word("delete"):
            self.want_word("from")
            self.word("only")
            self.table(made)
            made.where = self.where()
        elif self.word("truncate"):
            self.word("table")
            self.word("only")
            made.kind = "delete"
            self.table(made)
        elif self.word("insert"):
            self.insert(made)
        else:
            self.fail(f"{self.shown().upper()} is no UPDATE, DELETE or INSERT")
        if self.is_word("returning"):
            self.dropped.append("RETURNING")
            self.at = len(self.tokens)
        if self.peek().kind != "end":
            self.fail(f"{self.shown().upper()} after the statement")
        made.dropped = self.dropped
        return made

    def assignments(self, made):
        while True:
            if self.symbol("("):
                names = [self.column()]
                while self.symbol(","):
                    names.append(self.column())
                self.want(")"), self.want("="), self.want("(")
                for place, name in enumerate(names):
                    made.sets.append((name, self.value()))
                    self.want("," if place + 1 < len(names) else ")")
            else:
                name = self.column()
                self.want("=")
                made.sets.append((name, self.value()))
            if not self.symbol(","):
                return

    def insert(self, made):
        if not self.is_word("into"):
            self.fail(f"INSERT {self.shown().upper()}")
        self.at += 1
        self.table(made)
        if self.symbol("("):
            made.columns = [self.column()]
            while self.symbol(","):
                made.columns.append(self.column())
            self.want(")")
        if self.is_word("select", "default", "set", "with", "overriding"):
            self.fail(f"INSERT with {self.shown().upper()}")
        self.want_word("values", "value")
        while True:
            self.want("(")
            items = [self.value(True)]
            while self.symbol(","):
                items.append(self.value(True))
            self.want(")")
            made.tuples.append(items)
            if not self.symbol(","):
                return

    def value(self, is_item=False):
        """A value; where qfix has none such, Strange, up to the next comma, bracket or word that ends it."""
        start = self.at
        try:
            if is_item and self.is_word("default"):
                self.at += 1
                return [Term(1, constant=Constant("default", "DEFAULT"))]
            made = self.sum()
            if is_item and (len(made) != 1 or made[0].constant is None or made[0].sign < 0):
                raise Refused("an item that is no constant", self.tokens[start].start)
            if self.peek().kind == "end" or self.is_symbol(",", ")") or self.is_word("where", "returning"):
                return made
            raise Refused(f"the operator {self.shown()}", self.peek().start)
        except Refused as fault:
            self.at, depth = start, 0
            while self.peek().kind != "end" and (
                depth or not (self.is_symbol(",", ")") or self.is_word("where", "returning", "order", "limit", "from"))
            ):
                depth += self.is_symbol("(") - self.is_symbol(")")
                self.at += 1
            if self.at == start:
                raise
            return Strange(fault.why)

    # ---- conditions

    def where(self):
        return self.condition() if self.word("where") else None

    def condition(self):
        parts = [self.conjunction()]
        while self.word("or"):
            parts.append(self.conjunction())
        return parts[0] if len(parts) == 1 else ("or", parts)

    def conjunction(self):
        parts = [self.unit()]
        while self.word("and") or self.dialect == "mysql" and self.symbol("&&"):
            parts.append(self.unit())
        return parts[0] if len(parts) == 1 else ("and", parts)

    def unit(self):
        if self.word("not"):
            return ("not", self.unit())
        if self.is_symbol("("):
            start = self.at
            try:
                self.at += 1
                made = self.condition()
                self.want(")")
                if not self.is_symbol(*COMPARED, "+", "-", "*", "/", "%", "<=>") and not self.is_word("between", "in", "is", "not"):
                    return made
            except Refused:
                pass
            self.at = start
        return self.comparison()

    def comparison(self):
        left = self.sum()
        negated = bool(self.word("not"))
        if self.word("between"):
            if self.is_word("symmetric"):
                self.fail("BETWEEN SYMMETRIC")
            low = self.sum()
            self.want_word("and")
            made = ("between", left, low, self.sum())
            return ("not", made) if negated else made
        if self.word("in"):
            self.want("(")
            items = [self.item()]
            while self.symbol(","):
                items.append(self.item())
            self.want(")")
            made = ("in", left, items)
            return ("not", made) if negated else made
        if negated:
            self.fail(f"NOT {self.shown().upper()}")
        if self.word("is"):
            return self.after_is(left)
        if self.is_symbol(*COMPARED):
            return ("compare", COMPARED[self.want(*COMPARED)], left, self.sum())
        if self.peek().kind == "end" or self.is_symbol(")") or self.is_word("and", "or", "returning"):
            if len(left) == 1 and left[0].column and left[0].factor is None and left[0].sign > 0:
                return ("alone", left[0].column)
        self.fail(f"{self.shown().upper()} in a condition")

    def after_is(self, left):
        negated = bool(self.word("not"))
        if self.word("null"):
            if len(left) != 1 or not left[0].column or left[0].factor is not None or left[0].sign < 0:
                self.fail("IS NULL of a sum")
            return ("null", left[0].column, negated)
        if not negated and self.is_word("true", "false"):
            token = self.peek()
            self.at += 1
            return ("compare", "=", left, [Term(1, constant=Constant("bool", token.low, token.start, token.end))])
        self.fail(f"IS {'NOT ' if negated else ''}{self.shown().upper()}")

    def item(self):
        made = self.sum()
        if len(made) != 1 or made[0].constant is None or made[0].sign < 0:
            self.fail("a list of IN with an item that is no constant")
        return made

    # ---- sums

    def sum(self, outer=1):
        """Terms, each with its sign; brackets are written out, and `outer` is the sign before them."""
        terms, sign = [], outer
        while True:
            while self.is_symbol("-", "+") and self.peek(1).kind != "number":
                sign = -sign if self.want("-", "+") == "-" else sign
            if self.is_symbol("(") and not self.is_word("select", ahead=1):
                self.at += 1
                terms += self.sum(sign)
                self.want(")")
                if self.is_symbol("*"):
                    self.fail("brackets before *")
            else:
                terms.append(self.term(sign))
            if self.is_symbol("/", "%", "||", "&", "|", "^", "~", "->", "->>", "<=>", "::"):
                self.fail(f"the operator {self.shown()}")
            if not self.is_symbol("+", "-"):
                return terms
            sign = -outer if self.want("+", "-") == "-" else outer

    def term(self, sign):
        first = self.factor()
        if not self.symbol("*"):
            return Term(sign, column=first) if isinstance(first, str) else Term(sign, constant=first)
        if self.is_symbol("("):
            self.fail("brackets after *")
        second = self.factor()
        if isinstance(first, str) == isinstance(second, str):
            self.fail("a product of two columns" if isinstance(first, str) else "a product of two numbers")
        number, column = (second, first) if isinstance(first, str) else (first, second)
        if self.is_symbol("*"):
            self.fail("a product of three")
        if number.kind != "number" or Decimal(number.text) != int(Decimal(number.text)):
            self.fail(f"the factor {number.text}, which is no whole number")
        return Term(sign, factor=int(Decimal(number.text)), column=column)

    def factor(self):
        token = self.peek()
        if token.kind == "symbol" and token.text in "+-":
            self.at += 1
            if self.peek().kind == "number":
                made = self.factor()
                return Constant("number", ("-" if token.text == "-" else "") + made.text, token.start, made.end)
            self.fail(f"a sign before {self.shown()} within a product")
        if token.kind == "number":
            self.at += 1
            text = str(int(token.text, 16)) if token.text[:2].lower() == "0x" else token.text
            return self.cast(Constant("number", text, token.start, token.end))
        if token.kind == "text":
            self.at += 1
            return self.cast(Constant("text", token.text, token.start, token.end))
        if self.is_word("true", "false"):
            self.at += 1
            return Constant("bool", token.low, token.start, token.end)
        if self.is_word("null"):
            self.at += 1
            return self.cast(Constant("null", "", token.start, token.end))
        if self.is_word("date", "timestamp", "timestamptz") and self.peek(1).kind == "text":
            self.at += 2
            text = self.tokens[self.at - 1]
            return self.checked(Constant("text", text.text, token.start, text.end), token.low)
        if token.kind == "holder":
            self.fail(f"the placeholder {token.text}, whose value the log does not have")
        if token.kind in ("word", "name"):
            if self.is_symbol("(", ahead=1):
                self.fail(f"the function {token.text}")
            if self.is_word(
                "case",
                "array",
                "row",
                "interval",
                "cast",
                "exists",
                "select",
                "current_timestamp",
                "current_date",
                "current_time",
                "localtimestamp",
                "default",
            ):
                self.fail(token.text.upper())
            if self.peek(1).kind == "text":
                self.fail(f"{token.text} before a text")
            return self.column()
        if self.is_symbol("(") and self.is_word("select", ahead=1):
            self.fail("a SELECT within a statement")
        self.fail(f"{self.shown()} where a value is wanted")

    def cast(self, made):
        while self.symbol("::"):
            kind = self.word(*CASTS)
            if not kind or self.is_symbol("(", "["):
                self.fail(f"the cast to {self.shown()}")
            made = self.checked(Constant(made.kind, made.text, made.start, self.tokens[self.at - 1].end), kind)
        return made

    def checked(self, made, kind):
        """A constant with its type's name, where that changes nothing."""
        if kind == "date" and made.kind == "text" and len(made.text.strip()) != 10:
            self.fail(f"DATE of {made.text!r}, which drops its time")
        if kind in ("int", "int2", "int4", "int8", "integer", "bigint", "smallint") and made.kind == "number" and "." in made.text:
            self.fail(f"a cast that rounds {made.text}")
        return made

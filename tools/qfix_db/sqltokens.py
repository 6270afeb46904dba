"""Tokens of a database's own SQL, by dialect (sqlite, postgres, mysql), and the cut of a text into statements.

Offsets are characters of the text. A text's token holds its value, a name's token the name without its quotes."""
import re
from dataclasses import dataclass

ESCAPES = {"n": "\n", "t": "\t", "0": "\0", "r": "\r", "b": "\b", "Z": "\x1a"}


class Refused(Exception):
    """What the language of qfix's logs cannot say, with the place in the statement where it is known."""

    def __init__(self, why, place=None):
        super().__init__(why)
        self.why, self.place = why, place


@dataclass
class Token:
    kind: str  # word, name, number, text, holder, symbol, end
    text: str
    start: int
    end: int

    @property
    def low(self):
        return self.text.lower() if self.kind == "word" else None


NUMBER = r"(?P<number>0[xX][0-9a-fA-F]+|\d+(?:\.\d*)?(?:[eE][+-]?\d+)?|\.\d+(?:[eE][+-]?\d+)?)"
WORD = r"(?P<word>[^\W\d]\w*)"
SYMBOL = r"(?P<symbol><=>|::|<>|!=|<=|>=|==|&&|\|\||->>?|[-+*/(),;.=<>%~^&|!:{}\[\]])"
FORMS = {
    "sqlite": [
        r"(?P<blank>\s+|--[^\n]*|/\*.*?(?:\*/|\Z))",
        r"(?P<text>'(?:[^']|'')*')",
        r'(?P<name>"(?:[^"]|"")*"|`(?:[^`]|``)*`|\[[^\]]*\])',
        r"(?P<holder>\?\d*|[:@$]\w+)",
    ],
    "postgres": [
        r"(?P<blank>\s+|--[^\n]*)",
        r"(?P<text>[eE]'(?:[^'\\]|''|\\.)*'|'(?:[^']|'')*'|\$(?P<tag>(?:[^\W\d]\w*)?)\$.*?\$(?P=tag)\$)",
        r'(?P<name>"(?:[^"]|"")*")',
        r"(?P<holder>\$\d+)",
    ],
    "mysql": [
        r"(?P<blank>\s+|--(?=\s|\Z)[^\n]*|\#[^\n]*|/\*(?!!).*?(?:\*/|\Z))",
        r"""(?P<text>'(?:[^'\\]|''|\\.)*'|"(?:[^"\\]|""|\\.)*")""",
        r"(?P<name>`(?:[^`]|``)*`)",
        r"(?P<holder>\?|@@?`?\w+`?)",
    ],
}
PATTERNS = {dialect: re.compile("|".join([*forms, NUMBER, WORD, SYMBOL]), re.S) for dialect, forms in FORMS.items()}


def comment_end(text, at):
    """The end of a PostgreSQL comment, which may hold others."""
    depth = 0
    for found in re.compile(r"/\*|\*/").finditer(text, at):
        depth += 1 if found[0] == "/*" else -1
        if not depth:
            return found.end()
    return len(text)


def value_of(text, dialect):
    """The value of a text's token."""
    if text.startswith("$"):
        return text[text.index("$", 1) + 1 : text.rindex("$", 0, len(text) - 1)]
    escaped = dialect == "mysql" or text[0] in "eE"
    if text[0] in "eE":
        text = text[1:]
    quote, inner = text[0], text[1:-1]
    if not escaped:
        return inner.replace(quote * 2, quote)
    return re.sub(re.escape(quote * 2) + r"|\\(.)", lambda it: quote if it[1] is None else ESCAPES.get(it[1], it[1]), inner, flags=re.S)


def scan(text, dialect):
    """The tokens of a text, blanks and comments left out."""
    at, pattern = 0, PATTERNS[dialect]
    while at < len(text):
        if dialect == "postgres" and text.startswith("/*", at):
            at = comment_end(text, at)
            continue
        found = pattern.match(text, at)
        if not found:
            begins = text[at : at + 1]
            raise Refused(
                "a text that never ends"
                if begins in "'\"`"
                else "a comment that is run (/*!)"
                if text.startswith("/*!", at)
                else f"no token begins with {begins!r}",
                at,
            )
        kind, end = found.lastgroup if found.lastgroup != "tag" else "text", found.end()
        if kind == "text":
            yield Token("text", value_of(found[0], dialect), at, end)
        elif kind == "name":
            quote = "]" if found[0][0] == "[" else found[0][0]
            yield Token("name", found[0][1:-1].replace(quote * 2, quote), at, end)
        elif kind != "blank":
            yield Token(kind, found[0], at, end)
        at = end


def statements(text, dialect):
    """Cuts a text at its semicolons; each piece with its offset, trimmed. A CREATE TRIGGER goes to its END."""
    start, words, made = None, [], []
    for token in scan(text, dialect):
        if start is None:
            if token.text == ";" and token.kind == "symbol":
                continue
            start = token.start
            words = []
        words.append(token.low)
        is_trigger = words[0] == "create" and "trigger" in words[:4]
        if token.kind == "symbol" and token.text == ";" and (not is_trigger or words[-2] == "end"):
            made.append((text[start : token.start], start))
            start = None
        last = token.end
    if start is not None:
        made.append((text[start:last], start))
    return made

"""What the statements of a log do to columns: which they read, write, compare, set to NULL or to values that qfix does not have."""
from .parse import Statement, Strange


def sides_of(condition):
    """The sums of a condition's comparisons, grouped by comparison; a column alone or IS NULL is a group with no sum."""
    if condition is None:
        return
    kind = condition[0]
    if kind in ("and", "or"):
        for part in condition[1]:
            yield from sides_of(part)
    elif kind == "not":
        yield from sides_of(condition[1])
    elif kind == "compare":
        yield list(condition[2:])
    elif kind == "between":
        yield list(condition[1:])
    elif kind == "in":
        yield [condition[1], *condition[2]]


def alone_of(condition):
    """The columns that stand alone in a condition, or under IS NULL."""
    if condition is None:
        return set()
    if condition[0] in ("and", "or"):
        return set().union(*map(alone_of, condition[1]))
    if condition[0] == "not":
        return alone_of(condition[1])
    return {condition[1]} if condition[0] in ("alone", "null") else set()


def columns_in(side):
    return set() if isinstance(side, Strange) else {it.column for it in side if it.column}


def lone(side, *kinds):
    """The constant of one of these kinds that a value is, if it is one."""
    if isinstance(side, Strange) or len(side) != 1 or side[0].constant is None:
        return None
    return side[0].constant if side[0].constant.kind in kinds else None


class Use:
    """The columns that all statements together read, write and compare."""

    def __init__(self, statements: list, order, defaults):
        self.read, self.compared, self.written, self.given, self.strange = set(), set(), set(), set(), {}
        self.null, self.copies = set(), []
        for number, statement in enumerate(statements):
            self.of_statement(number, statement, order, defaults)

    def of_statement(self, number, statement: Statement, order, defaults):
        for group in sides_of(statement.where):
            for side in group:
                self.compared |= columns_in(side)
        self.compared |= alone_of(statement.where)
        for name, side in statement.sets:
            self.written.add(name)
            if isinstance(side, Strange):
                self.strange.setdefault(name, []).append((number, side.why))
            elif lone(side, "null"):
                self.null.add(name)
            else:
                self.copies += [(name, it) for it in columns_in(side)]
        for items in statement.tuples:
            given = dict(zip(statement.columns or order, items))
            for name in order:
                side = given.get(name)
                if name in given and not lone(side, "default"):
                    self.given.add(name)
                else:
                    side = defaults.get(name)
                if isinstance(side, Strange):
                    self.strange.setdefault(name, []).append((number, side.why))
                elif side is None or lone(side, "null"):
                    self.null.add(name)

    def needed(self, key):
        """The columns that cannot be left out: those of conditions and of the key, and those from which they are computed."""
        made = set(key) | self.compared
        while True:
            more = {source for name, source in self.copies if name in made} | made
            if more == made:
                return made
            made = more

    def spread(self, bad):
        """Adds to the columns that can't be kept those that are computed from them."""
        made, before = dict(bad), None
        while before != len(made):
            before = len(made)
            for name, source in self.copies:
                if source in made:
                    made.setdefault(name, f"it is computed from {source}")
        return made

    def named(self, needed, bad):
        """The columns that statements name, as far as what they set is kept: those from which a kept one is computed too."""
        made = needed | self.written | self.given
        while True:
            more = {source for name, source in self.copies if name in made and (name in needed or name not in bad)} | made
            if more == made:
                return made
            made = more

    def may_be_null(self, null_cells):
        made = set(null_cells) | self.null
        while True:
            more = {name for name, source in self.copies if source in made} | made
            if more == made:
                return made
            made = more

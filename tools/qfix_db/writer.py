"""Writes a real database's statements in the language of qfix's logs, and notes each constant's place in the real statement.

A column that may be NULL has a twin of 0 and 1 that is 1 where it is NULL, and then the column itself is 0 or the empty text. NOT is taken
down to the comparisons, and each comparison of such columns asks that none of them is NULL: so a condition that SQL finds unknown does
not hold, as there."""
from . import values
from .analyse import lone
from .parse import Strange, Term
from .sqltokens import Refused

OPPOSITE = {"=": "<>", "<>": "=", "<": ">=", ">=": "<", ">": "<=", "<=": ">"}


class Writer:
    """`columns` are the kept ones, in order: a name to its type; `safe` their names in qfix's files; `twins` the names of the twins."""

    def __init__(self, dialect, columns, safe, twins, defaults, order, table):
        self.dialect, self.columns, self.safe, self.twins = dialect, columns, safe, twins
        self.defaults, self.order, self.table = defaults, order, table
        self.next = {}

    def statement(self, made):
        """The statement's text, its constants, and the cells of the rows that an INSERT makes; None where nothing is left of it."""
        self.text, self.params, self.rows = "", [], []
        if made.kind == "update":
            sets = [it for it in made.sets if it[0] in self.columns]
            self.ordered(made.sets)
            if not sets:
                return None
            self.update(sets, made.where)
        elif made.kind == "delete":
            self.put(f"DELETE FROM {self.table}")
            self.where(made.where)
        else:
            self.insert(made)
        return self.text, self.params, self.rows

    def put(self, text):
        self.text += text

    def number(self, value, kind, constant=None):
        place = (constant.start, constant.end) if constant is not None and constant.start is not None else (None, None)
        self.params.append({"type": kind, "old": value, "from": place[0], "to": place[1]})
        self.put(str(value))

    # ---- values

    def encoded(self, constant, kind):
        """The whole number or text of a constant at a type."""
        if constant.kind == "null":
            raise Refused("NULL where a value is wanted", constant.start)
        if constant.kind == "bool":
            if kind == "bool" or self.dialect != "postgres" and kind == "int":
                return int(constant.text == "true")
            raise Refused(f"{constant.text.upper()} at a column of type {kind}", constant.start)
        if kind == "text" and constant.kind == "number" or kind in ("date", "time", "zoned") and constant.kind == "number":
            raise Refused(f"the number {constant.text} at a column of type {kind}", constant.start)
        if kind == "bool" and constant.kind == "number" and self.dialect == "postgres":
            raise Refused(f"the number {constant.text} at a column of type bool", constant.start)
        if kind == "text" and "\0" in constant.text:
            raise Refused("a text with a zero byte", constant.start)
        try:
            made = values.encode(constant.text, kind)
            if self.dialect == "sqlite" and kind in ("time", "zoned") and values.decode(made, kind) != constant.text:
                raise Refused(
                    f"{constant.text!r}, which SQLite compares as a text with others that are written {values.decode(made, kind)!r}", constant.start
                )
            return made
        except values.BadValue as fault:
            raise Refused(str(fault), constant.start) from fault

    def kind_of(self, sides):
        """The one type of the columns in sums that meet."""
        columns = [it.column for side in sides for it in side if it.column]
        strange = [it for it in columns if it not in self.columns]
        if strange:
            raise Refused(f"the column {strange[0]}, which the table does not have or which was left out")
        kinds = {self.columns[it] for it in columns}
        if len(kinds) > 1:
            raise Refused(f"columns of different types that meet: {', '.join(sorted(kinds))}")
        return kinds.pop() if kinds else None

    def sum(self, side, kind):
        """Writes a sum; a column comes first where the first constant has a minus before brackets."""
        has_columns = any(it.column for it in side)
        if len(side) > 1 and (kind == "text" or kind in ("time", "zoned", "bool") or kind == "date" and self.dialect != "postgres"):
            raise Refused(f"a sum of type {kind}")
        if any(it.factor is not None or it.sign < 0 and it.column for it in side) and kind in ("text", "date", "time", "zoned", "bool"):
            raise Refused(f"a factor or a minus at a column of type {kind}")
        if side[0].constant is not None and side[0].sign < 0:
            columns = [it for it in side if it.column]
            if not columns:
                raise Refused("a minus before brackets round constants alone", side[0].constant.start)
            side = [columns[0]] + [it for it in side if it is not columns[0]]
        for place, term in enumerate(side):
            if term.column:
                self.column_term(term, place)
            else:
                self.constant_term(term, place, "int" if kind == "date" and has_columns else kind)

    def column_term(self, term, place):
        factor = term.sign * (1 if term.factor is None else term.factor)
        if term.factor is None:
            lead = (" - " if factor < 0 else " + ") if place else ("-" if factor < 0 else "")
            self.put(lead + self.safe[term.column])
        else:
            self.put(((" - " if factor < 0 else " + ") + str(abs(factor)) if place else str(factor)) + f" * {self.safe[term.column]}")

    def constant_term(self, term, place, kind):
        constant = term.constant
        value = self.encoded(constant, kind or ("text" if constant.kind == "text" else "int"))
        if isinstance(value, str):
            self.put("'" + value.replace("'", "''") + "'")
            return
        if place:
            self.put(" - " if term.sign < 0 else " + ")
        self.number(value, kind or "int", constant)

    # ---- conditions

    def nulls(self, sides):
        """The twins of the columns in sums."""
        columns = [it.column for side in sides for it in side if it.column]
        return [self.twins[it] for it in dict.fromkeys(columns) if it in self.twins]

    def guarded(self, twins, inside, write):
        """Writes a comparison that asks first that no column is NULL."""
        if twins and inside:
            self.put("(")
        for twin in twins:
            self.put(f"{twin} = ")
            self.number(0, "null")
            self.put(" AND ")
        write()
        if twins and inside:
            self.put(")")

    def condition(self, made, negated=False, inside=False):
        kind = made[0]
        if kind == "not":
            self.condition(made[1], not negated, inside)
        elif kind in ("and", "or"):
            word = kind if not negated else {"and": "or", "or": "and"}[kind]
            self.put("(" if inside else "")
            for place, part in enumerate(made[1]):
                self.put(f" {word.upper()} " if place else "")
                self.condition(part, negated, True)
            self.put(")" if inside else "")
        elif kind == "null":
            self.is_null(made[1], made[2] != negated)
        elif kind == "alone":
            self.alone(made[1], negated, inside)
        else:
            self.compare(made, negated, inside)

    def is_null(self, column, negated):
        self.kind_of([[Term(1, column=column)]])
        if column in self.twins:
            self.put(f"{self.twins[column]} = ")
            self.number(int(not negated), "null")
        else:
            self.put(f"{self.safe[column]} {'=' if negated else '<>'} {self.safe[column]}")

    def alone(self, column, negated, inside):
        side = [Term(1, column=column)]
        kind = self.kind_of([side])
        if kind != "bool" and (self.dialect == "postgres" or kind != "int"):
            raise Refused(f"the column {column} of type {kind} as a condition")

        def write():
            self.put(f"{self.safe[column]} {'=' if negated or kind == 'bool' else '<>'} ")
            self.number(int(kind == "bool" and not negated), "made")

        self.guarded(self.nulls([side]), inside, write)

    def compare(self, made, negated, inside):
        sides = list(made[2:]) if made[0] == "compare" else list(made[1:]) if made[0] == "between" else [made[1], *made[2]]
        if any(lone(it, "null") for it in sides):
            raise Refused("a comparison with NULL, which never holds")
        if made[0] == "between" and negated and self.nulls(sides[1:]):
            raise Refused("NOT BETWEEN with a bound that may be NULL")
        kind = self.kind_of(sides)
        operator = made[1] if made[0] == "compare" else None
        if kind == "text" or kind is None and any(lone(it, "text") for it in sides):
            if made[0] == "between" or operator in ("<", "<=", ">", ">="):
                raise Refused(f"texts compared by {operator or 'BETWEEN'}")

        if self.dialect == "sqlite" and kind not in ("text", None):
            self.texts_meet_columns(sides)
        if kind == "date" and sum(len(it) for it in sides) > len(sides) and sum(len({t.column for t in it if t.column}) for it in sides) > 1:
            raise Refused("a difference of two days that is compared")

        def write():
            self.sum(sides[0], kind)
            if made[0] == "compare":
                self.put(f" {OPPOSITE[operator] if negated else operator} ")
                self.sum(sides[1], kind)
            elif made[0] == "between":
                self.put(" NOT BETWEEN " if negated else " BETWEEN ")
                self.sum(sides[1], kind)
                self.put(" AND ")
                self.sum(sides[2], kind)
            else:
                self.put(" NOT IN (" if negated else " IN (")
                for place, side in enumerate(sides[1:]):
                    self.put(", " if place else "")
                    self.sum(side, kind)
                self.put(")")

        self.guarded(self.nulls(sides), inside, write)

    def texts_meet_columns(self, sides):
        """In SQLite a text is a number only where it meets a column itself: with a sum it is greater than any number."""
        for place, side in enumerate(sides):
            if lone(side, "text"):
                for other in sides[1:] if place == 0 else sides[:1]:
                    if not (len(other) == 1 and other[0].column and other[0].factor is None and other[0].sign > 0):
                        raise Refused(
                            f"the text {side[0].constant.text!r} compared with a sum, which in SQLite is no comparison of numbers",
                            side[0].constant.start,
                        )

    def where(self, condition, twins=()):
        if condition is None and not twins:
            return
        self.put(" WHERE ")
        for place, twin in enumerate(twins):
            self.put((" AND " if place else "") + f"{twin} = ")
            self.number(0, "null")
        if condition is not None:
            self.put(" AND " if twins else "")
            self.condition(condition, False, bool(twins))

    # ---- statements

    def ordered(self, sets):
        """MySQL computes SET from left to right, and qfix from the row before: refuses where that differs."""
        if len({name for name, _ in sets}) < len(sets):
            raise Refused("SET names a column twice")
        done = set()
        for name, side in sets:
            read = set() if isinstance(side, Strange) else {it.column for it in side if it.column}
            if self.dialect == "mysql" and read & done:
                raise Refused(f"SET {name} reads {sorted(read & done)[0]}, which MySQL has set before it (from left to right)")
            done.add(name)

    def update(self, sets, where):
        self.put(f"UPDATE {self.table} SET ")
        twins = []
        for place, (name, side) in enumerate(sets):
            self.put(", " if place else "")
            kind, safe = self.columns[name], self.safe[name]
            if isinstance(side, Strange):
                raise Refused(f"SET {name}: {side.why}")
            if lone(side, "null"):
                self.put(f"{safe} = ")
                self.put("''") if kind == "text" else self.number(0, "null")
                self.put(f", {self.twins[name]} = ")
                self.number(1, "null")
                continue
            found = self.kind_of([side])
            if found is not None and found != kind:
                raise Refused(f"SET {name} of type {kind} from a column of type {found}")
            self.put(f"{safe} = ")
            self.sum(side, kind)
            read = self.nulls([side])
            if not read and name in self.twins:
                self.put(f", {self.twins[name]} = ")
                self.number(0, "null")
            elif read and len(side) == 1 and side[0].factor is None and side[0].sign > 0:
                self.put(f", {self.twins[name]} = {read[0]}")
            elif read:
                if len(sets) > 1 or read != [self.twins[name]]:
                    raise Refused(f"SET {name} reads a column that may be NULL, and more is set")
                twins = read
        self.where(where, twins)

    def insert(self, made):
        names = made.columns or self.order
        full = [it for name in self.columns for it in ([self.safe[name], self.twins[name]] if name in self.twins else [self.safe[name]])]
        self.put(f"INSERT INTO {self.table} ({', '.join(full)}) VALUES ")
        for row, items in enumerate(made.tuples):
            if len(items) != len(names):
                raise Refused("a tuple of another length than its list of columns")
            self.put(", (" if row else "(")
            self.rows.append(self.tuple(dict(zip(names, items))))
            self.put(")")

    def tuple(self, given):
        cells = {}
        for place, (name, kind) in enumerate(self.columns.items()):
            self.put(", " if place else "")
            side = given.get(name)
            if side is None or lone(side, "default"):
                side = self.left_out(name)
            if isinstance(side, Strange):
                raise Refused(f"{name}: {side.why}")
            constant = side[0].constant
            null = constant.kind == "null"
            value = ("" if kind == "text" else 0) if null else self.encoded(constant, kind)
            if null and name not in self.twins:
                raise Refused(f"NULL at {name}", constant.start)
            if kind == "text":
                self.put("'" + value.replace("'", "''") + "'")
            else:
                self.number(value, "null" if null else kind, None if null else constant)
            if name in self.next and not null:
                self.next[name] = max(self.next[name], value + 1)
            if name in self.twins:
                self.put(", ")
                self.number(int(null), "null")
            cells[name] = value
        return cells

    def left_out(self, name):
        """What the database gives a column that an INSERT leaves out."""
        from .parse import Constant

        if name in self.next:
            return [Term(1, constant=Constant("number", str(self.next[name])))]
        return self.defaults.get(name) or [Term(1, constant=Constant("null", ""))]

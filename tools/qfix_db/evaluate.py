"""The final table as a function of one constant: its value where all other constants stay, and how far it stays the same.

Each cell is a pair (a, b) that stands for a + b * x, x being the constant. While a row's history is computed at one x, each comparison
says between which values of x it comes out the same way. So one computation answers a whole interval of x.
"""
LEAST, GREATEST = -(2**50), 2**50


class Piece:
    """An interval of x that is narrowed by comparisons."""

    def __init__(self, x):
        self.x, self.low, self.high = x, LEAST, GREATEST

    def at_least_zero(self, a, b):
        """Whether a + b x >= 0, narrowed to where this stays so."""
        holds = a + b * self.x >= 0
        if b:
            # (b x >= -a holds, or b x <= -a - 1)
            bound = -a if holds else -a - 1
            if holds == (b > 0):
                self.low = max(self.low, -((-bound) // b))
            else:
                self.high = min(self.high, bound // b)
        return holds


def pair(side, cells, values, number):
    """A sum's pair; a text is itself."""
    if isinstance(side, str):
        return side
    if len(side) == 1 and side[0].column and isinstance(cells[side[0].column], str):
        return cells[side[0].column]
    a = b = 0
    for term in side:
        if term.column:
            more = cells[term.column]
            a, b = a + term.factor * more[0], b + term.factor * more[1]
        elif term.param == number:
            b += term.factor
        else:
            a += term.factor * values[term.param]
    return a, b


def compared(operator, left, right, piece):
    if isinstance(left, str):
        return (left == right) == (operator == "=")
    a, b = left[0] - right[0], left[1] - right[1]
    if operator == ">=":
        return piece.at_least_zero(a, b)
    if operator == "<":
        return not piece.at_least_zero(a, b)
    if operator == ">":
        return piece.at_least_zero(a - 1, b)
    if operator == "<=":
        return not piece.at_least_zero(a - 1, b)
    equal = piece.at_least_zero(a, b) and not piece.at_least_zero(a - 1, b)
    return equal == (operator == "=")


def holds(condition, cells, values, number, piece):
    kind = condition[0]
    if kind in ("and", "or"):
        for part in condition[1]:
            if holds(part, cells, values, number, piece) != (kind == "and"):
                return kind == "or"
        return kind == "and"
    if kind == "not":
        return not holds(condition[1], cells, values, number, piece)
    sides = [
        pair(it, cells, values, number)
        for it in ([condition[1], *condition[2]] if kind == "in" else condition[1:] if kind == "between" else condition[2:])
    ]
    if kind == "compare":
        return compared(condition[1], *sides, piece)
    if kind == "between":
        return compared(">=", sides[0], sides[1], piece) and compared("<=", sides[0], sides[2], piece)
    return any(compared("=", sides[0], it, piece) for it in sides[1:])


def run_row(cells, statements, values, number, piece):
    """A row's final cells, or None where it is deleted."""
    for statement in statements:
        if statement.kind == "insert" or statement.where is not None and not holds(statement.where, cells, values, number, piece):
            continue
        if statement.kind == "delete":
            return None
        made = {name: pair(side, cells, values, number) for name, side in statement.sets}
        cells = {**cells, **made}
    return cells


class Evaluator:
    """A table and a log. `kinds` says which columns are texts."""

    def __init__(self, log, rows, kinds):
        self.log, self.kinds = log, kinds
        self.starts = []
        for name, row in rows.items():
            self.starts.append((name, 0, {it: row[it] if kinds[it] == "text" else (int(row[it]), 0) for it in kinds}))
        count = 0
        for place, statement in enumerate(log.statements):
            for items in statement.tuples:
                count += 1
                self.starts.append((f"i{count}", place + 1, dict(zip(statement.columns or kinds, items))))

    def at(self, values, number, x):
        """The final rows at x, each a dict of pairs and texts, or None; and the piece round x."""
        piece, made = Piece(x), {}
        for name, place, cells in self.starts:
            cells = {it: pair(cell, {}, values, number) if isinstance(cell, list) else cell for it, cell in cells.items()}
            made[name] = run_row(cells, self.log.statements[place:], values, number, piece)
        return made, piece

    def table(self, values):
        """The final rows with these constants, as texts, as qfix prints them."""
        made, _ = self.at(values, None, 0)
        return {
            name: {it: cell if isinstance(cell, str) else str(cell[0]) for it, cell in row.items()} for name, row in made.items() if row is not None
        }

    def same_round(self, values, number, most=2000):
        """The greatest interval of one constant round its value in which the final table stays as it is; and whether its ends were found
        (else they are where the search ended)."""
        x = values[number]
        start, piece = self.at(values, number, x)
        wanted = {name: row and fixed(row, x) for name, row in start.items()}
        if changes(start):
            return x, x, True
        low, high, found = piece.low, piece.high, True
        for step in (-1, 1):
            for _ in range(most):
                at = low - 1 if step < 0 else high + 1
                if not LEAST <= at <= GREATEST:
                    break
                rows, piece = self.at(values, number, at)
                if {name: row and fixed(row, at) for name, row in rows.items()} != wanted:
                    break
                if changes(rows):
                    piece.low = piece.high = at
                low, high = (piece.low, high) if step < 0 else (low, piece.high)
            else:
                found = False
        return low, high, found


def fixed(row, x):
    return {it: cell if isinstance(cell, str) else cell[0] + cell[1] * x for it, cell in row.items()}


def changes(rows):
    return any(not isinstance(cell, str) and cell[1] for row in rows.values() if row for cell in row.values())

"""Random small problems, each with its least repair as found by trying every point: a plain program that shares nothing with qfix.

A problem has a table of one to four rows and one to three columns of numbers, a log of one to four statements, one to three constants with
ranges of at most 3,000 points in all, and complaints: mostly what other constants of the ranges would have made of the rows, sometimes
with a cell that nothing makes, or with one of the wrong rows left out. The same seed gives the same problem.
"""
import itertools
import json
import random

COLUMNS = ["a", "b", "c"]
MOST_POINTS = 3000
# The widest range of a constant, by how many have one.
WIDEST = {1: 60, 2: 40, 3: 12}
COMPARISONS = {
    ">=": lambda x, y: x >= y,
    "<=": lambda x, y: x <= y,
    "<": lambda x, y: x < y,
    ">": lambda x, y: x > y,
    "=": lambda x, y: x == y,
    "<>": lambda x, y: x != y,
}


class Log:
    """A log whose constants are places in a list, in the order of the text."""

    def __init__(self, chance):
        self.chance = chance
        self.columns = COLUMNS[: chance.randint(1, 3)]
        self.olds = []
        self.statements = [self.statement() for _ in range(chance.randint(1, 4))]

    def constant(self, value=None):
        self.olds.append(self.chance.randint(0, 12) if value is None else value)
        return len(self.olds) - 1

    def statement(self):
        kind = self.chance.random()
        if kind < 0.72:
            changed = self.chance.sample(self.columns, self.chance.randint(1, min(2, len(self.columns))))
            return ("UPDATE", [(column, self.sum()) for column in changed], self.condition() if self.chance.random() < 0.75 else None)
        if kind < 0.87:
            return ("DELETE", self.condition())
        return ("INSERT", [self.constant() for _ in self.columns])

    def sum(self):
        """A factor and a column, or none; a sign; and a constant."""
        kind, column = self.chance.random(), self.chance.choice(self.columns)
        if kind < 0.4:
            return (1, column, 1, self.constant())
        if kind < 0.6:
            return (0, column, 1, self.constant())
        if kind < 0.8:
            return (self.chance.choice([2, 3]), column, self.chance.choice([1, -1]), self.constant())
        return (1, column, -1, self.constant())

    def condition(self, is_part=False):
        kind = self.chance.random()
        if kind < 0.12 and not is_part:
            return (self.chance.choice(["AND", "OR"]), self.condition(True), self.condition(True))
        column = self.chance.choice(self.columns)
        if kind < 0.35:
            low = self.chance.randint(0, 12)
            return ("BETWEEN", column, self.constant(low), self.constant(low + self.chance.randint(0, 8)))
        return (self.chance.choice(list(COMPARISONS)), column, self.constant())

    # ---- as text

    def text(self, values):
        return " ".join(self.statement_text(it, values) for it in self.statements)

    def statement_text(self, statement, values):
        if statement[0] == "INSERT":
            return f"INSERT INTO t ({', '.join(self.columns)}) VALUES ({', '.join(str(values[it]) for it in statement[1])});"
        if statement[0] == "DELETE":
            return f"DELETE FROM t WHERE {self.condition_text(statement[1], values)};"
        changes = ", ".join(f"{column} = {self.sum_text(it, values)}" for column, it in statement[1])
        where = "" if statement[2] is None else f" WHERE {self.condition_text(statement[2], values)}"
        return f"UPDATE t SET {changes}{where};"

    def sum_text(self, it, values):
        factor, column, sign, constant = it
        if factor == 0:
            return str(values[constant])
        product = column if factor == 1 else f"{factor} * {column}"
        return f"{product} {'+' if sign > 0 else '-'} {values[constant]}"

    def condition_text(self, it, values):
        if it[0] in ("AND", "OR"):
            return f"({self.condition_text(it[1], values)}) {it[0]} ({self.condition_text(it[2], values)})"
        if it[0] == "BETWEEN":
            return f"{it[1]} BETWEEN {values[it[2]]} AND {values[it[3]]}"
        return f"{it[1]} {it[0]} {values[it[2]]}"

    # ---- what it does

    def names(self, rows):
        inserted = sum(it[0] == "INSERT" for it in self.statements)
        return [f"r{number + 1}" for number in range(len(rows))] + [f"i{number + 1}" for number in range(inserted)]

    def replay(self, rows, values):
        """The rows at the end, by their names."""
        table = {f"r{number}": dict(zip(self.columns, cells)) for number, cells in enumerate(rows, 1)}
        inserted = 0
        for statement in self.statements:
            if statement[0] == "INSERT":
                inserted += 1
                table[f"i{inserted}"] = dict(zip(self.columns, [values[it] for it in statement[1]]))
            elif statement[0] == "DELETE":
                table = {name: row for name, row in table.items() if not holds(statement[1], row, values)}
            else:
                table = {name: self.updated(statement, row, values) for name, row in table.items()}
        return table

    def updated(self, statement, row, values):
        if not holds(statement[2], row, values):
            return row
        changed = dict(row)
        for column, (factor, read, sign, constant) in statement[1]:
            changed[column] = factor * row[read] + sign * values[constant]
        return changed


def holds(condition, row, values):
    if condition is None:
        return True
    if condition[0] == "AND":
        return holds(condition[1], row, values) and holds(condition[2], row, values)
    if condition[0] == "OR":
        return holds(condition[1], row, values) or holds(condition[2], row, values)
    if condition[0] == "BETWEEN":
        return values[condition[2]] <= row[condition[1]] <= values[condition[3]]
    return COMPARISONS[condition[0]](row[condition[1]], values[condition[2]])


class Problem:
    """A table, a log, complaints and ranges; `goals` has what each row is to be at the end, or None where it is to be gone."""

    def __init__(self, log, rows, ranges, complaints, goals):
        self.log, self.rows, self.ranges, self.complaints, self.goals = log, rows, ranges, complaints, goals

    def points(self):
        """How many points the ranges have."""
        count = 1
        for low, high in self.ranges.values():
            count *= high - low + 1
        return count

    def least_repair(self):
        """The cost and the constants of the least repair, or None, by trying every point."""
        best = None
        places = sorted(self.ranges)
        for chosen in itertools.product(*[range(self.ranges[it][0], self.ranges[it][1] + 1) for it in places]):
            key = (sum(abs(value - self.log.olds[it]) for it, value in zip(places, chosen)), chosen)
            if best is not None and key >= best[0]:
                continue
            values = list(self.log.olds)
            for place, value in zip(places, chosen):
                values[place] = value
            table = self.log.replay(self.rows, values)
            if all(table.get(name) == goal for name, goal in self.goals.items()):
                best = (key, values)
        return None if best is None else (best[0][0], best[1])

    def files(self):
        """The four files, by the names that the worked rows have for them."""
        lines = [",".join(self.log.columns)] + [",".join(map(str, it)) for it in self.rows]
        domains = [f"p{place + 1},{low},{high}" for place, (low, high) in sorted(self.ranges.items())]
        return {
            "I": "".join(line + "\n" for line in lines),
            "L": self.log.text(self.log.olds),
            "C": json.dumps(self.complaints, separators=(",", ":")),
            "D": "".join(line + "\n" for line in ["param,lo,hi", *domains]),
        }

    def answer(self):
        """The status of `diagnose`, what it says, and what `check` says of its certificate."""
        best = self.least_repair()
        if best is None:
            return 1, "none\n", "accepted: none\n"
        return 0, self.log.text(best[1]), f"accepted: repair {best[0]}\n"


def ranges_of(chance, log):
    places = chance.sample(range(len(log.olds)), chance.randint(1, min(3, len(log.olds))))
    reach = WIDEST[len(places)] // 2
    return {it: (max(0, log.olds[it] - chance.randint(0, reach)), log.olds[it] + chance.randint(0, reach)) for it in places}


def complaint_of(log, name, was, wanted):
    if wanted is None:
        return {"row": name, "state": "absent"}
    return {"row": name, "set": {it: wanted[it] for it in log.columns if was is None or was[it] != wanted[it]}}


def problem_of(seed):
    """The problem of a seed, or None where it has no complaint or too many points."""
    chance = random.Random(seed)
    log = Log(chance)
    rows = [[chance.randint(-9, 20) for _ in log.columns] for _ in range(chance.randint(1, 4))]
    ranges = ranges_of(chance, log)
    other = list(log.olds)
    for place in chance.sample(sorted(ranges), chance.randint(1, len(ranges))):
        other[place] = chance.randint(*ranges[place])
    was, wanted = log.replay(rows, log.olds), log.replay(rows, other)
    goals = {name: wanted.get(name) for name in log.names(rows)}
    complaints = [complaint_of(log, it, was.get(it), goals[it]) for it in goals if was.get(it) != goals[it]]
    problem = Problem(log, rows, ranges, complaints, goals)
    if not complaints or not 2 <= problem.points() <= MOST_POINTS:
        return None
    if chance.random() < 0.3:
        spoil(chance, problem)
    if chance.random() < 0.15 and len(complaints) > 1:
        left = complaints.pop(chance.randrange(len(complaints)))["row"]
        goals[left] = was.get(left)
    return problem


def spoil(chance, problem):
    """Asks for another value of a stated cell."""
    complaint = chance.choice(problem.complaints)
    if complaint.get("set"):
        column = chance.choice(sorted(complaint["set"]))
        complaint["set"][column] += chance.choice([-1, 1, 2, 5])
        problem.goals[complaint["row"]] = {**problem.goals[complaint["row"]], column: complaint["set"][column]}


def problems(first):
    """The problems from a seed on, each with its seed."""
    for seed in itertools.count(first):
        problem = problem_of(seed)
        if problem is not None:
            yield seed, problem

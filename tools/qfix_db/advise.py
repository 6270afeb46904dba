"""What would repair a log that has no repair within the ranges: one constant outside its range, or a factor. Hints; nothing is proved."""
from .evaluate import GREATEST, LEAST, Evaluator
from .language import Log

WORK = 3_000_000  # (rows times statements times tries, at most)


def goals(complaints, final):
    """What each row that somebody complains of should be: None where it should be gone, else its cells, as far as they are wanted."""
    made = {}
    for complaint in complaints:
        name = complaint.get("row")
        wanted = {it.lower(): str(value) for it, value in complaint.get("set", {}).items()}
        made[name] = None if complaint.get("state") == "absent" else {**final.rows.get(name, {}), **wanted}
    return made


def met(rows, wanted, final):
    """Whether a table (name to cells) is what is wanted: complained rows as stated, all others as they were."""
    for name, row in rows.items():
        goal = wanted[name] if name in wanted else final.rows.get(name)
        if (goal is None) != (row is None) or row is not None and any(row.get(it) != text for it, text in goal.items()):
            return False
    return True


def solution(rows, wanted, final, piece, near):
    """The value of x in a piece that makes the table what is wanted, the nearest to another, or None."""
    low, high = piece.low, piece.high
    for name, row in rows.items():
        goal = wanted[name] if name in wanted else final.rows.get(name)
        if (goal is None) != (row is None):
            return None
        for column, text in (goal or {}).items():
            cell = row[column]
            if isinstance(cell, str) or not cell[1]:
                if (cell if isinstance(cell, str) else str(cell[0])) != text:
                    return None
                continue
            rest = int(text) - cell[0]
            if rest % cell[1]:
                return None
            low, high = max(low, rest // cell[1]), min(high, rest // cell[1])
            if low > high:
                return None
    return min(max(near, low), high)


def alone(evaluator, constants, number, wanted, final, tries):
    """The nearest value of one constant that repairs by itself, the others as they are; None where none was found."""
    old, best = constants[number], None
    for step in (-1, 1):
        at = old
        for _ in range(tries):
            rows, piece = evaluator.at(constants, number, at)
            found = solution(rows, wanted, final, piece, old)
            if found is not None:
                if best is None or abs(found - old) < abs(best - old):
                    best = found
                break
            at = piece.low - 1 if step < 0 else piece.high + 1
            if not LEAST <= at <= GREATEST:
                break
    return best


def hints(choice, rows, matter, domains):
    """Lines about constants that repair alone outside their ranges, and factors that would."""
    log, final = choice.log, choice.final
    wanted = goals(choice.complaints, final)
    evaluator = Evaluator(log, rows, final.kinds)
    each = max(len(evaluator.starts) * max(len(log.statements), 1), 1)
    constants, lines = {it.number: it.value for it in log.params}, []
    tries = min(2000, WORK // each // max(2 * len(matter), 1))
    for param in matter if tries > 1 else []:
        found = alone(evaluator, constants, param.number, wanted, final, tries)
        if found is not None:
            low, high = domains.get(param.name, (param.value, param.value))
            where = (
                "its range has it" if low <= found <= high else f"its range {low}..{high} has it not" if param.name in domains else "it has no range"
            )
            lines.append(f"{param.name} = {found} alone repairs, and {where}: {choice.shown(param)}")
    for factor in log.factors if each * 40 * len(log.factors) < WORK else []:
        for value in sorted(range(-20, 21), key=lambda it: abs(it - factor.value)):
            changed = Log(log.data[: factor.start] + f" {value}".encode() + log.data[factor.end :])
            table = Evaluator(changed, rows, final.kinds).table({it.number: it.value for it in changed.params})
            if met({name: table.get(name) for name, _, _ in evaluator.starts}, wanted, final):
                lines.append(
                    f"the factor {value} in place of {factor.value} would repair (statement {factor.statement}); a factor is no constant that may change: correct it by hand"
                )
                break
    return lines

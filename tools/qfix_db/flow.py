"""Which constants of a log can matter to complaints: how they flow into columns, statement by statement.

A constant that stands in a value or a condition of an UPDATE flows into the columns that are set, with all that flowed into the columns
that are read; a DELETE's flow into the rows' lives. Lives are named LIVE here, which no column is.
"""
from .language import Log

LIVE = "*live*"


def columns_and_params(side):
    """What a side of a comparison, or a value, reads."""
    if isinstance(side, str):
        return set(), set()
    return {it.column for it in side if it.column}, {it.param for it in side if it.param}


def read_by(condition):
    """What a condition reads: columns and parameters."""
    if condition is None:
        return set(), set()
    if condition[0] in ("and", "or"):
        parts = [read_by(it) for it in condition[1]]
    elif condition[0] == "not":
        parts = [read_by(condition[1])]
    elif condition[0] == "compare":
        parts = [columns_and_params(it) for it in condition[2:]]
    elif condition[0] == "between":
        parts = [columns_and_params(it) for it in condition[1:]]
    else:
        parts = [columns_and_params(it) for it in [condition[1], *condition[2]]]
    return set().union(*(it[0] for it in parts)), set().union(*(it[1] for it in parts))


def flow(log: Log, names):
    """The parameters that flow into each column, and into LIVE, by the end of the log."""
    into = {name: set() for name in [*names, LIVE]}

    def all_of(columns, params):
        return params.union(*(into.get(it, set()) for it in columns))

    for statement in log.statements:
        condition = all_of(*read_by(statement.where))
        if statement.kind == "update":
            made = {name: all_of(*columns_and_params(side)) for name, side in statement.sets}
            if statement.where is not None:
                made = {name: made[name] | condition | into.get(name, set()) for name in made}
            into.update(made)
        elif statement.kind == "delete":
            into[LIVE] = into[LIVE] | condition
        else:
            for items in statement.tuples:
                for name, item in zip(statement.columns or names, items):
                    into[name] = into[name] | columns_and_params(item)[1]
    return into


def seeds(complaints, final):
    """The columns (and LIVE) in which a complaint asks for something else than the final table has."""
    made = set()
    for complaint in complaints:
        cells = final.rows.get(complaint.get("row"))
        stated = {name.lower(): value for name, value in complaint.get("set", {}).items()}
        if complaint.get("state", "present") == "absent":
            made |= {LIVE} if cells is not None else set()
        elif cells is None:
            made |= {LIVE, *stated}
        else:
            made |= {name for name, value in stated.items() if cells.get(name) != str(value)}
    return made


def needed(log, names, complaints, final):
    """The numbers of the parameters that can matter to the complaints: those that reach a column in which something is asked, and
    those whose columns they share, which may be needed to keep what nobody complains of."""
    reach = {it.number: set() for it in log.params}
    for column, params in flow(log, names).items():
        for number in params:
            reach[number].add(column)
    columns = seeds(complaints, final)
    made = set()
    while True:
        more = {number for number, reached in reach.items() if reached & columns}
        if more <= made:
            return made
        made |= more
        columns = columns.union(*(reach[it] for it in made))
